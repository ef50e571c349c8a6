#!/usr/bin/env python3
"""Reads the JSON lines of standard input with Python's parser, and compares each with what that writes of it.

    scribmon watch --json SCRIPT | json_lines.py

A line that begins with { must be one object without blanks, with its keys in the order of their bytes. Other lines
are passed over. Prints how many objects came. Status: 0 fine, 1 a line is wrong or none came, 2 a bad command line.
"""

import argparse
import json
import sys


def fault_of(line):
    """What is wrong with a line, or None."""
    try:
        value = json.loads(line)
    except ValueError as fault:
        return "%r is no JSON: %s" % (line, fault)
    again = json.dumps(value, separators=(",", ":"), sort_keys=True, ensure_ascii=False) + "\n"
    return None if again == line else "%r, and written again %r" % (line, again)


def main():
    argparse.ArgumentParser(description=__doc__, formatter_class=argparse.RawDescriptionHelpFormatter).parse_args()
    count = 0
    for number, line in enumerate(sys.stdin, 1):
        if not line.startswith("{"):
            continue
        count += 1
        fault = fault_of(line)
        if fault:
            print("line %d: %s" % (number, fault))
            return 1
    print("%d lines of JSON" % count)
    return 0 if count else 1


if __name__ == "__main__":
    sys.exit(main())
