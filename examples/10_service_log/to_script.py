#!/usr/bin/env python3
"""Prints the script that the log of some services on standard input makes.

    to_script.py MODULE.. < LOG

First come the named module texts, each behind a line `put`. Log lines that report no step of a session are dropped.
Each line is printed as soon as it was read, so the log may come from a pipe that is held open.
"""

import re
import sys

OPENED = re.compile(r"session (\d+) opened as (\S+)$")
JOINED = re.compile(r"session (\d+) (\w+) connected$")
SENT = re.compile(r"session (\d+) (\w+) -> (\w+) (\S+)$")
RECEIVED = re.compile(r"session (\d+) (\w+) <- (\w+) (\S+)$")


def step_of(line):
    """The script line of a log line, or None where it reports no step of a session."""
    if found := OPENED.search(line):
        return "open %s %s" % found.groups()
    if found := JOINED.search(line):
        return "join %s %s" % found.groups()
    if found := SENT.search(line):
        return "send %s %s %s %s" % found.groups()
    if found := RECEIVED.search(line):
        session, receiver, sender, message = found.groups()
        return "recv %s %s %s %s" % (session, sender, receiver, message)
    return None


def main():
    for path in sys.argv[1:]:
        with open(path, encoding="utf-8") as module:
            print("put", module.read().rstrip("\n"), "%%", sep="\n", flush=True)
    for line in sys.stdin:
        step = step_of(line)
        if step:
            print(step, flush=True)


if __name__ == "__main__":
    main()
