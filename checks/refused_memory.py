#!/usr/bin/env python3
"""Refuses each request for memory in turn, in worked examples of scrib_examples.

    refused_memory.py [--program FILE] [EXAMPLE ..]

An example is run again and again: request 1 is refused, then 2, then 3 and so on, until a run meets no refusal. The
library of refused_request.c.txt refuses it: `cc` builds that, and the loader puts it before the C library. Where a
call on a core is refused, scrib_examples compares the core with what it was, and makes the call again. A refused call on
a service or on queues it makes again; at any other it begins the example again. The replies must be those of the
example. Prints for each example how many requests were refused. Status: 0 fine, 1 a run failed, 2 a bad command line.
"""

import argparse
import os
import subprocess
import sys
import tempfile

HERE = os.path.dirname(os.path.abspath(__file__))
PROGRAM = os.path.join(HERE, "..", "crates", "scrib_examples", "out", "scrib_examples")
EXAMPLES = """
    conversation called-protocol changed-back withdrawn unmergeable turns json in-flight passes run front-end queues
    copies
""".split()


def run(program, example, shim, number):
    """Whether this request was refused, and whether the program printed the example's name and ended well."""
    read_end, write_end = os.pipe()
    words = dict(os.environ, LD_PRELOAD=shim, REFUSED_REQUEST=str(number), REFUSAL_FD=str(write_end))
    done = subprocess.run([program, "memory", example], env=words, pass_fds=[write_end], capture_output=True)
    os.close(write_end)
    refused = os.read(read_end, 1) == b"x"
    os.close(read_end)
    return refused, done.returncode == 0 and done.stdout == example.encode() + b"\n"


def refuse_each(program, example, shim):
    """How many requests of the example were refused, and how many runs differed from it."""
    number, failures, refused = 0, 0, True
    while refused:
        number += 1
        refused, is_well = run(program, example, shim, number)
        if not is_well:
            failures += 1
            print("%s: not as the example where request %d is refused" % (example, number), flush=True)
    if number == 1:
        failures += 1
        print("%s: no request was refused, so the library was not loaded" % example, flush=True)
    print("%s: %d requests refused" % (example, number - 1), flush=True)
    return number - 1, failures


def main():
    parser = argparse.ArgumentParser(description=__doc__, formatter_class=argparse.RawDescriptionHelpFormatter)
    parser.add_argument("--program", metavar="FILE", default=PROGRAM, help="the built scrib_examples")
    parser.add_argument("examples", metavar="EXAMPLE", nargs="*", help="one of: %s (default: all)" % " ".join(EXAMPLES))
    options = parser.parse_args()
    if not os.path.exists(options.program):
        parser.error("%s is not built: make examples" % options.program)
    unknown = set(options.examples) - set(EXAMPLES)
    if unknown:
        parser.error("no example is called %s" % " ".join(sorted(unknown)))
    program, total, failures = os.path.abspath(options.program), 0, 0
    with tempfile.TemporaryDirectory() as room:
        shim = os.path.join(room, "refused_request.so")
        source = os.path.join(HERE, "refused_request.c.txt")
        subprocess.run(["cc", "-O2", "-shared", "-fPIC", "-o", shim, "-x", "c", source, "-ldl"], check=True)
        for example in options.examples or EXAMPLES:
            refused, failed = refuse_each(program, example, shim)
            total += refused
            failures += failed
    print("%d requests refused in all, %d runs not as their examples" % (total, failures))
    return 1 if failures else 0


if __name__ == "__main__":
    sys.exit(main())
