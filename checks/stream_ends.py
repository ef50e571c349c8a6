#!/usr/bin/env python3
"""Runs scribmon with a terminal as standard input, and with an output whose reader has gone.

    stream_ends.py [--program FILE]

Prints how many runs were right. Status: 0 fine, 1 a run printed or returned something else, 2 a bad command line.
"""

import os
import pty
import subprocess
import sys

from built_program import built_program

HINT = b"scribmon: reading a script from the terminal;"
LOST_STATUS = 141


def is_hinted(program, words, is_wanted):
    """Whether the hint is printed once, and first, exactly where it is wanted: standard input is a terminal that ends."""
    main, terminal = pty.openpty()
    run = subprocess.Popen([program, *words], stdin=terminal, stdout=subprocess.PIPE, stderr=subprocess.PIPE)
    os.close(terminal)
    os.write(main, b"\x04")
    _, messages = run.communicate(timeout=20)
    os.close(main)
    wanted = 1 if is_wanted else 0
    return messages.count(HINT) == wanted and messages.startswith(HINT) == is_wanted


def is_silent(program, words, script):
    """Whether the program ends with status 141 and no message, where the reader of its output has gone."""
    reader, writer = os.pipe()
    os.close(reader)
    run = subprocess.Popen([program, *words], stdin=subprocess.PIPE, stdout=writer, stderr=subprocess.PIPE)
    os.close(writer)
    _, messages = run.communicate(script, timeout=20)
    return run.returncode == LOST_STATUS and messages == b""


def main():
    program = built_program(__doc__)
    asked = b"ask 1\n"
    runs = [(["watch"], True), (["watch", "-"], True), (["hold"], True), (["watch", os.devnull], False)]
    found = [words for words, wanted in runs if not is_hinted(program, words, wanted)]
    lost = [["watch"], ["watch", "--json"], ["watch", "--tags"], ["watch", "--hold", "9"], ["watch", "--close-complete"],
            ["hold"], ["next", "1"], ["explain", "1"], ["check", "-"]]
    found += [words for words in lost if not is_silent(program, words, asked)]
    for words in found:
        print("wrong: scribmon %s" % " ".join(words))
    print("%d runs, %d wrong" % (len(runs) + len(lost), len(found)))
    return 1 if found else 0


if __name__ == "__main__":
    sys.exit(main())
