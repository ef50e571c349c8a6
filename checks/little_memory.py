#!/usr/bin/env python3
"""Runs scribmon with its address space cut to 4, 8, 16 and so on to 512 MB, over examples, a long log and a large
module.

    little_memory.py [--program FILE]

A reply must be the right one, or `refused OutOfMemory` for a step that changed nothing: the other replies must be
those that the other steps alone get with ample memory. The program may also end early, with `scribmon: out of memory`
and status 1, behind some of these replies. Prints for each size how many runs gave all replies, how many steps were
refused and how many runs ended early. Status: 0 fine, 1 a run did anything else, 2 a bad command line.
"""

import resource
import subprocess
import sys

from built_program import built_program
from examples import read_numbered

REFUSED = b"refused OutOfMemory"
SIZES = [4, 8, 16, 32, 64, 128, 256, 512]
EXCHANGES = [b"send 1 A B a()", b"recv 1 A B a()"]


def steps_of(script):
    """The parts of the script that get one reply each: a line, or a module text with its `put`."""
    steps, text = [], b""
    for line in script.split(b"\n"):
        word = line.strip()
        if text:
            text += line + b"\n"
            if word == b"%%":
                steps.append(text)
                text = b""
        elif word in (b"put", b"json put"):
            text = line + b"\n"
        elif word and not word.startswith(b"#"):
            steps.append(line + b"\n")
    return steps + ([text] if text else [])


def run(program, script, megabytes):
    """The replies, the lines of standard error, and the status."""
    def cut():
        if megabytes:
            resource.setrlimit(resource.RLIMIT_AS, (megabytes << 20, megabytes << 20))
    done = subprocess.run([program, "watch"], input=script, capture_output=True, preexec_fn=cut)
    return done.stdout.split(b"\n")[:-1], done.stderr.splitlines(), done.returncode


def long_log():
    """A log of 32,000 sends and then as many receives."""
    lines = [b"put", b"module k; global protocol K(role A, role B) { rec X { a() from A to B; continue X; } }", b"%%"]
    lines += [b"open 1 k.K", b"join 1 A", b"join 1 B"]
    lines += [EXCHANGES[0]] * 32_000 + [EXCHANGES[1]] * 32_000 + [b"ask 1"]
    return b"\n".join(lines) + b"\n"


def large_module():
    """A module text of 1 MB, put twice with two bodies, and two events."""
    step = b"message(Int, Str) from First to Second; " * 100
    body = b"".join(b"global protocol P%d(role First, role Second) { %s }\n" % (i, step) for i in range(250))
    put = b"put\nmodule m;\n%s%%%%\n"
    events = b"open 1 m.P3\njoin 1 First\nsend 1 First Second message(Nat,Str)\n"
    return put % body + put % body.replace(b"Int", b"Nat") + events


def fault_of(program, script, megabytes, counts):
    """What is wrong with a run, or None."""
    steps = steps_of(script)
    replies, complaints, status = run(program, script, megabytes)
    ended = status == 1 and b"scribmon: out of memory" in complaints
    if not ended and (status != 0 or complaints):
        return "status %d, %r" % (status, complaints)
    if len(replies) > len(steps) or (not ended and len(replies) != len(steps)):
        return "%d replies to %d steps" % (len(replies), len(steps))
    made = [step for step, reply in zip(steps, replies) if reply != REFUSED]
    wanted, _, _ = run(program, b"".join(made), None)
    given = [reply for reply in replies if reply != REFUSED]
    counts["whole"] += not ended
    counts["refused"] += len(replies) - len(given)
    counts["early"] += ended
    for at, (one, other) in enumerate(zip(given, wanted)):
        if one != other:
            return "reply %d is %r and not %r" % (at + 1, one, other)
    return None if len(given) == len(wanted) else "%d replies and not %d" % (len(given), len(wanted))


def main():
    program = built_program(__doc__)
    scripts = {example.path: example.input for example in read_numbered()}
    scripts["a long log"] = long_log()
    scripts["a large module"] = large_module()
    failed = False
    for megabytes in SIZES:
        counts = {"whole": 0, "refused": 0, "early": 0}
        for name, script in sorted(scripts.items()):
            fault = fault_of(program, script, megabytes, counts)
            if fault:
                print("%d MB, %s: %s" % (megabytes, name, fault))
                failed = True
        line = "%d MB: %d runs gave all replies, %d steps were refused, %d runs ended early"
        print(line % (megabytes, counts["whole"], counts["refused"], counts["early"]), flush=True)
    return 1 if failed else 0


if __name__ == "__main__":
    sys.exit(main())
