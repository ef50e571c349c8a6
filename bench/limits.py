#!/usr/bin/env python3
"""Prints the cost of the dearest known inputs within the limits.

    limits.py [--program FILE]

Run it from anywhere, after `make build`. For each script it prints the bytes in, the bytes out, the seconds of
processor time and the most memory of `watch`, or of `run` for the last one. docs/PERFORMANCE.md has such figures. It
needs 2 GB of memory, and is no test. Status: 0 fine, 1 a script was not written, 2 a bad command line.
"""

import argparse
import itertools
import os
import subprocess
import sys
import tempfile

PROGRAM = os.path.join(os.path.dirname(os.path.abspath(__file__)), "..", "crates", "scribmon", "out", "scribmon")
TEXT_BYTES = 1_048_576


def put(text):
    return "put\n%s\n%%%%\n" % text


CHOICE = "choice at R0 { a() from R0 to R1; } or { b() from R0 to R1; }\n"


def long_protocols(protocols, count):
    """So many protocols of about 4,090 nodes, each for so many roles: one of messages in a ring, and calls of it."""
    roles = ["R%d" % i for i in range(count)]
    declared = ", ".join("role " + role for role in roles)
    body = " ".join("m%d() from %s to %s;" % (i % 7, roles[i % count], roles[(i + 1) % count]) for i in range(4090))
    text = "module m;\nglobal protocol P0(%s) { %s }\n" % (declared, body)
    for i in range(1, protocols):
        text += "global protocol P%d(%s) { a() from R0 to R1; do P0(%s); }\n" % (i, declared, ", ".join(roles))
    return put(text)


def wide_protocols(protocols, count):
    """So many protocols of 65,535 nodes and more, for so many roles: fifteen choices of two messages in a row."""
    roles = ["R%d" % i for i in range(count)]
    declared = ", ".join("role " + role for role in roles)
    text = "module w;\n"
    for i in range(protocols):
        text += "global protocol P%d(%s) {\n%s}\n" % (i, declared, CHOICE * 15)
    return put(text)


def many_loops():
    """2,000 loops in a row, each with a choice that leaves it, and fourteen choices behind them."""
    loop = "rec X { choice at R0 { a() from R0 to R1; continue X; } or { b() from R0 to R1; } }\n"
    return put("module l;\nglobal protocol L(role R0, role R1) {\n%s%s}\n" % (loop * 2000, CHOICE * 14))


def wide_choice():
    """One choice of 30,000 messages."""
    branches = " or ".join("{ m%d() from R0 to R1; }" % i for i in range(30_000))
    return put("module c;\nglobal protocol C(role R0, role R1) { choice at R0 %s }\n" % branches)


def opened_choice():
    """The same, and a conversation of it."""
    return wide_choice() + "open 0 c.C\n"


# The hash of names, as in crates/scrib_types/src/hashing.rt.
MULTIPLIER = 0x9E37_79B9_7F4A_7C15
LETTERS = b"ABCDEFGHIJKLMNOPQRSTUVWXYZ_abcdefghijklmnopqrstuvwxyz0123456789"


def mix(before, word):
    """The hash with the word after it."""
    return ((((before << 5) | (before >> 59)) & (2**64 - 1)) ^ word) * MULTIPLIER % 2**64


def hash_of(name):
    """The hash of a name whose length is a multiple of four."""
    found = 0
    for at in range(0, len(name), 4):
        found = mix(found, int.from_bytes(name[at : at + 4], "little"))
    return found


def same_slot(prefix, slots):
    """The names of the prefix and four letters whose slot is the first, out of so many (a power of two)."""
    before = hash_of(prefix)
    turned = ((before << 5) | (before >> 59)) & (2**64 - 1)
    low, high = turned & 0xFFFF, turned ^ (turned & 0xFFFF)
    by_slot = {}
    for c in LETTERS:
        for d in LETTERS:
            product = (high ^ (c << 16 | d << 24)) * MULTIPLIER
            by_slot.setdefault((product >> 32) % slots, []).append(bytes([c, d]))
    for a in LETTERS:
        for b in LETTERS:
            product = (low ^ (a | b << 8)) * MULTIPLIER
            # the lower halves of the two products may carry one into the slot
            for carry in (0, 1):
                for end in by_slot.get((-(product >> 32) - carry) % slots, ()):
                    name = prefix + bytes([a, b]) + end
                    if (hash_of(name) >> 32) % slots == 0:
                        yield name.decode()


def choice_of_one_slot():
    """One choice of 18,000 messages whose operators have one slot of the 32,768 that their table has."""
    operators = (name for i in range(18_000) for name in same_slot(b"operator_%015d" % i, 32_768))
    branches = " or ".join("{ %s() from R0 to R1; }" % name for name in itertools.islice(operators, 18_000))
    return put("module h;\nglobal protocol H(role R0, role R1) { choice at R0 %s }\n" % branches)


def learned_choice():
    """One choice of 16,000 messages, which a third role learns from its own messages, under the profile `reception`."""
    branches = " or ".join("{ m%d() from R0 to R1; m%d() from R0 to R2; }" % (i, i) for i in range(16_000))
    text = "module r;\nglobal protocol R(role R0, role R1, role R2) { choice at R0 %s }\n" % branches
    return "profile reception\n" + put(text)


def large_modules():
    """256 modules of 1 MiB, each with four protocols of 4,090 messages and a comment."""
    body = " ".join("msg%d(Int, Str) from Alpha to Beta;" % (i % 50) for i in range(4090))
    for m in range(256):
        text = "module m%d;\n" % m
        for k in range(4):
            text += "global protocol P%d(role Alpha, role Beta) { %s }\n" % (k, body)
        yield put(text + "//" + "x" * (TEXT_BYTES - len(text) - 3))


def long_replies():
    """A choice of 1,500 operators of 128 bytes, and 2,000 events behind an offence there."""
    branches = " or ".join("{ %s%04d() from A to B; }" % ("o" * 124, i) for i in range(1500))
    text = "module d; global protocol D(role A, role B) { choice at A %s }" % branches
    return put(text) + "open 1 d.D\njoin 1 A\njoin 1 B\n" + "send 1 A B x()\n" * 2000


def long_log():
    """A log of 1,048,576 events, all but two in flight."""
    text = "module k; global protocol K(role A, role B) { rec X { a() from A to B; continue X; } }"
    return put(text) + "open 1 k.K\njoin 1 A\njoin 1 B\n" + "send 1 A B a()\n" * 1_048_574


def wide_events():
    """20,000 events of conversations of a protocol of 65,535 nodes."""
    text = "module w;\nglobal protocol W(role R0, role R1) {\n%s}\n" % (CHOICE * 15)
    opened = (
        "open %d w.W\njoin %d R0\n" % (c, c) + ("send %d R0 R1 a()\n" % c) * 15 for c in range(1250)
    )
    return put(text) + "".join(opened)


def write(path, make):
    """Writes the script in a process of its own: the most memory of each child begins with that of this process."""
    writer = os.fork()
    if writer == 0:
        with open(path, "w") as file:
            file.writelines(make())
        os._exit(0)
    if os.waitpid(writer, 0)[1] != 0:
        sys.exit("a script was not written")


def cost(program, name, make, command="watch"):
    """Prints what a script costs under `watch`, or as the setup of `run` with one empty connection."""
    with tempfile.TemporaryDirectory() as folder:
        path, printed = os.path.join(folder, "script"), os.path.join(folder, "printed")
        write(path, make)
        words = [program, command, path] + ([os.devnull] if command == "run" else [])
        with open(printed, "wb") as file:
            ran = subprocess.Popen(words, stdout=file)
            _, status, used = os.wait4(ran.pid, 0)
        line = "%-16s %9d bytes in, %9d out, %6.2f s, %7.1f MB" % (
            name, os.path.getsize(path), os.path.getsize(printed), used.ru_utime + used.ru_stime, used.ru_maxrss / 1024)
        print(line if status == 0 else line + ", status %d" % status)


def main():
    parser = argparse.ArgumentParser(description=__doc__, formatter_class=argparse.RawDescriptionHelpFormatter)
    parser.add_argument("--program", metavar="FILE", default=PROGRAM, help="the built scribmon")
    program = parser.parse_args().program
    if not os.path.exists(program):
        parser.error("%s is not built: make build" % program)
    cost(program, "one long type", lambda: long_protocols(1, 2))
    cost(program, "one wide type", lambda: wide_protocols(1, 2))
    cost(program, "a wide type, 64", lambda: wide_protocols(1, 64))
    cost(program, "wide types", lambda: wide_protocols(64, 16))
    cost(program, "many loops", many_loops)
    cost(program, "one wide choice", wide_choice)
    cost(program, "opened choice", opened_choice)
    cost(program, "choice, one slot", choice_of_one_slot)
    cost(program, "learned choice", learned_choice)
    cost(program, "long types", lambda: long_protocols(1024, 16))
    cost(program, "large modules", large_modules)
    cost(program, "long replies", long_replies)
    cost(program, "long log", long_log)
    cost(program, "wide events", wide_events)
    cost(program, "over a service", wide_events, "run")


if __name__ == "__main__":
    main()
