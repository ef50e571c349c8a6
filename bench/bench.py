#!/usr/bin/env python3
"""Times the built program on large libraries, module texts and logs.

    bench.py [--program FILE] [--beside FILE]

Run it from anywhere, after `make build`. For each script it prints the bytes, the seconds of processor time of
`scribmon watch`, and the most memory that this held. Memory below 15 to 20 MB is not seen: this script holds that
much itself. With --beside it does the same for another program with the same command, in turn with the first, and
prints whether both outputs are the same. The best of three runs counts. From the two scripts of events it prints the
time and memory of one event more. It is no test: it compares nothing but outputs. Status: 0 fine, 1 a program failed,
2 a bad command line.
"""

import argparse
import hashlib
import os
import random
import subprocess
import sys
import tempfile

PROGRAM = os.path.join(os.path.dirname(os.path.abspath(__file__)), "..", "crates", "scribmon", "out", "scribmon")
LIMIT = 1_048_576
RUNS = 3


def put(text):
    return "put\n" + text + "\n%%\n"


def long_text(name="long", seed=0):
    """One module of protocols of a hundred messages each, and a comment up to the limit."""
    pick = random.Random(seed)
    parts = ["module %s;\n" % name]
    size = len(parts[0])
    for i in range(200):
        body = "".join("message%d(Int, Str) from First to Second;\n" % pick.randrange(40) for _ in range(100))
        part = "global protocol P%d(role First, role Second) {\n%s}\n" % (i, body)
        if size + len(part) > LIMIT - 100:
            break
        parts.append(part)
        size += len(part)
    parts.append("// " + "x" * (LIMIT - size - 5) + "\n")
    return put("".join(parts))


def long_texts():
    """Four such modules, each put ten times: three times in ten with unchanged protocols."""
    seeds = [0, 1, 2, 3]
    for revision in range(10):
        for i in range(4):
            if revision % 3 != 1:
                seeds[i] += 4
            yield long_text("m%d" % i, seeds[i])


def nodes():
    """One protocol of 4,095 nodes: eleven choices of two branches, one behind the other."""
    choice = "choice at A { a() from A to B; } or { b() from A to B; }\n"
    return put("module wide; global protocol P(role A, role B) {\n" + choice * 11 + "}")


def chained_module(i):
    """The module of this number: four protocols, most of which call those of the previous module."""
    lines = ["module m%d;" % i]
    if i:
        lines.append("import m%d;" % (i - 1))
    for j in range(4):
        call = "do m%d.P%d(A, B);" % (i - 1, j) if i % 16 else ""
        lines.append("global protocol P%d(role A, role B) { a() from A to B; %s }" % (j, call))
    return put("\n".join(lines))


def many_modules():
    """256 modules of four protocols. Each imports the previous module and calls its protocols."""
    return "".join(chained_module(i) for i in range(256))


def edits_of_one(others):
    """One module without importers, put a thousand times with two bodies in turn, among so many others."""
    script = [chained_module(i) for i in range(others)]
    for i in range(1000):
        operator = "ab"[i % 2]
        script.append(put("module one; global protocol P(role A, role B) { %s() from A to B; }" % operator))
    return "".join(script)


def nested_calls(step):
    """1,000 protocols in a chain, each with one call in 60 nested blocks: of the one whose number is `step` more."""
    lines = ["module t;"]
    for i in range(1000):
        inner = "do P%d(A, B);" % (i + step) if 0 <= i + step < 1000 else "a() from A to B;"
        lines.append("global protocol P%d(role A, role B) { %s%s%s }" % (i, "choice at A { " * 60, inner, " }" * 60))
    return put("\n".join(lines))


def silent_chain():
    """A protocol of 60,000 choices that add nothing, and one message."""
    chain = "choice at A { }\n" * 60_000
    return put("module s; global protocol P(role A, role B) {\n" + chain + "a() from A to B; }")


def events(logs):
    """So many logs of 62,500 events each, one behind the other: sends and receives of a loop of two roles."""
    yield put("module loop; global protocol P(role A, role B) {\nrec X { ask(Int) from A to B; answer(Str) from B to A; continue X; }\n}")
    for i in range(logs):
        yield "open %d loop.P\njoin %d A\njoin %d B\n" % (i, i, i)
        turn = "send %d A B ask(Int)\nrecv %d A B ask(Int)\nsend %d B A answer(Str)\nrecv %d B A answer(Str)\n" % (i, i, i, i)
        yield turn * (62_500 // 4)


SCRIPTS = [
    ("wide type", nodes),
    ("silent chain", silent_chain),
    ("long text", long_text),
    ("long texts", long_texts),
    ("256 modules", many_modules),
    ("edits alone", lambda: edits_of_one(1)),
    ("edits among", lambda: edits_of_one(255)),
    ("nested calls", lambda: nested_calls(1)),
    ("called first", lambda: nested_calls(-1)),
    ("1 M events", lambda: events(16)),
    ("2 M events", lambda: events(32)),
]


def run_once(program, path):
    """Seconds of processor time, the most KiB held, and a digest of the output.

    The output is not kept, since the most memory of a child begins with what this process held.
    """
    with tempfile.TemporaryFile() as out:
        child = subprocess.Popen([program, "watch", path], stdout=out)
        _, status, usage = os.wait4(child.pid, 0)
        out.seek(0)
        if status != 0:
            sys.exit("%s: status %d" % (program, status))
        digest = hashlib.sha256(out.read()).digest()
        return usage.ru_utime + usage.ru_stime, usage.ru_maxrss, digest


def measure(programs, path):
    """For each program the least seconds and the most KiB of three runs; and whether all outputs are the same."""
    runs = [[run_once(program, path) for program in programs] for _ in range(RUNS)]
    same = len({output for run in runs for _, _, output in run}) == 1
    return [(min(run[i][0] for run in runs), max(run[i][1] for run in runs)) for i in range(len(programs))], same


def print_event_costs(fewer, more):
    """Prints what one of a million further events costs each program."""
    cells = []
    for (seconds, memory), (more_seconds, more_memory) in zip(fewer, more):
        cells.append("%5.0f ns %5.1f bytes" % ((more_seconds - seconds) * 1e3, (more_memory - memory) * 1024 / 1e6))
    print("an event more: " + "  | ".join(cells))


def main():
    parser = argparse.ArgumentParser(description=__doc__, formatter_class=argparse.RawDescriptionHelpFormatter)
    parser.add_argument("--program", metavar="FILE", default=PROGRAM, help="the built scribmon")
    parser.add_argument("--beside", metavar="FILE", help="another program to run in turn with it")
    options = parser.parse_args()
    programs = [options.program] + ([options.beside] if options.beside else [])
    for program in programs:
        if not os.path.exists(program):
            parser.error("%s is not built: make build" % program)
    costs = {}
    with tempfile.TemporaryDirectory() as folder:
        for name, make in SCRIPTS:
            path = os.path.join(folder, "script")
            with open(path, "w", encoding="ascii") as script:
                pieces = make()
                script.writelines([pieces] if isinstance(pieces, str) else pieces)
            costs[name], same = measure(programs, path)
            cells = ["%8.3f s %8d KiB" % cost for cost in costs[name]]
            note = "" if len(programs) == 1 else ("  same output" if same else "  OUTPUTS DIFFER")
            print("%-14s %9d bytes %s%s" % (name, os.path.getsize(path), "  | ".join(cells), note), flush=True)
    print_event_costs(costs["1 M events"], costs["2 M events"])


if __name__ == "__main__":
    main()
