#!/usr/bin/env python3
"""Times steps of machines, and their compilation.

    machines.py [--rt RT]

Run it from anywhere, best after `make build`, which keeps proofs that this script uses again. It copies the crates
that it needs into a new folder, and proves and builds the program of `machine_times/` there. The names of that
program's files end in `.txt`, since the gate refuses Rattle files outside crates. The program reads no clock: it is
run with two counts of rounds, and a round takes the difference of the processor times by that of the counts. The best
of five runs counts. Prints nanoseconds for a step, by states of the machine and branches of the state: the mean of
the state's actions, on a walk from choice to choice. Prints nanoseconds of `compile` for a node, by nodes of the
local type. It is no test. Status: 0 fine, 1 the program was not built or made too few steps, 2 a bad command line.
"""

import argparse
import os
import re
import resource
import shutil
import subprocess
import sys
import tempfile

TOP = os.path.join(os.path.dirname(os.path.abspath(__file__)), "..")
CRATES = ["scrib_types", "scrib_lexer", "scrib_parser", "scrib_static_checks", "scrib_type_builder", "scrib_elaborate", "scrib_projection", "scrib_project", "scrib_machine"]
PROGRAM = "machine_times"
RUNS = 5


def choice(width, goes_on, others):
    """A choice of so many branches. The last of them, in the order of printed actions, goes on."""
    blocks = ["m%02d() from A to B; %s" % (i, goes_on if i == width - 1 else others) for i in range(width)]
    return "choice at A { %s }\n" % " } or { ".join(blocks)


def module(body):
    return "module m;\nglobal protocol P(role A, role B) {\n%s}\n" % body


def pair(width):
    """Two states: a choice to which all branches but the first return, and an end."""
    blocks = ["m%02d() from A to B; %s" % (i, "continue X;" if i else "") for i in range(width)]
    return module("rec X { choice at A { %s } }" % " } or { ".join(blocks))


def ring(line, choices, width):
    """A line of sends, and then a ring of choices. Each branch of a choice but one begins the ring again."""
    ring = choice(width, "", "continue Y;") * (choices - 1) + choice(width, "continue Y;", "continue Y;")
    return module("s() from A to B;\n" * line + "rec Y {\n%s}\n" % ring)


# states, branches of a choice, the module
STEPS = [
    (2, 2, pair(2)),
    (2, 64, pair(64)),
    (2_000, 2, ring(0, 2_000, 2)),
    (2_000, 64, ring(1_969, 31, 64)),
]

# nodes of the local type, the module
TYPES = [
    (4_095, "a line of sends", module("s() from A to B;\n" * 4_094)),
    (4_034, "a ring of 63 choices of 64", ring(0, 63, 64)),
]


def build(rt, folder):
    """The path of the program, proved and built in this folder."""
    lines = []
    with open(os.path.join(TOP, "crates.txt"), encoding="utf-8") as crates:
        lines = [line for line in crates if line.split(":")[0] in CRATES]
    with open(os.path.join(folder, "crates.txt"), "w", encoding="utf-8") as crates:
        crates.writelines(lines + ["%s: %s\n" % (PROGRAM, " ".join(CRATES))])
    for crate in CRATES:
        shutil.copytree(os.path.join(TOP, "crates", crate), os.path.join(folder, "crates", crate))
    source = os.path.join(TOP, "bench", PROGRAM)
    home = os.path.join(folder, "crates", PROGRAM)
    for path, _, names in os.walk(source):
        to = os.path.join(home, os.path.relpath(path, source))
        os.makedirs(to)
        for name in names:
            shutil.copy(os.path.join(path, name), os.path.join(to, re.sub(r"\.txt$", "", name)))
    done = subprocess.run([rt, "run", "--", "step", "0"], cwd=home, input=STEPS[0][2].encode(), capture_output=True)
    if done.returncode != 0:
        sys.exit(done.stdout.decode() + done.stderr.decode())
    return os.path.join(home, "out", PROGRAM)


def seconds(program, work, rounds, text):
    """The processor time of one run, and the number that it printed."""
    before = resource.getrusage(resource.RUSAGE_CHILDREN)
    done = subprocess.run([program, work, str(rounds)], input=text.encode(), capture_output=True, check=True)
    after = resource.getrusage(resource.RUSAGE_CHILDREN)
    return after.ru_utime + after.ru_stime - before.ru_utime - before.ru_stime, int(done.stdout)


def nanoseconds(program, work, rounds, made, text):
    """Nanoseconds of one step or node, where a round has `made` of them. All steps must have been made."""
    few = min(seconds(program, work, rounds // 10, text)[0] for _ in range(RUNS))
    runs = [seconds(program, work, rounds, text) for _ in range(RUNS)]
    if work == "step" and any(run[1] != rounds * made for run in runs):
        sys.exit("not all steps were made")
    many = min(run[0] for run in runs)
    return (many - few) / (rounds - rounds // 10) / made * 1e9


def main():
    parser = argparse.ArgumentParser(description=__doc__, formatter_class=argparse.RawDescriptionHelpFormatter)
    parser.add_argument("--rt", default=os.environ.get("RT", "rt"), help="the kit's command (default: $RT, else rt)")
    rt = parser.parse_args().rt
    with tempfile.TemporaryDirectory() as folder:
        program = build(rt, folder)
        for states, width, text in STEPS:
            spent = nanoseconds(program, "step", 20_000_000 // width, width, text)
            print("step in %5d states, %2d branches %8.1f ns" % (states, width, spent), flush=True)
        for nodes, name, text in TYPES:
            spent = nanoseconds(program, "compile", 200, nodes, text)
            print("compile %s, %d nodes %8.1f ns a node" % (name, nodes, spent), flush=True)


if __name__ == "__main__":
    main()
