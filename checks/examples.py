#!/usr/bin/env python3
"""Joins the worked examples into the stored run of scrib_examples, compares it, and runs examples by name.

    examples.py join                    writes crates/scrib_examples/stdin and stdout
    examples.py check                   compares these two files with what `join` would write
    examples.py list [NAME ..]          prints the names and titles of examples
    examples.py run [NAME ..]           runs examples and compares their outputs

An example is a title, a command, an input and an output. It has one of two homes:

- a case: crates/scrib_examples/cases/TOPIC/NAME.in and NAME.out, in the form that the README.md there describes;
- a script of a numbered folder of examples/, with NAME.out beside it: see NUMBERED in this file.

A NAME selects the examples of this name (the_queue_is_empty), of this topic or numbered folder (verdicts,
02_two_buyer), or of both (02_two_buyer/good). Without a NAME all are selected. `run` takes the built program of
scrib_examples. Where it is not built, `rt try` builds it without proof, in a minute or two; with that program all
examples together take more than ten minutes. Status: 0 fine, 1 an example is wrong, 2 a bad command line, or no
program and no `rt`.
"""

import argparse
import difflib
import os
import re
import resource
import shutil
import subprocess
import sys
import tempfile
from collections import Counter
from pathlib import Path
from typing import NamedTuple

TOP = Path(__file__).resolve().parent.parent
EXAMPLES = TOP / "examples"
CRATE = TOP / "crates" / "scrib_examples"
CASES = CRATE / "cases"
DATA = CRATE / "data"
PROGRAM = CRATE / "out" / "scrib_examples"
HEAD = b"Worked examples: a title, a command of the program, and its input.\n"
# The program splits its input at each mark, at the beginning of a line or not.
MARK = b"== "
LINE_MARK = re.compile(rb"^== ", re.MULTILINE)
NAME = re.compile(r"[a-z0-9_]{1,60}\Z")
# The seconds and the bytes of stack of the program under `rt try`, which builds it with checks.
TRY_SECONDS = 3600
TRY_STACK = 1 << 30

# The three logs of 12_skewed_clocks in the order of their times, as a script.
SKEWED = (
    "LC_ALL=C sort 12_skewed_clocks/client.log 12_skewed_clocks/shop.log 12_skewed_clocks/bank.log"
    " | python3 10_service_log/to_script.py 10_service_log/shop.scr"
)

# The scripts of examples/: folder and name, command, and the shell command that prints the input there.
NUMBERED = [
    ("01_hello/good", "watch", "./put.sh 01_hello/hello.scr 01_hello/good.script"),
    ("01_hello/receive_before_send", "watch", "cat 01_hello/receive_before_send.script"),
    ("01_hello/undeclared_role", "watch", "./put.sh 01_hello/hello.scr 01_hello/undeclared_role.script"),
    ("02_two_buyer/good", "watch", "./put.sh 02_two_buyer/two_buyer.scr 02_two_buyer/good.script"),
    ("02_two_buyer/bad", "watch", "./put.sh 02_two_buyer/two_buyer.scr 02_two_buyer/bad.script"),
    ("03_streaming/good", "watch", "./put.sh 03_streaming/streaming.scr 03_streaming/good.script"),
    ("03_streaming/bad", "watch", "./put.sh 03_streaming/streaming.scr 03_streaming/bad.script"),
    ("04_retries/good", "watch", "./put.sh 04_retries/retries.scr 04_retries/good.script"),
    ("04_retries/bad", "watch", "./put.sh 04_retries/retries.scr 04_retries/bad.script"),
    ("05_authorization/good", "watch", "./put.sh 05_authorization/authorization.scr 05_authorization/good.script"),
    ("05_authorization/bad", "watch", "./put.sh 05_authorization/authorization.scr 05_authorization/bad.script"),
    ("06_map_reduce/good", "watch", "./put.sh 06_map_reduce/map_reduce.scr 06_map_reduce/good.script"),
    ("06_map_reduce/bad", "watch", "./put.sh 06_map_reduce/map_reduce.scr 06_map_reduce/bad.script"),
    ("07_travel/good", "watch", "./put.sh --reception 07_travel/travel.scr 07_travel/good.script"),
    ("07_travel/bad", "watch", "./put.sh --reception 07_travel/travel.scr 07_travel/bad.script"),
    ("08_edit_under_way/edited", "watch", "cat 08_edit_under_way/edited.script"),
    ("09_in_flight/in_flight", "explain 1", "./put.sh 01_hello/hello.scr 09_in_flight/in_flight.script"),
    ("09_in_flight/three_queues", "explain 1", "./put.sh 06_map_reduce/map_reduce.scr 09_in_flight/three_queues.script"),
    ("10_service_log/services", "watch", "cd 10_service_log && python3 to_script.py shop.scr < services.log"),
    ("12_skewed_clocks/held", "files watch --hold 1000", SKEWED),
    ("12_skewed_clocks/unheld", "watch", SKEWED),
    ("12_skewed_clocks/skewed", "files watch --hold 100", "cat 12_skewed_clocks/skewed.script"),
    ("13_stuck/stuck", "files next 1", "./put.sh 02_two_buyer/two_buyer.scr 13_stuck/stuck.script"),
    ("13_stuck/accepted", "files next 1", "./put.sh --reception 07_travel/travel.scr 13_stuck/accepted.script"),
    ("14_closed/closed", "watch", "./put.sh 01_hello/hello.scr 14_closed/closed.script"),
]


class Example(NamedTuple):
    folder: str  # the topic, or the numbered folder
    name: str
    text: bytes  # the title line, the command line and the input
    output: bytes

    @property
    def title(self):
        return self.text.split(b"\n", 1)[0].decode()

    @property
    def input(self):
        return self.text.split(b"\n", 2)[2]

    @property
    def path(self):
        return "%s/%s" % (self.folder, self.name)


class BadExamples(Exception):
    """Files that make no examples. The argument is a list of lines."""


class NoProgram(Exception):
    """No built program and no way to build one. The argument is a line."""


# Reading the two homes.


def bytes_of(path):
    """The content of a file, nothing where it is missing: faults_of_files reports that."""
    return path.read_bytes() if path.exists() else b""


def read_numbered():
    """The examples of the numbered folders, in the order of the table."""
    for path, command, printing in NUMBERED:
        folder, name = path.split("/")
        printed = subprocess.run(["sh", "-c", printing], cwd=EXAMPLES, stdout=subprocess.PIPE, check=True)
        head = "example %s %s\n%s\n" % (folder, name, command)
        yield Example(folder, name, head.encode() + printed.stdout, bytes_of(EXAMPLES / (path + ".out")))


def read_cases():
    """The cases, ordered by topic and then by name."""
    for path in sorted(CASES.glob("*/*.in")):
        yield Example(path.parent.name, path.stem, path.read_bytes(), bytes_of(path.with_suffix(".out")))


def faults_of_form(example):
    """What makes this no example that the program can read."""
    if not NAME.match(example.name):
        yield "a name has 1 to 60 lowercase letters, digits and underscores"
    if example.text.count(b"\n") < 2:
        yield "the title line or the command line is missing"
    if MARK in example.text:
        yield "the text holds '== ', at which the program splits its input"
    if LINE_MARK.search(example.output):
        yield "a line of the output begins with '== '"
    if not example.output.endswith(b"\n") and example.output:
        yield "the output does not end with a line feed"


def faults_of_files():
    """Files that belong to no example, and a text that differs from its copy."""
    for path in sorted(CASES.glob("*/*")):
        other = {".in": ".out", ".out": ".in"}.get(path.suffix, "")
        if not other or not path.with_suffix(other).exists():
            yield "%s: a case is a pair NAME.in and NAME.out" % path.relative_to(TOP)
    listed = {EXAMPLES / (path + ".out") for path, _, _ in NUMBERED}
    for path in sorted(listed ^ set(EXAMPLES.glob("*/*.out"))):
        fault = "missing, and in" if path in listed else "not in"
        yield "%s: %s the table NUMBERED of checks/examples.py" % (path.relative_to(TOP), fault)
    module, script = EXAMPLES / "01_hello" / "hello.scr", EXAMPLES / "01_hello" / "receive_before_send.script"
    if b"put\n" + module.read_bytes() + b"%%\n" not in script.read_bytes():
        yield "%s: does not put the text of hello.scr" % script.relative_to(TOP)


def repeated(values):
    return [value for value, count in Counter(values).items() if count > 1]


def read_examples():
    """All examples, in the order of the stored run: those of the numbered folders, then the cases."""
    numbered, cases = list(read_numbered()), list(read_cases())
    examples = numbered + cases
    faults = list(faults_of_files())
    for example in examples:
        faults += ["%s: %s" % (example.path, fault) for fault in faults_of_form(example)]
    faults += ["%s: two cases have this name" % name for name in repeated(case.name for case in cases)]
    faults += ["%s: two examples have this title" % title for title in repeated(example.title for example in examples)]
    if faults:
        raise BadExamples(faults)
    return examples


def selected(examples, names):
    """The examples that the names select, all where there is none; and the names that select nothing."""
    unknown = set(names) - {word for e in examples for word in (e.name, e.folder, e.path)}
    chosen = [e for e in examples if not names or not {e.name, e.folder, e.path}.isdisjoint(names)]
    return chosen, sorted(unknown)


# The stored run.


def joined_input(examples):
    return HEAD + b"".join(MARK + example.text for example in examples)


def joined_output(examples):
    return b"".join(MARK + example.title.encode() + b"\n" + example.output for example in examples)


def split_input(text):
    """The text of each example, by its title."""
    return {part.split(b"\n", 1)[0].decode(): part for part in text.split(MARK)[1:]}


def split_output(text):
    """The output of each example, by its title."""
    parts = (part.partition(b"\n") for part in LINE_MARK.split(text)[1:])
    return {title.decode(errors="replace"): output for title, _, output in parts}


def differences(examples):
    """A line for each example whose text or output is not the stored one."""
    stored_input, stored_output = bytes_of(CRATE / "stdin"), bytes_of(CRATE / "stdout")
    texts, outputs = split_input(stored_input), split_output(stored_output)
    for example in examples:
        if texts.pop(example.title, None) != example.text:
            yield "%s: not as in crates/scrib_examples/stdin" % example.path
        if outputs.pop(example.title, None) != example.output:
            yield "%s: not as in crates/scrib_examples/stdout" % example.path
    for title in sorted({*texts, *outputs}):
        yield "%s: in the stored run alone" % title
    if stored_input != joined_input(examples) or stored_output != joined_output(examples):
        yield "`python3 checks/examples.py join` writes both files"


# Running.


def output_of_program(program, text):
    """What the built program prints over this input, in a folder that has the data files, and its status."""
    with tempfile.TemporaryDirectory() as room:
        folder = Path(room) / "data"
        shutil.copytree(DATA, folder)
        done = subprocess.run([str(program)], input=text, stdout=subprocess.PIPE, cwd=folder)
    return done.stdout, done.returncode


def allow_deep_stacks():
    """Raises the limit of the stack: calls of a program that is built with checks take more of it."""
    _, most = resource.getrlimit(resource.RLIMIT_STACK)
    wanted = TRY_STACK if most == resource.RLIM_INFINITY else min(TRY_STACK, most)
    resource.setrlimit(resource.RLIMIT_STACK, (wanted, most))


def output_of_try(rt, text):
    """The same of the program that `rt try` builds without proof."""
    if not shutil.which(rt):
        raise NoProgram("scrib_examples is not built (make examples builds it), and no command %s is on the path" % rt)
    print("scrib_examples is not built (make examples builds it): building it without proof", file=sys.stderr, flush=True)
    words = [rt, "try", "--seconds", str(TRY_SECONDS)]
    for path in sorted(path for path in DATA.rglob("*") if path.is_file()):
        words += ["--data", "%s=%s" % (path.relative_to(DATA), path)]
    done = subprocess.run(
        words, input=text, stdout=subprocess.PIPE, stderr=subprocess.PIPE, cwd=CRATE, preexec_fn=allow_deep_stacks)
    if done.returncode != 0:
        sys.stderr.buffer.write(done.stderr)
    return done.stdout, done.returncode


def lines_of(output):
    return output.decode(errors="backslashreplace").splitlines(keepends=True)


def failures(examples, output, status):
    """The texts to print: one for each example with another output, and those of a run that ended early."""
    outputs = split_output(output)
    missing = [example for example in examples if example.title not in outputs]
    for example in examples:
        found = outputs.get(example.title, example.output)
        if found != example.output:
            names = ("%s.out" % example.path, "what the program prints")
            yield "".join(difflib.unified_diff(lines_of(example.output), lines_of(found), *names))
    if missing:
        yield "%s and those behind it: not run, %d in all\n" % (missing[0].path, len(missing))
    if status != 0:
        yield "the program ended with status %d\n" % status


# The commands.


def join(_):
    examples = read_examples()
    (CRATE / "stdin").write_bytes(joined_input(examples))
    (CRATE / "stdout").write_bytes(joined_output(examples))
    print("%d examples joined" % len(examples))
    return 0


def check(_):
    examples = read_examples()
    lines = list(differences(examples))
    if lines:
        print("\n".join(lines))
        return 1
    topics = {example.folder for example in examples[len(NUMBERED):]}
    counts = (len(examples), len(NUMBERED), len(examples) - len(NUMBERED), len(topics))
    print("%d examples: %d of examples/, and %d cases of %d topics" % counts)
    return 0


def print_list(options):
    examples, unknown = selected(read_examples(), options.names)
    for example in examples:
        print("%s: %s" % (example.path, example.title))
    return refuse(unknown)


def run(options):
    examples, unknown = selected(read_examples(), options.names)
    if unknown:
        return refuse(unknown)
    text = joined_input(examples)
    if options.program or PROGRAM.exists():
        output, status = output_of_program(Path(options.program or PROGRAM).resolve(), text)
    else:
        output, status = output_of_try(options.rt, text)
    failed = list(failures(examples, output, status))
    sys.stdout.write("".join(failed))
    print("%d examples run, %s" % (len(examples), "with failures" if failed else "all as stored"))
    return 1 if failed else 0


def refuse(unknown):
    for name in unknown:
        print("no example, topic or folder is called %s: examples.py list prints all names" % name, file=sys.stderr)
    return 2 if unknown else 0


def parsed():
    parser = argparse.ArgumentParser(description=__doc__, formatter_class=argparse.RawDescriptionHelpFormatter)
    commands = parser.add_subparsers(dest="command", metavar="COMMAND", required=True)
    commands.add_parser("join", help="write the stored run").set_defaults(run=join)
    commands.add_parser("check", help="compare the stored run with its parts").set_defaults(run=check)
    lists = commands.add_parser("list", help="print names and titles")
    lists.set_defaults(run=print_list)
    runs = commands.add_parser("run", help="run examples and compare their outputs")
    runs.set_defaults(run=run)
    runs.add_argument("--program", metavar="FILE", help="the built scrib_examples")
    runs.add_argument("--rt", default=os.environ.get("RT", "rt"), help="the kit's command (default: $RT, else rt)")
    for command in (lists, runs):
        command.add_argument("names", metavar="NAME", nargs="*", help="an example, a topic or a numbered folder")
    options = parser.parse_args()
    if options.command == "run" and options.program and not os.path.exists(options.program):
        runs.error("there is no program %s" % options.program)
    return options


def main():
    options = parsed()
    try:
        return options.run(options)
    except BadExamples as bad:
        print("\n".join(bad.args[0]))
        return 1
    except NoProgram as missing:
        print(missing, file=sys.stderr)
        return 2


if __name__ == "__main__":
    sys.exit(main())
