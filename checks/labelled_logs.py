#!/usr/bin/env python3
"""Gives stored scripts names and tags, and compares the replies with those to the scripts themselves.

    labelled_logs.py [--program FILE] [--seed N]

The stored scripts are those of the worked examples that `watch`, `hold`, `explain`, `next` or `judge` reads, and those
of the numbered examples. In each line about a conversation the number becomes a word, and half of the lines outside
module texts get a tag in front. Some have a tab behind the tag, and some two blanks. `watch --names --tags` must then
print what `watch` prints for the stored script, with the word in place of the number and the tag in front. Both are
compared in lines and in JSON. With `--hold` beside the flags the replies but for their tags must be those of
`watch --hold`, and each tag must come with a reply to its own line. `hold` piped into `watch`, both with the flags, must
print the same replies as `watch --hold` with them, but for the numbers of bad lines. Scripts with a line that is about a bad number or
near the longest line are left out, and so are those with labels of their own.

Prints how many scripts were compared, and how often each kind of reply had a label. Status: 0 fine; 1 where a reply is
another one, or a kind of reply never had a label; 2 a bad command line, or no program.
"""

import argparse
import json
import random
import re
import sys
from collections import Counter

from examples import read_examples
from next_prefixes import PROGRAM, CheckFault, is_script, reply_lines, run

WORDS = "open|join|send|recv|ask|turn|close"
ABOUT = re.compile(r"(?s)((?:[ \t]*json(?=[ \t]))?[ \t]*(?:%s)[ \t]+)([^ \t]+)(.*)" % WORDS)
NUMBER = re.compile(r"0|[1-9][0-9]{0,8}")
PUT = re.compile(r"[ \t]*(?:json[ \t]+)?put[ \t]*")
SILENT = re.compile(r"[ \t]*(?:#.*)?", re.S)
# The longest line that gets a name and a tag, far from the limit of 131,072 bytes.
LONGEST = 131_000
KINDS = ["event", "verdict", "open", "close", "put", "withdraw", "profile", "refused"]
SHOWN_FAILURES = 3
# For how many lines events wait.
HELD = ["3", "1000"]


class Labelled:
    """A script with names and tags, and the tag of each of its replies, or none."""

    def __init__(self, pick, script):
        self.pick, self.lines, self.tags, self.lines_of = pick, [], [], {}
        self.in_text, self.text_tag = False, None
        lines = script.split("\n")
        for at, line in enumerate(lines):
            self.take(line, at == len(lines) - 1)
        if self.in_text:
            self.tags.append(self.text_tag)

    def take(self, line, is_last):
        """Takes a line of the script, given without its LF."""
        bare = line if is_last else re.sub(r"\r\Z", "", line)
        if self.in_text:
            self.lines.append(line)
            if bare == "%%":
                self.in_text = False
                self.tags.append(self.text_tag)
            return
        if len(line) > LONGEST or line.startswith("@"):
            raise ValueError("a long line, or one with a tag")
        tag = None if is_last and line == "" or self.pick.random() < 0.5 else "t%d" % self.pick.randrange(10 ** 6)
        blank = self.pick.choice([" ", " ", " ", "  ", "\t"])
        self.lines.append(("" if tag is None else "@" + tag + blank) + named(line))
        if PUT.fullmatch(bare):
            self.in_text, self.text_tag = True, tag
        elif not SILENT.fullmatch(bare):
            self.tags.append(tag)
        if tag is not None:
            self.lines_of.setdefault(tag, []).append(bare)

    def script(self):
        return "\n".join(self.lines)


def has_labels(example):
    """Whether the script of a worked example has names or tags, or is one of objects."""
    words = example.text.split(b"\n")[1].split()
    return b"--names" in words or b"--tags" in words or b"--input" in words


def named(line):
    """The line with a word in place of its conversation's number."""
    found = ABOUT.fullmatch(line)
    if not found:
        return line
    before, number, behind = found.groups()
    if not NUMBER.fullmatch(number):
        raise ValueError("no number")
    return before + "c-" + number + behind


def labelled_line(reply, tag):
    """The line of a reply with its label."""
    reply = re.sub(r"\A((?:open |close )?)([0-9]+)", r"\1c-\2", reply)
    return reply if tag is None else "@%s %s" % (tag, reply)


def labelled_json(reply, tag):
    """The JSON of a reply with its label. The keys of an object are in the order of their bytes."""
    members = json.loads(reply)
    if "conversation" in members:
        members["conversation"] = "c-%d" % members["conversation"]
    if tag is not None:
        members["tag"] = tag
    return json.dumps(dict(sorted(members.items())), separators=(",", ":"), ensure_ascii=False)


def kind_of(reply):
    """The kind of a reply, which is a line."""
    word = reply.split(" ")[0]
    if word in KINDS:
        return word
    return "event" if "." in word else "verdict"


def expected(plain, tags):
    """The replies with their labels, to a script without labels whose replies are these."""
    if len(plain) != len(tags):
        raise CheckFault("%d replies to %d lines that have one" % (len(plain), len(tags)))
    label = {True: labelled_json, False: labelled_line}
    return [label[reply.startswith("{")](reply, tag) for reply, tag in zip(plain, tags)]


def first_difference(wanted, given):
    """The first reply that differs from the one that is wanted, as a line. One of the lists may end there."""
    at = next(at for at, pair in enumerate(zip(wanted + [None], given + [None])) if pair[0] != pair[1])
    return "reply %d: %r, not %r" % (at + 1, (given + [None])[at], (wanted + [None])[at])


def compare(program, pick, script, seen):
    """What differs between the replies to the script with and without labels, as lines. None where all is right."""
    labelled = Labelled(pick, script)
    for words in ([], ["--json"]):
        plain = reply_lines(program, ["watch", *words], script)
        wanted = expected(plain, labelled.tags)
        given = reply_lines(program, ["watch", "--names", "--tags", *words], labelled.script())
        if given != wanted:
            return first_difference(wanted, given)
        if not words:
            seen.update(kind_of(reply) for reply, tag in zip(plain, labelled.tags) if tag is not None)
    for bound in HELD:
        fault = compare_held(program, script, labelled, ["--hold", bound])
        fault = fault or compare_written(program, labelled, bound)
        if fault:
            return fault
    return None


def split_tag(reply):
    """The tag of a reply, or none, and the reply without it."""
    if reply.startswith("{"):
        members = json.loads(reply)
        tag = members.pop("tag", None)
        return tag, json.dumps(members, separators=(",", ":"), ensure_ascii=False)
    found = re.fullmatch(r"(?s)@(\S+) (.*)", reply)
    return (found[1], found[2]) if found else (None, reply)


def is_of_line(reply, lines):
    """Whether a reply without its tag may be to one of these lines: an event's is to an event of its conversation."""
    event = re.match(r"(c-[0-9]+)\.", reply)
    if not event:
        return True
    number = event[1][2:]
    return any(re.match(r"(?:[ \t]*json)?[ \t]*(?:join|send|recv)[ \t]+0*%s[ \t]" % number, line) for line in lines)


def compare_held(program, script, labelled, words):
    """The same with the events held back: the order of the replies is that of `watch --hold`."""
    *plain, counts = reply_lines(program, ["watch", *words], script)
    wanted = [split_tag(reply)[1] for reply in expected(plain, [None] * len(plain))]
    *given, labelled_counts = reply_lines(program, ["watch", "--names", "--tags", *words], labelled.script())
    pairs = [split_tag(reply) for reply in given]
    if labelled_counts != counts:
        return "%s, %r, not %r" % (" ".join(words), labelled_counts, counts)
    if [reply for _, reply in pairs] != wanted:
        return " ".join(words) + ", " + first_difference(wanted, [reply for _, reply in pairs])
    if Counter(tag for tag, _ in pairs) != Counter(labelled.tags):
        return " ".join(words) + ", other tags"
    wrong = [pair for pair in pairs if pair[0] is not None and not is_of_line(pair[1], labelled.lines_of[pair[0]])]
    return "%s, tag %r of reply %r" % (" ".join(words), *wrong[0]) if wrong else None


def without_numbers(replies):
    """The replies with 0 in place of the numbers of bad lines."""
    return [re.sub(r"(refused BadLine )[0-9]+", r"\g<1>0", reply) for reply in replies]


def compare_written(program, labelled, bound):
    """Compares `hold` piped into `watch` with `watch --hold`, all with names and tags."""
    labels = ["--names", "--tags"]
    *wanted, counts = reply_lines(program, ["watch", "--hold", bound, *labels], labelled.script())
    written, status = run(program, ["hold", "--lines", bound, *labels], labelled.script())
    end = written.rindex("scribmon: ")
    if status != 0 or written[end:] != counts + "\n":
        return "hold %s, status %d, %r, not %r" % (bound, status, written[end:], counts)
    wanted = without_numbers(wanted)
    given = without_numbers(reply_lines(program, ["watch", *labels], written[:end]))
    return None if given == wanted else "hold %s, %s" % (bound, first_difference(wanted, given))


def parse_arguments():
    parser = argparse.ArgumentParser(description="Gives stored scripts names and tags, and compares the replies.")
    parser.add_argument("--program", default=PROGRAM)
    parser.add_argument("--seed", type=int, default=1)
    return parser.parse_args()


def main():
    options = parse_arguments()
    pick, seen, compared, left_out, failures = random.Random(options.seed), Counter(), 0, 0, []
    try:
        for example in read_examples():
            if not is_script(example) or has_labels(example):
                continue
            try:
                fault = compare(options.program, pick, example.input.decode("latin-1"), seen)
            except ValueError:
                left_out += 1
                continue
            compared += 1
            if fault:
                failures.append("%s: %s" % (example.title, fault))
    except FileNotFoundError as fault:
        print("labelled_logs: no program: %s" % fault.filename, file=sys.stderr)
        return 2
    print("%d scripts compared, %d left out" % (compared, left_out))
    print(", ".join("%s %d" % (kind, seen[kind]) for kind in KINDS))
    for failure in failures[:SHOWN_FAILURES]:
        print(failure)
    missing = [kind for kind in KINDS if seen[kind] == 0]
    if missing:
        print("no reply with a label: %s" % ", ".join(missing))
    return 1 if failures or missing else 0


if __name__ == "__main__":
    sys.exit(main())
