#!/usr/bin/env python3
"""Turns stored scripts into JSON objects, and compares the replies with those to the scripts themselves.

    object_logs.py [--program FILE] [--seed N]

The stored scripts are those of the worked examples that `watch`, `hold`, `explain`, `next` or `judge` reads, and those
of the numbered examples. Each line that has a reply becomes an object, and a module text becomes one with its put.
Half of the objects are spelled as the program prints objects, and the others with blanks and with their members in any
order. `watch --input json` must print what `watch` prints for the script, but for the numbers of bad lines. With
`--names --tags` half of the objects have a tag, each conversation has a word, and the replies have both. All are compared
in lines and in JSON. Left out are scripts with bytes that no object has, with a number of a conversation in more digits
than it needs, with a line that is near the longest one, and with labels of their own.

Prints how many scripts were compared, and how many objects of each word there were. Status: 0 fine; 1 where a reply is
another one, or a word had no object; 2 a bad command line, or no program.
"""

import argparse
import json
import random
import re
import sys
from collections import Counter

from examples import read_examples
from labelled_logs import LONGEST, PUT, SHOWN_FAILURES, SILENT, expected, first_difference, has_labels
from next_prefixes import PROGRAM, is_script, reply_lines

# The keys of the fields behind each word.
KEYS = {
    "withdraw": ["module"],
    "profile": ["profile"],
    "open": ["id", "protocol"],
    "join": ["id", "role"],
    "send": ["id", "from", "to", "message"],
    "recv": ["id", "from", "to", "message"],
    "turn": ["id"],
    "ask": ["id"],
    "close": ["id"],
    "sweep": [],
}
NUMBER = re.compile(r"0|[1-9][0-9]*")
BAD_LINE = re.compile(r'\A(refused BadLine )[0-9]+\Z|\A(\{"line":)[0-9]+(,"refused":"BadLine"\})\Z')


class Objects:
    """A script as objects, with the tag of each of its replies, or none, and the number of its object."""

    def __init__(self, pick, script, has_labels):
        self.pick, self.has_labels = pick, has_labels
        self.objects, self.tags, self.words = [], [], Counter()
        self.text = None
        lines = script.split("\n")
        for at, line in enumerate(lines):
            self.take(line, at == len(lines) - 1)

    def take(self, line, is_last):
        """Takes a line of the script, given without its LF."""
        bare = line if is_last else re.sub(r"\r\Z", "", line)
        if self.text is not None:
            if bare == "%%":
                self.add({"do": "put", "text": "".join(self.text)}, self.is_json)
                self.text = None
            else:
                self.text.append(line + "\n")
            return
        if len(line) > LONGEST or line.startswith("@"):
            raise ValueError("a long line, or one with a tag")
        if PUT.fullmatch(bare):
            self.text, self.is_json = [], bare.split()[0] == "json"
        elif not SILENT.fullmatch(bare):
            self.add(*self.object_of(bare))

    def object_of(self, line):
        """The members of the object that a line becomes, and whether it asks for JSON. A bad line is its own word."""
        fields = re.split(r"[ \t]+", line.strip(" \t"))
        is_json = fields[0] == "json"
        word, values = (fields[1:2] or [""])[0] if is_json else fields[0], fields[2:] if is_json else fields[1:]
        if word not in KEYS or len(values) != len(KEYS[word]):
            return {"do": line}, False
        members = dict(zip(KEYS[word], values))
        if "id" in members:
            members["id"] = self.id_of(members["id"])
        return {"do": word, **members}, is_json

    def id_of(self, number):
        """The value of `id`: a number, or with labels a word. Another field is a string, which is bad then too."""
        if not NUMBER.fullmatch(number):
            if number.isdecimal():
                raise ValueError("more digits than needed")
            return "/" + number
        if int(number) > 4294967295:
            return "/" if self.has_labels else int(number)
        return "c-" + number if self.has_labels else int(number)

    def add(self, members, is_json):
        """Adds the object with these members."""
        self.words[members["do"]] += 1
        tag = "t%d" % self.pick.randrange(10**6) if self.has_labels and self.pick.random() < 0.5 else None
        if is_json:
            members["json"] = True
        if tag is not None:
            members["tag"] = tag
        self.objects.append(self.spelled(members))
        self.tags.append(tag)

    def spelled(self, members):
        """The object as the program prints objects, or with its members in any order and with blanks."""
        if self.pick.random() < 0.5:
            return json.dumps(members, sort_keys=True, separators=(",", ":"), ensure_ascii=False)
        keys = list(members)
        self.pick.shuffle(keys)
        return json.dumps({key: members[key] for key in keys}, ensure_ascii=self.pick.random() < 0.5)

    def script(self):
        """The script, as a text of its bytes."""
        return "".join(line + "\n" for line in self.objects).encode().decode("latin-1")


def text_of(example):
    """The script of an example as a text. Fails where it is no UTF-8."""
    return example.input.decode("utf-8")


def renumbered(replies):
    """The replies, with the numbers of their objects in bad lines."""
    found = []
    for at, reply in enumerate(replies):
        found.append(BAD_LINE.sub(lambda m: "%s%d%s" % (m[1] or m[2], at + 1, m[3] or ""), reply))
    return found


def compare(program, pick, script, words):
    """What differs between the replies to the script and to its objects, as lines. None where all is right."""
    for flags in ([], ["--names", "--tags"]):
        objects = Objects(pick, script, bool(flags))
        words.update(objects.words)
        for form in ([], ["--json"]):
            plain = reply_lines(program, ["watch", *form], script.encode().decode("latin-1"))
            if objects.text is not None:
                plain.pop()
            wanted = renumbered(plain)
            if flags:
                wanted = expected(wanted, objects.tags)
            given = reply_lines(program, ["watch", "--input", "json", *flags, *form], objects.script())
            if given != wanted:
                return first_difference(wanted, given)
    return None


def parse_arguments():
    parser = argparse.ArgumentParser(description="Turns stored scripts into JSON objects, and compares the replies.")
    parser.add_argument("--program", default=PROGRAM)
    parser.add_argument("--seed", type=int, default=1)
    return parser.parse_args()


def main():
    options = parse_arguments()
    pick, words, compared, left_out, failures = random.Random(options.seed), Counter(), 0, 0, []
    try:
        for example in read_examples():
            if not is_script(example) or has_labels(example):
                continue
            try:
                fault = compare(options.program, pick, text_of(example), words)
            except ValueError:
                left_out += 1
                continue
            compared += 1
            if fault:
                failures.append("%s: %s" % (example.title, fault))
    except FileNotFoundError as fault:
        print("object_logs: no program: %s" % fault.filename, file=sys.stderr)
        return 2
    print("%d scripts compared, %d left out" % (compared, left_out))
    print(", ".join("%s %d" % (word, words[word]) for word in ["put", *KEYS]))
    for failure in failures[:SHOWN_FAILURES]:
        print(failure)
    missing = [word for word in ["put", *KEYS] if words[word] == 0]
    if missing:
        print("no object: %s" % ", ".join(missing))
    return 1 if failures or missing else 0


if __name__ == "__main__":
    sys.exit(main())
