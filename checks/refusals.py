#!/usr/bin/env python3
"""Writes docs/REFUSALS.md from the kinds in crates/scrib_why/src, or compares it with them.

    refusals.py write    writes the part between the two marks in docs/REFUSALS.md
    refusals.py check    compares that part with what `write` would write, and looks for variants without a kind

The variants are those of the enums of refusals and reasons in the sources.

Status: 0 fine, 1 something is wrong, 2 a bad command line.
"""

import re
import sys

from generated_parts import TOP, Part, run

PAGE = Part("REFUSALS.md", "refusals.py")
SOURCES = TOP / "crates" / "scrib_why" / "src"
GROUPS = ("text", "protocol", "choice", "library", "step", "reason")

# The enums whose variants are printed by their names, and the variants that only hold another of them.
ENUMS = (
    ("scrib_lexer/src/fault.rt", "LexFault"),
    ("scrib_parser/src/fault.rt", "ParseFault"),
    ("scrib_static_checks/src/fault.rt", "FaultKind"),
    ("scrib_library/src/fault.rt", "EditFault"),
    ("scrib_core/src/reply.rt", "Refusal"),
    ("scrib_reasons/src/reason.rt", "Reason"),
)
HOLDERS = ("Lex", "Parse", "Elaborate", "Project", "Edit")

FIELDS = ("name", "meaning", "example", "reader", "printed", "cure")
TEXT = r'"((?:[^"\\]|\\.)*)"'
KIND = re.compile(r"Kind \{\s*" + r"\s*".join(r"%s: %s," % (field, TEXT) for field in FIELDS) + r"\s*\}", re.S)
ESCAPE = re.compile(r"\\(\n\s*|.)", re.S)


def text_of(literal):
    """The text of a string of the source."""
    return ESCAPE.sub(lambda it: "" if it[1].startswith("\n") else "\n" if it[1] == "n" else it[1], literal)


def groups():
    """The heading of each group of kinds, and the kinds, as dictionaries."""
    for group in GROUPS:
        source = (SOURCES / (group + "_kinds.rt")).read_text(encoding="utf-8")
        kinds = [dict(zip(FIELDS, map(text_of, found))) for found in KIND.findall(source)]
        if len(kinds) != len(re.findall(r"\bname: ", source)):
            sys.exit("crates/scrib_why/src/%s_kinds.rt: a kind is not in the form that checks/refusals.py reads" % group)
        yield re.match(r"//! (.*)\.\n", source).group(1), kinds


def escaped(text):
    """The text as Markdown: marks that it would read are escaped."""
    return re.sub(r"([*_<>\[\]`])", r"\\\1", text)


def block(text):
    return "```text\n%s\n```\n\n" % text


def part():
    """The part of the document, in pieces."""
    for heading, kinds in groups():
        yield "## %s\n\n" % heading
        for kind in kinds:
            yield "### %s\n\n%s\n\n" % (kind["name"], escaped(kind["meaning"]))
            yield block(kind["example"])
            reader = re.sub(r"^(scribmon.*?)( prints| ends with)$", r"`\1`\2", kind["reader"])
            yield "%s:\n\n" % (reader[0].upper() + reader[1:])
            yield block(kind["printed"])
            yield "Cure: %s\n\n" % escaped(kind["cure"])


def write():
    return PAGE.write("".join(part()))


def variants():
    """The variants of the enums."""
    for file, enum in ENUMS:
        source = (TOP / "crates" / file).read_text(encoding="utf-8")
        body = re.search(r"pub enum %s \{\n(.*?)\n\}" % enum, source, re.S).group(1)
        yield from (name for name in re.findall(r"^    ([A-Z]\w*)", body, re.M) if name not in HOLDERS)


def check():
    text = "".join(part())
    names = {kind["name"] for _, kinds in groups() for kind in kinds}
    lacking = sorted(set(variants()) - names)
    for name in lacking:
        print("crates/scrib_why: no kind is named %s" % name)
    return PAGE.check(text, "%d kinds, as in crates/scrib_why" % len(names)) or (1 if lacking else 0)


COMMANDS = {
    "write": (write, "write the kinds"),
    "check": (check, "compare them"),
}

if __name__ == "__main__":
    sys.exit(run(__doc__, COMMANDS))
