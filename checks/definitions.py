#!/usr/bin/env python3
"""Writes the glossary of docs/DEFINITIONS.md from the comments of specs/, or compares it with them.

    definitions.py write    writes the part between the two marks in docs/DEFINITIONS.md
    definitions.py check    compares that part with what `write` would write
    definitions.py bare     prints each definition that the glossary lists and that has no comment

The glossary has the words of crates/*/specs that a reader meets outside the crate that defines them: those that a clause,
an invariant or a model of a public item in crates/*/src cites, those that the specs of another crate use, and those that
docs/PROOFS.md quotes. The plain words are the `--` lines right above a definition.

Status: 0 fine, 1 something is wrong, 2 a bad command line.
"""

import re
import sys

from generated_parts import TOP, Part, crates, run

PAGE = Part("DEFINITIONS.md", "definitions.py")
PROOFS = TOP / "docs" / "PROOFS.md"

DEFINITION = re.compile(r"^(?:abbrev |unfoldable )?pub (?:record |data |ruleset )?([A-Za-z_][A-Za-z0-9_-]*)(?![A-Za-z0-9_-]| *=)")
SPEC_USE = re.compile(r"ghost use Rattle\.(scrib_\w+)\.specs\.((?:\w+\.)*\w+?)(?:\.\{([^}]*)\}| as (\w+)|);")
SPEC_IMPORT = re.compile(r"^use Rattle\.(scrib_\w+)\.specs\.((?:\w+\.)*\w+?)\.\{([^}]*)\}", re.M)
FUNCTION = re.compile(r"^\s*(pub(?:\([^)]*\))? )?(?:const )?(?:unsafe )?fn ")
TYPE = re.compile(r"^(pub(?:\([^)]*\))? )?(?:struct|enum|trait|impl)\b")
CLAUSE = re.compile(r"^\s*(?:requires|ensures)\b|^\s*(?:pub )?ghost \w+(?::| =)")
WORD = re.compile(r"[A-Za-z_][A-Za-z0-9_]*")


def spec_files(crate):
    """The files of a crate's specs, in the order in which Lib.antt lists them."""
    folder = TOP / "crates" / crate / "specs"
    listed = re.findall(r"mod (\w+)", (folder / "Lib.antt").read_text(encoding="utf-8")) if folder.is_dir() else []
    return [folder / (name + ".antt") for name in listed if (folder / (name + ".antt")).is_file()]


def comment_above(lines, at):
    """The text of the `--` lines right above this line."""
    found = []
    while at > 0 and lines[at - 1].startswith("-- "):
        at -= 1
        found.insert(0, lines[at][3:].strip())
    return " ".join(found)


def definitions_of(file):
    """Each public definition of the file with its comment, in order."""
    lines = file.read_text(encoding="utf-8").splitlines()
    for at, line in enumerate(lines):
        match = DEFINITION.match(line)
        if match and match.group(1) not in ("mod", "use"):
            yield match.group(1), comment_above(lines, at)


def heading_of(file):
    """The comment at the head of the file."""
    lines = file.read_text(encoding="utf-8").splitlines()
    last = next((at for at, line in enumerate(lines) if not line.startswith("-- ")), len(lines))
    return " ".join(line[3:].strip() for line in lines[:last])


def cited_in(file):
    """The words, each with its crate, that clauses of public items of this source file cite."""
    imported, cited, is_public = {}, set(), True
    for line in file.read_text(encoding="utf-8").splitlines():
        for crate, path, names, _ in SPEC_USE.findall(line):
            for name in (part.split(" as ") for part in names.split(",")):
                if not path.startswith("declared"):
                    imported[name[-1].strip()] = (crate, name[0].strip())
        if FUNCTION.match(line):
            is_public = FUNCTION.match(line).group(1) == "pub "
        elif TYPE.match(line):
            is_public = TYPE.match(line).group(1) == "pub " or line.startswith("impl")
        elif CLAUSE.match(line) and is_public:
            cited.update(WORD.findall(line))
    return {imported[word] for word in cited if word in imported}


def imported_in(file, own):
    """The words, each with its crate, that this file of specs takes from those of other crates."""
    for crate, path, names in SPEC_IMPORT.findall(file.read_text(encoding="utf-8")):
        if crate != own and not path.startswith("declared"):
            for name in names.split(","):
                yield crate, name.split(" as ")[0].strip()


def words_met():
    """The words that a reader meets outside the crate that defines them, each with its crate."""
    quoted = set(re.findall(r"`(\w+)`", PROOFS.read_text(encoding="utf-8")))
    words = set()
    for crate in crates():
        for file in sorted((TOP / "crates" / crate / "src").rglob("*.rt")):
            words |= cited_in(file)
        for file in spec_files(crate):
            words.update(imported_in(file, crate))
            words.update((crate, name) for name, _ in definitions_of(file) if name in quoted)
    return words


def rows_of(file, crate, words):
    for name, comment in definitions_of(file):
        if (crate, name) in words:
            yield name, comment


def glossary():
    """The lines of the glossary."""
    words = words_met()
    for crate in crates():
        files = [(file, list(rows_of(file, crate, words))) for file in spec_files(crate)]
        files = [(file, rows) for file, rows in files if rows]
        if files:
            yield "## %s\n\n" % crate
        for file, rows in files:
            yield "`crates/%s/specs/%s`: %s\n\n" % (crate, file.name, heading_of(file))
            yield "| word | what it says |\n|---|---|\n"
            for name, comment in rows:
                yield "| `%s` | %s |\n" % (name, comment.replace("|", "\\|"))
            yield "\n"


def write():
    return PAGE.write("".join(glossary()))


def check():
    text = "".join(glossary())
    return PAGE.check(text, "%d definitions, as in specs/" % text.count("\n| `"))


def bare():
    words, found = words_met(), 0
    for crate in crates():
        for file in spec_files(crate):
            for name, comment in rows_of(file, crate, words):
                if not comment:
                    found += 1
                    print("crates/%s/specs/%s: %s has no comment" % (crate, file.name, name))
    return 1 if found else 0


COMMANDS = {
    "write": (write, "write the glossary"),
    "check": (check, "compare it"),
    "bare": (bare, "list definitions without words"),
}

if __name__ == "__main__":
    sys.exit(run(__doc__, COMMANDS))
