#!/usr/bin/env python3
"""Draws the figure of docs/ARCHITECTURE.md from the sources, or compares it with them.

    layers.py write    writes the part between the two marks in docs/ARCHITECTURE.md
    layers.py check    compares that part with what `write` would write

A crate uses another where its code names it, and uses its definitions where only contracts, specs or proofs name it. An
edge that follows from others is left out. Status: 0 fine, 1 something is wrong, 2 a bad command line.
"""

import re
import sys

from generated_parts import TOP, Part, crates, run

PAGE = Part("ARCHITECTURE.md", "layers.py")

NAMED_IN_CODE = re.compile(r"\b(scrib_\w+)::")
NAMED_IN_CONTRACT = re.compile(r"\bRattle\.(scrib_\w+)\.")


def named_by(crate):
    """The crates that the code of this one names, and those that only its contracts and proofs name."""
    code, contracts = set(), set()
    for part in ("specs", "proofs"):
        for file in (TOP / "crates" / crate / part).rglob("*.antt"):
            contracts.update(NAMED_IN_CONTRACT.findall(file.read_text(encoding="utf-8")))
    for file in (TOP / "crates" / crate / "src").rglob("*.rt"):
        for line in file.read_text(encoding="utf-8").splitlines():
            if "ghost use" in line:
                contracts.update(NAMED_IN_CONTRACT.findall(line))
            else:
                code.update(NAMED_IN_CODE.findall(line))
    return code - {crate}, contracts - code - {crate}


def reached(crate, uses):
    """All crates below this one, by these edges."""
    found, left = set(), list(uses[crate])
    while left:
        name = left.pop()
        if name not in found:
            found.add(name)
            left += uses[name]
    return found


def figure():
    """The lines of the figure."""
    known = crates()
    named = {crate: named_by(crate) for crate in known}
    code = {crate: [name for name in known if name in named[crate][0]] for crate in known}
    below = {crate: reached(crate, code) for crate in known}
    yield "```mermaid\nflowchart TD\n"
    for crate in reversed(known):
        for name in code[crate]:
            if not any(name in below[other] for other in code[crate]):
                yield "    %s --> %s\n" % (crate, name)
        for name in known:
            if name in named[crate][1] and name not in below[crate]:
                yield "    %s -.-> %s\n" % (crate, name)
    yield "```\n"


def write():
    return PAGE.write("".join(figure()) + "\n")


def check():
    return PAGE.check("".join(figure()) + "\n", "%d crates, as in crates/" % len(crates()))


COMMANDS = {
    "write": (write, "draw the figure"),
    "check": (check, "compare it"),
}

if __name__ == "__main__":
    sys.exit(run(__doc__, COMMANDS))
