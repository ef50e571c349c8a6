"""What the scripts share that write a part of a document from the sources: definitions.py, layers.py and
refusals.py.

The part is between two marks, which name its script.
"""

import argparse
import re
import sys
from pathlib import Path

TOP = Path(__file__).resolve().parent.parent


def crates():
    """The crates of crates.txt, in its order."""
    lines = (TOP / "crates.txt").read_text(encoding="utf-8").splitlines()
    return [re.split(r"[ :]", line)[0] for line in lines if line.strip() and not line.startswith("#")]


class Part:
    """The part of a document that a script writes."""

    def __init__(self, page, script):
        self.page = TOP / "docs" / page
        self.script = script
        self.begin, self.end = ("<!-- written by checks/%s: %s -->\n" % (script, word) for word in ("begin", "end"))

    def split(self):
        """The text up to the part, the part, and the text behind it."""
        before, found, rest = self.page.read_text(encoding="utf-8").partition(self.begin)
        middle, ended, after = rest.partition(self.end)
        if not found or not ended:
            sys.exit("docs/%s: lacks the marks of the part that checks/%s writes" % (self.page.name, self.script))
        return before + self.begin, middle, self.end + after

    def write(self, text):
        """Writes this text as the part."""
        before, _, after = self.split()
        self.page.write_text(before + "\n" + text + after, encoding="utf-8")
        return 0

    def check(self, text, count):
        """Compares the part with this text, and prints what was counted, or how to mend the part."""
        if self.split()[1] == "\n" + text:
            print("docs/%s: %s" % (self.page.name, count))
            return 0
        print("docs/%s is not as the sources: `python3 checks/%s write` writes it anew" % (self.page.name, self.script))
        return 1


def run(description, commands):
    """Runs the command, of these functions by name, that the command line names, and returns its status."""
    parser = argparse.ArgumentParser(description=description, formatter_class=argparse.RawDescriptionHelpFormatter)
    names = parser.add_subparsers(dest="command", metavar="COMMAND", required=True)
    for name, (_, text) in commands.items():
        names.add_parser(name, help=text)
    return commands[parser.parse_args().command][0]()
