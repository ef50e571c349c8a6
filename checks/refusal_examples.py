#!/usr/bin/env python3
"""Does each example of crates/scrib_why print the line that is stored with it?

A module is read by `check`, a script by the command that its kind names, and commands by bash in an empty folder. The last
line that is printed is compared. Examples in words are not run.
"""

import os
import re
import subprocess
import sys
import tempfile
from pathlib import Path

from built_program import built_program
from refusals import groups

SHELL = "these commands print"
# Those whose example is in words.
IN_WORDS = ("any command prints", "scribmon run prints")


def command_of(kind, work):
    """The command that reads the example, which is written into this folder."""
    if kind["reader"] == SHELL:
        return ["bash", "-c", kind["example"]]
    words = re.match(r"(scribmon .*) (?:prints|ends with)$", kind["reader"]).group(1).split()
    name = "example.scr" if "check" in words else "example.script"
    (work / name).write_text(kind["example"] + "\n", encoding="ascii")
    return [*words, name]


def last_line(kind, program):
    """The last line that is printed of the example."""
    with tempfile.TemporaryDirectory() as folder:
        work = Path(folder) / "work"
        work.mkdir()
        (Path(folder) / "scribmon").symlink_to(os.path.abspath(program))
        path = "%s:%s" % (folder, os.environ.get("PATH", ""))
        command = command_of(kind, work)
        if command[0] == "scribmon":
            command[0] = os.path.join(folder, "scribmon")
        ran = subprocess.run(
            command, cwd=work, env={**os.environ, "PATH": path}, stdout=subprocess.PIPE, stderr=subprocess.PIPE, check=False
        )
        lines = ran.stdout.decode("ascii", "replace").splitlines()
        return lines[-1] if lines else "nothing, and `%s` on standard error" % ran.stderr.decode("utf-8", "replace").strip()


def main():
    program, tried, wrong = built_program(__doc__), 0, 0
    for _, kinds in groups():
        for kind in kinds:
            if kind["reader"] in IN_WORDS:
                continue
            tried += 1
            found = last_line(kind, program)
            if found != kind["printed"]:
                wrong += 1
                print("%s prints `%s` in place of `%s`" % (kind["name"], found, kind["printed"]), flush=True)
    print("%d examples, %d of them not as stored" % (tried, wrong))
    return 1 if wrong else 0


if __name__ == "__main__":
    sys.exit(main())
