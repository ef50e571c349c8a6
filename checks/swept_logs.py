#!/usr/bin/env python3
"""Compares `watch --sweep` with `watch` over the same scripts with lines `sweep`.

    swept_logs.py [--program FILE] [--scripts N] [--seed N]

- Generated scripts of four conversations with edits between the events: `watch --sweep` must print what `watch` prints
  where a line `sweep` is put in front of each line outside module texts, but for the replies to these and the numbers of
  bad lines.
- A script of 2,000 conversations of 500 events, whose protocol is then edited. 64 turns judge 32 of these conversations.
  So behind the edit, each line must find 32 more conversations judged than the line before, by rising ids, and all
  others stale. Standard error must report 2,000 conversations at the end, whether lines follow the edit or not.

Prints how many scripts and replies were compared, and how many of these were verdicts behind an edit. Status: 0 fine; 1
where a reply is another one; 2 a bad command line, or no program.
"""

import argparse
import random
import re
import subprocess
import sys
from pathlib import Path

from closed_logs import generated, long_script, unnumbered
from next_prefixes import PROGRAM, CheckFault, reply_lines

CONVERSATIONS, EVENTS, JUDGED = 2_000, 500, 32
PUT = re.compile(r"[ \t]*(?:json[ \t]+)?put[ \t]*")
SHOWN_FAILURES = 3


def with_sweeps(script):
    """The script with a line `sweep` in front of each line outside module texts."""
    lines, in_text = [], False
    for line in script.splitlines(keepends=True):
        bare = line.rstrip("\r\n")
        if in_text:
            in_text = bare != "%%"
        else:
            lines.append("sweep\n")
            in_text = PUT.fullmatch(bare) is not None
        lines.append(line)
    return "".join(lines)


def compare_script(program, script):
    """Compares the two outputs. Returns the number of replies, and where they differ first."""
    swept = reply_lines(program, ["watch", "--sweep"], script)
    swept = [unnumbered(reply) for reply in swept if not reply.startswith("scribmon: ")]
    wanted = reply_lines(program, ["watch"], with_sweeps(script))
    wanted = [unnumbered(reply) for reply in wanted if not reply.startswith("sweep: ")]
    differing = [at for at, pair in enumerate(zip(swept, wanted)) if pair[0] != pair[1]]
    if not differing and len(swept) != len(wanted):
        differing = [min(len(swept), len(wanted))]
    return len(wanted), differing[0] if differing else None


def put(message):
    """A put of a protocol whose loop has this message."""
    return ("put\nmodule m; global protocol P(role A, role B) { rec X { choice at A { a() from A to B; continue X; } "
            "or { %s() from A to B; } } }\n%%%%\n" % message)


def many_logs():
    """A script of many conversations, each of so many events, and an edit of their protocol."""
    pairs = ((EVENTS - 2) // 2) * "send {0} A B a()\nrecv {0} A B a()\n"
    log = "open {0} m.P\njoin {0} A\njoin {0} B\n" + pairs
    return put("b") + "".join(log.format(id) for id in range(1, CONVERSATIONS + 1)) + put("c")


def asked_behind():
    """Lines behind the edit, one of them blank and one a comment, and whether each that asks finds a stale verdict."""
    lines, due = [], []
    for number in range(1, CONVERSATIONS // JUDGED + 1):
        if number % 10 in (3, 7):
            lines.append("" if number % 10 == 3 else "# a comment")
            continue
        is_stale = number % 2 == 0
        lines.append("ask %d" % (number * JUDGED + is_stale))
        due.append(is_stale)
    return lines, due


def compare_long(program, behind, due):
    """Compares the replies to the lines behind the edit of the long script. Returns what is wrong, or none."""
    script = many_logs() + "".join(line + "\n" for line in behind)
    done = subprocess.run([str(program), "watch", "--sweep"], input=script.encode(), capture_output=True)
    if done.returncode != 0:
        return "status %d: %s" % (done.returncode, done.stderr.decode()[-200:])
    found = [line.endswith(b" stale") for line in done.stdout.splitlines()[-len(due):]] if due else []
    if found != due:
        return "behind the edit %d verdicts are stale, and not %d" % (sum(found), sum(due))
    if b"%d conversations judged again" % CONVERSATIONS not in done.stderr:
        return "standard error has %r" % done.stderr.decode()[-200:]
    return None


def main():
    parser = argparse.ArgumentParser(description=__doc__, formatter_class=argparse.RawDescriptionHelpFormatter)
    parser.add_argument("--program", metavar="FILE", type=Path, default=PROGRAM, help="the built scribmon")
    parser.add_argument("--scripts", metavar="N", type=int, default=100, help="how many are generated (default: 100)")
    parser.add_argument("--seed", metavar="N", type=int, default=1, help="of what is generated (default: 1)")
    options = parser.parse_args()
    if not options.program.is_file():
        parser.error("%s is not built: make build" % options.program)
    pick = random.Random(options.seed)
    failed = replies = 0
    scripts = [generated(pick) for _ in range(options.scripts)] + [long_script()]
    try:
        for script in scripts:
            count, differs = compare_script(options.program, script)
            replies += count
            if differs is not None:
                failed += 1
                if failed <= SHOWN_FAILURES:
                    print("reply %d is another one, of the script\n%s" % (differs + 1, script))
    except CheckFault as fault:
        print(fault)
        return 1
    behind, due = asked_behind()
    for lines, wanted in ((behind, due), ([], [])):
        wrong = compare_long(options.program, lines, wanted)
        if wrong:
            failed += 1
            print(wrong)
    print("%d replies in %d scripts compared, and %d verdicts behind an edit of %d conversations; %d differ"
          % (replies, len(scripts), len(due), CONVERSATIONS, failed))
    return 1 if failed else 0


if __name__ == "__main__":
    sys.exit(main())
