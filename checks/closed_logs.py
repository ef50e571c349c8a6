#!/usr/bin/env python3
"""Puts `close ID` behind prefixes of stored and generated scripts, and compares it with what other lines print.

    closed_logs.py [--program FILE] [--scripts N] [--prefixes N] [--seed N]

The stored scripts are those of the worked examples that `watch`, `hold`, `explain`, `next` or `judge` reads. A prefix
is a script up to an opening, an event or an edit, with a conversation that this line opened, was about, or changed.
Behind the prefix the conversation is closed. In every other prefix it is then opened again under its protocol, and its
log is reported once more; it is closed as JSON, and opened and reported again. The check compares:

- both replies to the close with the verdict that `ask` prints after enough `turn` lines, and with the verdict on a
  second conversation that has the same log. They are of a complete log exactly where `next` prints `complete`;
- the replies to lines about the closed conversation, which must be refused until it is opened again;
- the replies to the log that is reported once more, with those of the second conversation;
- the replies to the rest of the script, with those without a close. This includes the lines about the conversation
  itself, where it is open again and was not stale.

Prints how many closes were compared, and how often each reply and each case came. Status: 0 fine; 1 where a reply is
another one, or a reply or a case never came; 2 a bad command line, or no program.
"""

import argparse
import itertools
import json
import random
import re
import sys
from collections import Counter
from pathlib import Path
from typing import List, NamedTuple

import held_logs
from examples import read_examples
from next_prefixes import PROGRAM, UNUSED_ID, CheckFault, is_script, prefixes_of, read_items, reply_lines, run

REPLIES = ["complete", "permitted", "offence", "withdrawn", "refused"]
CASES = ["stale", "more than 256 events", "opened again", "protocol withdrawn", "others go on"]
ABOUT = {"open", "join", "send", "recv", "ask", "turn", "close"}
# One line in so many of a generated script has an edit, a turn or a close in front of it.
EDIT_ONCE_IN, TURN_ONCE_IN, CLOSE_ONCE_IN = 15, 10, 60
SHOWN_FAILURES = 3
NONE = "refused NoConversation"


# Generated scripts.


def edited(pick, text):
    """The text of an example's module with another type in one of its messages."""
    places = [found.start() + 1 for found in re.finditer(r"(?<=\w)\((?=[A-Z)])", text)]
    at = pick.choice(places)
    return text[:at] + ("Other," if text[at] != ")" else "Other") + text[at:]


def edit(pick):
    """A put of one of the example modules, mostly as it is, or a withdrawal."""
    name = pick.choice(held_logs.PROTOCOLS)[0]
    if pick.random() < 0.2:
        return "withdraw %s\n" % name.split("/")[1]
    text = (held_logs.TOP / "examples" / (name + ".scr")).read_text().rstrip("\n")
    return "put\n%s\n%%%%\n" % (edited(pick, text) if pick.random() < 0.4 else text)


def generated(pick):
    """A script of four conversations that go on beside each other, with edits, turns and closes between the events."""
    text, asks = held_logs.script(pick, 4, 0, 0, pick.random() < 0.3)
    puts, _, rest = text.rpartition("%%\n")
    parts = [puts + "%%\n"]
    for line in rest.splitlines(keepends=True):
        if pick.randrange(EDIT_ONCE_IN) == 0:
            parts.append(edit(pick))
        for once_in, word in ((TURN_ONCE_IN, "turn"), (CLOSE_ONCE_IN, "close")):
            if pick.randrange(once_in) == 0:
                parts.append("%s %d\n" % (word, pick.randint(1, 4)))
        parts.append(line)
    return "".join(parts) + asks


def long_script():
    """A script of two logs of some 700 events, whose protocol loses messages that only their last events have."""
    branches = {"a": "a() from A to B; continue X;", "c": "c() from A to B; continue X;", "b": "b() from A to B;"}
    lines = []

    def put(names):
        choice = " } or { ".join(branches[name] for name in names)
        body = "rec X { choice at A { %s } }" % choice
        lines.append("put\nmodule k; global protocol K(role A, role B) { %s }\n%%%%\n" % body)

    def exchange(id, message):
        lines.extend("%s %d A B %s()\n" % (word, id, message) for word in ("send", "recv"))

    put("acb")
    lines += ["open %d k.K\njoin %d A\njoin %d B\n" % (id, id, id) for id in (1, 2)]
    for number in range(350):
        for id in (1, 2):
            exchange(id, "c" if number > 300 and number % 10 == 0 else "a")
    exchange(1, "b")
    for names, word in (("ab", "turn 1\nask 1\nturn 2\n"), ("ac", "turn 2\n"), ("acb", "turn 2\nturn 2\nask 1\n")):
        put(names)
        lines.append(word)
    return "".join(lines)


# What a close must print, and what must come behind it.


class Close(NamedTuple):
    """The replies that are due to a close and to what is opened again: renamed from a second conversation."""
    is_stale: bool
    line: str
    json: str
    opened: str
    replayed: List[str]

    @property
    def is_opened(self):
        return self.opened.startswith("open ")

    @property
    def word(self):
        return self.line.split()[2].rstrip(",")


def close_of(prefix, ask, asked, complete):
    """The line and the JSON of a close, by the replies to `ask` and `json ask` after enough turns."""
    words = "complete" if complete else ask.split(" ", 1)[1]
    value = json.loads(asked)
    value.update(closed=value.pop("protocol"), complete=complete)
    return "close %d: %s" % (prefix.id, words), json.dumps(value, separators=(",", ":"), sort_keys=True)


def same_lines(prefix, id):
    """The opening of the conversation and its events, under this id."""
    return "".join(line.format(id) + "\n" for line in ("open {} " + prefix.protocol,) + prefix.events)


def renamed(reply, id):
    """The reply to a line about the second conversation, as one about this id."""
    return re.sub(r"\A(open |)%d(?=[:.])" % UNUSED_ID, r"\g<1>%d" % id, reply)


def due_close(program, text, replied, prefix):
    """What is due to a close behind the prefix, whose text got so many replies."""
    id, turns = prefix.id, len(prefix.events) // 256 + 2
    asks = "turn {0}\n" * turns + "ask {0}\njson ask {0}\n"
    script = text + "ask %d\n" % id + same_lines(prefix, UNUSED_ID) + "ask %d\n" % UNUSED_ID + asks.format(id)
    replies = reply_lines(program, ["watch"], script)[replied:]
    stale, opened, *replayed = replies[:-turns - 3]
    second, ask, asked = replies[-turns - 3], replies[-2], replies[-1]
    is_stale = stale == "%d stale" % id
    if not is_stale and stale != ask:
        raise CheckFault("turns change a verdict that is not stale: %r, %r" % (stale, ask))
    if opened.startswith("open ") and second.split(" ", 1)[1] != ask.split(" ", 1)[1]:
        raise CheckFault("the same log gets the verdicts %r and %r" % (second, ask))
    printed, _ = run(program, ["next", str(id)], text)
    line, asked = close_of(prefix, ask, asked, printed.endswith("\ncomplete\n"))
    return Close(is_stale, line, asked, renamed(opened, id), [renamed(reply, id) for reply in replayed])


# The rest of a script behind a close.


def is_about(item, id):
    """Whether a line is about this conversation, where it is no bad line."""
    return item.fields[0] in ABOUT and len(item.fields) > 1 and item.fields[1].isdigit() and int(item.fields[1]) == id


def unnumbered(reply):
    """The reply without the number of a bad line."""
    return re.sub(r"BadLine \d+", "BadLine", reply)


def differing(items, wanted, found, id, rule):
    """The first reply to these items that is not due. `rule` is `same`, `refused` or `any` for the lines of the id."""
    for item, due, reply in zip(items, map(unnumbered, wanted), map(unnumbered, found)):
        if is_about(item, id) and due != "refused BadLine":
            if item.fields[0] == "open" and rule == "refused" and "AlreadyOpen" not in reply:
                rule = "any" if reply.startswith(("open ", '{"conversation"')) else rule
                continue
            if rule == "any":
                continue
            if rule == "refused":
                due = '{"refused":"NoConversation"}' if item.text.split()[0] == "json" else NONE
        if due != reply:
            return "to %r came %r and not %r" % (item.text, reply, due)
    return None


class Tally:
    """What was compared, and the failures so far."""

    def __init__(self):
        self.replies, self.cases = Counter(), Counter()
        self.closes = self.failed = 0

    def fail(self, script, why):
        self.failed += 1
        if self.failed <= SHOWN_FAILURES:
            print("%s\nwith the script\n%s" % (why, script))


def compare_close(program, items, replies, prefix, tally, is_reopened):
    """Closes the conversation of the prefix, and compares all that follows."""
    front, rest = items[:prefix.at], [item for item in items[prefix.at:] if item.has_reply]
    text, replied = "".join(item.text for item in front), sum(item.has_reply for item in front)
    due = due_close(program, text, replied, prefix)
    id, again = prefix.id, same_lines(prefix, prefix.id)
    gone = "join {0} A\nask {0}\nturn {0}\nclose {0}\n".format(id)
    script = text + "close %d\n" % id + gone
    wanted = [due.line] + [NONE] * 4
    if is_reopened:
        script += again + "json close %d\n" % id + again
        closed = due.json if due.is_opened else '{"refused":"NoConversation"}'
        wanted += [due.opened, *due.replayed, closed, due.opened, *due.replayed]
    found = reply_lines(program, ["watch"], script + "".join(item.text for item in items[prefix.at:]))[replied:]
    if found[:len(wanted)] != wanted:
        tally.fail(script, "printed\n%s\nand this was due:\n%s" % ("\n".join(found[:len(wanted)]), "\n".join(wanted)))
    elif len(found) - len(wanted) != len(rest):
        tally.fail(script, "%d replies where %d are due" % (len(found), len(wanted) + len(rest)))
    else:
        rule = "refused" if not is_reopened or not due.is_opened else "any" if due.is_stale else "same"
        fault = differing(rest, replies[replied:], found[len(wanted):], id, rule)
        if fault:
            tally.fail(script, fault)
    count(tally, prefix, due, rest, is_reopened)


def count(tally, prefix, due, rest, is_reopened):
    """Counts the close, the replies, and the cases that it belongs to."""
    tally.closes += 1
    tally.replies.update([due.word, "refused"])
    others = any(item.fields[0] in ABOUT and not is_about(item, prefix.id) for item in rest)
    is_long = due.is_stale and len(prefix.events) > 256
    holds = [due.is_stale, is_long, is_reopened and due.is_opened, not due.is_opened, others]
    tally.cases.update(itertools.compress(CASES, holds))


def compare_script(program, script, pick, most, tally):
    """Compares closes behind the last prefixes of a script and some others, `most` in all."""
    items = read_items(script)
    replies = reply_lines(program, ["watch"], "".join(item.text for item in items))
    shown = reply_lines(program, ["watch", "--json"], "".join(item.text for item in items))
    prefixes = list(prefixes_of(items, shown))
    if len(prefixes) > most:
        front, back = prefixes[:-most // 2], prefixes[-most // 2:]
        prefixes = [front[at] for at in sorted(pick.sample(range(len(front)), most - len(back)))] + back
    for number, prefix in enumerate(prefixes):
        compare_close(program, items, replies, prefix, tally, number % 2 == 0)


def report(scripts, tally):
    """Prints the counts. Returns whether all is well."""
    print("%d closes in %d scripts compared, %d with another reply" % (tally.closes, scripts, tally.failed))
    for names, counts in ((REPLIES, tally.replies), (CASES, tally.cases)):
        print("; ".join("%s: %d" % (name, counts[name]) for name in names))
    missing = [name for name in REPLIES if not tally.replies[name]] + [name for name in CASES if not tally.cases[name]]
    for name in missing:
        print("never came: %s" % name)
    return not tally.failed and not missing


def main():
    parser = argparse.ArgumentParser(description=__doc__, formatter_class=argparse.RawDescriptionHelpFormatter)
    parser.add_argument("--program", metavar="FILE", type=Path, default=PROGRAM, help="the built scribmon")
    parser.add_argument("--scripts", metavar="N", type=int, default=30, help="how many are generated (default: 30)")
    parser.add_argument("--prefixes", metavar="N", type=int, default=16, help="the most of one script (default: 16)")
    parser.add_argument("--seed", metavar="N", type=int, default=1, help="of what is generated (default: 1)")
    options = parser.parse_args()
    if not options.program.is_file():
        parser.error("%s is not built: make build" % options.program)
    pick = random.Random(options.seed)
    scripts = [example.input.decode("latin-1") for example in read_examples() if is_script(example)]
    scripts += [generated(pick) for _ in range(options.scripts)] + [long_script()]
    tally = Tally()
    try:
        for script in scripts:
            compare_script(options.program, script, pick, options.prefixes, tally)
    except CheckFault as fault:
        print(fault)
        return 1
    return 0 if report(len(scripts), tally) else 1


if __name__ == "__main__":
    sys.exit(main())
