#!/usr/bin/env python3
"""Compares what `next` prints with what `watch` permits, after each event and each edit of the stored scripts.

    next_prefixes.py [--program FILE] [--longest N]

The scripts are those of the worked examples that `watch`, `hold`, `explain`, `next` or `judge` reads. A prefix is a
script up to an opening, an event or an edit, with a conversation that this line opened, was about, or changed. The
output of `next` must be what follows from two other commands:

- `watch` judges, in new conversations behind the prefix, the log alone, and the log with one more event. Each join, and
  each send and reception of each message of the protocol between any two roles, is tried as that event. A role
  `may join` exactly where its join is permitted. It `may` do exactly what else is permitted.
- `project` prints the local types. What is left of a role's type after its own events says what it offers, and in which
  order. A role with nothing permitted `waits for` all that it offers, and is `done` where it offers nothing.

The log is `complete` exactly where no send and no reception is permitted once all roles have joined that may join. A log
that is not permitted is refused with the place of its first offence, and one of an unknown protocol as unknown.

Prints how many prefixes were compared, and how often each form of a line was due. Status: 0 fine; 1 where an output is
another one, or a form of a line was never due; 2 a bad command line, or no program.
"""

import argparse
import functools
import itertools
import json
import re
import subprocess
import sys
import tempfile
from collections import Counter
from pathlib import Path
from typing import List, NamedTuple, Tuple

from examples import read_examples

PROGRAM = Path(__file__).resolve().parent.parent / "crates" / "scribmon" / "out" / "scribmon"
SCRIPT_COMMANDS = {"watch", "judge", "explain"}
FILE_COMMANDS = {"watch", "hold", "explain", "next"}
# New conversations have ids from here on, which no script uses.
FIRST_ID = 3_000_000_000
UNUSED_ID = 2_999_999_999
# The most lines and conversations of one run of `watch`, and the most sends and receptions that are tried behind a log.
RUN_LINES, RUN_CONVERSATIONS, TRIED_EVENTS = 300_000, 50_000, 2_000
SHOWN_FAILURES = 3

REFUSALS = ["refused NoConversation", "refused UnknownProtocol", "refused NotPermitted"]
FORMS = ["may join", "may join, done", "done", "may send", "may receive", "waits for", "complete", *REFUSALS]

NAME = re.compile(r"[A-Za-z_]\w*")
MESSAGE = re.compile(r"\w*\([\w.,]*\)")
LOOP = re.compile(r"rec (X\d+)\.")
# Strings and comments of a module text.
UNREAD = re.compile(r'"[^"\n]*"|//[^\n]*|/\*.*?\*/', re.S)


class CheckFault(Exception):
    """What the program printed cannot be read. The argument is a line."""


# Running the program. Texts are read byte for byte, as Latin-1.


def run(program, words, text=""):
    """What the program prints for this standard input, and its status."""
    done = subprocess.run([str(program), *words], input=text.encode("latin-1"), stdout=subprocess.PIPE,
                          stderr=subprocess.PIPE)
    return (done.stdout + done.stderr).decode("latin-1"), done.returncode


def reply_lines(program, words, text):
    """The lines that a run prints, which must end with status 0."""
    printed, status = run(program, words, text)
    if status != 0:
        raise CheckFault("scribmon %s ended with status %d: %s" % (" ".join(words), status, printed[-200:]))
    return printed.splitlines()


# Scripts.


class Item(NamedTuple):
    """A line of a script, or a put with its text and its last line."""
    text: str
    fields: Tuple[str, ...]  # without `json`; of a put: `put` and the module's text
    has_reply: bool


def item_of(line):
    """The item of a line outside module texts."""
    fields = tuple(re.split(r"[ \t]+", re.sub(r"\r\Z", "", line).strip(" \t")))
    has_reply = fields[0] != "" and not fields[0].startswith("#")
    if fields[0] == "json" and len(fields) > 1:
        fields = fields[1:]
    return Item(line + "\n", fields, has_reply)


def read_items(script):
    """The items of a script. What follows its last line feed is left out, and so is a put without an end."""
    items, put = [], []
    for line in script.split("\n")[:-1]:
        if put:
            put.append(line)
            if re.sub(r"\r\Z", "", line) == "%%":
                items.append(Item("".join(one + "\n" for one in put), ("put", "\n".join(put[1:-1]) + "\n"), True))
                put = []
        elif item_of(line).fields == ("put",):
            put = [line]
        else:
            items.append(item_of(line))
    return items


class Prefix(NamedTuple):
    """A script behind so many of its items, with a conversation that is open there, and the accepted modules."""
    at: int
    id: int
    protocol: str
    events: Tuple[str, ...]  # lines with {} in place of the id
    modules: Tuple[Tuple[str, str], ...]


def event_line(fields):
    """The line of an event with {} in place of the id."""
    return " ".join((fields[0], "{}") + fields[2:])


def prefixes_of(items, replies):
    """The prefixes of a script, by the replies in JSON of `watch --json`."""
    modules, conversations = {}, {}
    rest = iter(replies)
    for at, item in enumerate(items, 1):
        reply = json.loads(next(rest)) if item.has_reply else {}
        touched = []
        if reply.get("edit") == "put":
            modules[reply["module"]] = item.fields[1]
        elif reply.get("edit") == "withdraw":
            del modules[reply["module"]]
        elif "opened" in reply:
            conversations[reply["conversation"]] = (reply["opened"], [])
            touched = [reply["conversation"]]
        elif "closed" in reply:
            del conversations[reply["conversation"]]
        elif "place" in reply:
            conversations[reply["conversation"]][1].append(event_line(item.fields))
            touched = [reply["conversation"]]
        changed = {change[1:] for change in reply.get("changes", [])}
        touched += [id for id, (protocol, _) in conversations.items() if protocol in changed]
        for id in touched:
            protocol, events = conversations[id]
            yield Prefix(at, id, protocol, tuple(events), tuple(sorted(modules.items())))


# What `watch` permits.


class Log(NamedTuple):
    """A log that is judged behind so many items of a script."""
    at: int
    protocol: str
    events: Tuple[str, ...]


def judge_run(program, items, logs):
    """The verdicts on these logs, ordered by their places, in one run of `watch`."""
    parts, opened, reached, due = [], [], 0, 0
    for number, log in enumerate(logs):
        parts += [item.text for item in items[reached:log.at]]
        block = "open {} %s\n" % log.protocol + "".join(event + "\n" for event in log.events)
        parts.append(block.replace("{}", str(FIRST_ID + number)))
        opened.append(due + sum(item.has_reply for item in items[reached:log.at]))
        reached, due = log.at, opened[-1] + 1 + len(log.events)
    lines = reply_lines(program, ["watch"], "".join(parts))
    if len(lines) != due:
        raise CheckFault("watch prints %d lines where %d are due" % (len(lines), due))
    return [verdict_of(lines[at], lines[at + len(log.events)]) for at, log in zip(opened, logs)]


def verdict_of(opened, last):
    """`permitted`, the place of the first offence, or `unknown`, by the replies to an opening and to the last event."""
    if opened == "refused UnknownProtocol":
        return "unknown"
    found = re.fullmatch(r"open \d+: .*|\d+\.\d+ permitted|\d+\.\d+ offence at (\d+) by .*", last)
    if not opened.startswith("open ") or not found:
        raise CheckFault("the replies to a new conversation are %r and %r" % (opened, last))
    return found[1] or "permitted"


def judged(program, items, logs):
    """The verdicts on these logs, ordered by their places, in as many runs as they need."""
    part, lines, verdicts = [], 0, []
    for log in logs:
        if part and (lines > RUN_LINES or len(part) >= RUN_CONVERSATIONS):
            verdicts += judge_run(program, items, part)
            part, lines = [], 0
        part.append(log)
        lines += 1 + len(log.events)
    return verdicts + judge_run(program, items, part) if part else verdicts


# What the projections offer. A local type is a pair of a kind and what belongs to it.


def parsed_type(text):
    """The local type that `project` printed."""
    local, end = type_at(text, 0)
    if end != len(text):
        raise CheckFault("a local type ends too early: %s" % text)
    return local


def type_at(text, at):
    """The local type that begins here, and where it ends."""
    loop = LOOP.match(text, at)
    if loop:
        body, end = type_at(text, loop.end())
        return ("rec", (loop[1], body)), end
    name = NAME.match(text, at)
    if not name:
        raise CheckFault("no local type at byte %d of %s" % (at, text))
    mark = text[name.end():name.end() + 1]
    if mark not in ("!", "?"):
        return ("end", None) if name[0] == "end" else ("var", name[0]), name.end()
    branches, end = branches_at(text, name.end() + 1)
    return ("act", (name[0] + mark, branches)), end


def branches_at(text, at):
    """The branches of a choice, or the one branch of a message, and where they end."""
    several = text[at:at + 1] == "{"
    at += several
    branches = []
    while True:
        message = MESSAGE.match(text, at)
        if not message or text[message.end():message.end() + 1] != ".":
            raise CheckFault("no message at byte %d of %s" % (at, text))
        local, at = type_at(text, message.end() + 1)
        branches.append((message[0], local))
        if not several:
            return branches, at
        at += 1
        if text[at - 1:at] == "}":
            return branches, at


def unfolded(local, loops):
    """The type in front of which no loop is, with the loops that its variables mean."""
    while local[0] in ("rec", "var"):
        if local[0] == "var":
            local, loops = loops[local[1]]
        name, body = local[1]
        local, loops = body, {**loops, name: (local, loops)}
    return local, loops


def left_after(local, actions):
    """The type that is left after these actions."""
    local, loops = unfolded(local, {})
    for action in actions:
        branches = offered(local)
        if action not in branches:
            raise CheckFault("the log is permitted, and the projection has no %s" % action)
        local, loops = unfolded(branches[action], loops)
    return local


def offered(local):
    """What follows each action that a type offers, in the type's order."""
    if local[0] != "act":
        return {}
    peer, branches = local[1]
    return {peer + message: rest for message, rest in branches}


def messages_in(local):
    """The messages of a local type, each once, in its order."""
    if local[0] == "rec":
        return messages_in(local[1][1])
    found = {}
    for message, rest in local[1][1] if local[0] == "act" else ():
        found.update({message: None, **dict.fromkeys(messages_in(rest))})
    return list(found)


def roles_of(protocol, modules):
    """The declared roles of a protocol, in order, by the text of its module."""
    module, _, name = protocol.rpartition(".")
    text = UNREAD.sub(" ", dict(modules)[module])
    found = re.search(r"\bglobal\s+protocol\s+%s\s*\((.*?)\)" % re.escape(name), text, re.S)
    if not found:
        raise CheckFault("the text of %s declares no %s" % (module, name))
    return re.findall(r"\brole\s+(\w+)", found[1])


def local_types(program, protocol, modules):
    """The local type of each declared role, in order, as pairs."""
    with tempfile.TemporaryDirectory() as room:
        paths = []
        for number, (_, text) in enumerate(modules):
            paths.append(str(Path(room) / ("%d.scr" % number)))
            Path(paths[-1]).write_bytes(text.encode("latin-1"))
        types = []
        for role in roles_of(protocol, modules):
            lines = reply_lines(program, ["project", "--reception", protocol, role, *paths], "")
            types.append((role, parsed_type(lines[0])))
    return types


# What `next` must print.


class Candidate(NamedTuple):
    """An event that may come next: its role, its action as it is printed, and its line."""
    role: str
    action: str
    event: str


class Choices(NamedTuple):
    """The local type of each declared role, each join, and each send and reception of a message between two roles."""
    types: List[Tuple]
    joins: List[Candidate]
    actions: List[Candidate]


@functools.lru_cache(maxsize=None)
def choices_of(program, protocol, modules):
    """What may come next in a conversation of a protocol, whatever its log."""
    types = local_types(program, protocol, modules)
    roles = [role for role, _ in types]
    messages = list(dict.fromkeys(message for _, local in types for message in messages_in(local)))
    actions = []
    for sender, receiver in itertools.permutations(roles, 2):
        for message in messages:
            words = "%s %s %s" % (sender, receiver, message)
            actions.append(Candidate(sender, "%s!%s" % (receiver, message), "send {} " + words))
            actions.append(Candidate(receiver, "%s?%s" % (sender, message), "recv {} " + words))
    return Choices(types, [Candidate(role, "join", "join {} " + role) for role in roles], actions)


def own_actions(role, events):
    """What the role sent and received, as it is printed."""
    for event in events:
        kind, _, *words = event.split()
        if kind == "send" and words[0] == role:
            yield "%s!%s" % (words[1], words[2])
        if kind == "recv" and words[1] == role:
            yield "%s?%s" % (words[0], words[2])


def further_logs(prefix, choices):
    """The log with one more event, and then with the joins of all roles that have not joined and one more action."""
    joins = tuple(one.event for one in choices.joins if one.event not in prefix.events)
    events = [(one.event,) for one in choices.joins + choices.actions]
    events += [joins + (one.event,) for one in choices.actions]
    return [Log(prefix.at, prefix.protocol, prefix.events + further) for further in events]


def role_line(role, local, permitted, events, forms):
    """The line of a role, where these actions of it are permitted. Counts its form."""
    if "join" in permitted:
        forms.append("may join, done" if local[0] == "end" else "may join")
        return "%s: %s" % (role, forms[-1])
    offers = list(offered(left_after(local, own_actions(role, events))))
    if not permitted <= set(offers):
        raise CheckFault("%s may do what its local type does not offer: %s" % (role, sorted(permitted)))
    if permitted:
        forms.append("may receive" if "?" in offers[0] else "may send")
        return "%s: may %s" % (role, ", ".join(one for one in offers if one in permitted))
    forms.append("waits for" if offers else "done")
    return "%s: waits for %s" % (role, ", ".join(offers)) if offers else "%s: done" % role


def due_output(prefix, choices, verdicts):
    """The output that is due after a permitted log by the verdicts on the further logs, and the forms of its lines."""
    permitted = {role: set() for role, _ in choices.types}
    tried = choices.joins + choices.actions
    for candidate, verdict in zip(tried, verdicts):
        if verdict == "permitted":
            permitted[candidate.role].add(candidate.action)
    forms = []
    lines = [role_line(role, local, permitted[role], prefix.events, forms) for role, local in choices.types]
    if "permitted" not in verdicts[len(tried):]:
        forms.append("complete")
        lines.append("complete")
    return "".join(line + "\n" for line in lines), forms


# The whole.


class Tally:
    """What was compared, and the failures so far."""

    def __init__(self, longest):
        self.longest = longest
        self.seen = set()
        self.forms = Counter()
        self.compared = self.long = self.large = self.failed = 0

    def is_new(self, prefix):
        """Whether the prefix is to be compared: none with its modules, protocol and log was, and it is short enough."""
        key = prefix[2:]
        if key in self.seen:
            return False
        self.seen.add(key)
        self.long += len(prefix.events) > self.longest
        return len(prefix.events) <= self.longest

    def compare(self, program, script, id, due, forms):
        """Compares the output and the status of `next`. A refusal is due with status 1."""
        printed, status = run(program, ["next", str(id)], script)
        self.compared += 1
        self.forms.update(forms)
        if (printed, status) == (due, int(due.startswith("refused "))):
            return
        self.failed += 1
        if self.failed <= SHOWN_FAILURES:
            print("scribmon next %d prints, with status %d:\n%sand this was due:\n%safter the script:\n%s"
                  % (id, status, printed, due, script))


def compare_permitted(program, items, prefixes, tally):
    """Compares the output of `next` after permitted logs."""
    tried, logs = [], []
    for prefix in prefixes:
        choices = choices_of(program, prefix.protocol, prefix.modules)
        if len(choices.actions) > TRIED_EVENTS:
            tally.large += 1
            continue
        further = further_logs(prefix, choices)
        tried.append((prefix, choices, len(logs), len(logs) + len(further)))
        logs += further
    verdicts = judged(program, items, logs)
    for prefix, choices, start, end in tried:
        due, forms = due_output(prefix, choices, verdicts[start:end])
        tally.compare(program, "".join(item.text for item in items[:prefix.at]), prefix.id, due, forms)


def compare_script(program, script, tally):
    """Compares the output of `next` after each prefix of a script."""
    items = read_items(script)
    text = "".join(item.text for item in items)
    replies = reply_lines(program, ["watch", "--json"], text)
    if len(replies) != sum(item.has_reply for item in items):
        raise CheckFault("watch prints %d lines to a script of %d steps" % (len(replies), len(items)))
    tally.compare(program, text, UNUSED_ID, "refused NoConversation\n", ["refused NoConversation"])
    prefixes = [prefix for prefix in prefixes_of(items, replies) if tally.is_new(prefix)]
    verdicts = judged(program, items, [Log(prefix.at, prefix.protocol, prefix.events) for prefix in prefixes])
    permitted = []
    for prefix, verdict in zip(prefixes, verdicts):
        if verdict == "permitted":
            permitted.append(prefix)
            continue
        refusal = "UnknownProtocol" if verdict == "unknown" else "NotPermitted"
        due = "refused %s\n" % (refusal if verdict == "unknown" else "NotPermitted " + verdict)
        tally.compare(program, "".join(item.text for item in items[:prefix.at]), prefix.id, due, ["refused " + refusal])
    compare_permitted(program, items, permitted, tally)


def is_script(example):
    """Whether the input of a worked example is a script."""
    words = example.text.split(b"\n")[1].decode().split()
    return words[0] in SCRIPT_COMMANDS or (words[0] == "files" and words[1:2] != [] and words[1] in FILE_COMMANDS)


def report(scripts, tally):
    """Prints the counts. Returns whether all is well."""
    print("%d prefixes of %d scripts compared, %d with another output" % (tally.compared, scripts, tally.failed))
    print("; ".join("%s: %d" % (form, tally.forms[form]) for form in FORMS))
    print("left out: %d prefixes of more than %d events, %d with more than %d sends and receptions to try"
          % (tally.long, tally.longest, tally.large, TRIED_EVENTS))
    missing = [form for form in FORMS if not tally.forms[form]]
    for form in missing:
        print("no prefix has a line of the form: %s" % form)
    return not tally.failed and not missing


def main():
    parser = argparse.ArgumentParser(description=__doc__, formatter_class=argparse.RawDescriptionHelpFormatter)
    parser.add_argument("--program", metavar="FILE", type=Path, default=PROGRAM, help="the built scribmon")
    parser.add_argument("--longest", metavar="N", type=int, default=600, help="the most events of a log (default: 600)")
    options = parser.parse_args()
    if not options.program.is_file():
        parser.error("%s is not built: make build" % options.program)
    scripts = [example.input.decode("latin-1") for example in read_examples() if is_script(example)]
    tally = Tally(options.longest)
    try:
        for script in scripts:
            compare_script(options.program, script, tally)
    except CheckFault as fault:
        print(fault)
        return 1
    return 0 if report(len(scripts), tally) else 1


if __name__ == "__main__":
    sys.exit(main())
