#!/usr/bin/env python3
"""Tries `watch --hold` and `hold` on conversations whose reports arrive out of order.

    held_logs.py [--program FILE] [--seed N] [--conversations N] [--cuts N]
    held_logs.py --print [--seed N] [--conversations N] [--skew MS] [--batch MS] [--faults]

Generates correct conversations of the six example protocols. Each role reports its own events in order. The reports of
different roles arrive out of order: by clocks that differ, or in batches. With `--print` the script is printed and
nothing is tried. Else the script asks:

- Is each correct conversation permitted with `watch --hold`, whatever the skew and the batches?
- Has each conversation with a fault that offends in every order an offence?
- Is each log of at most ten events an offence exactly where no reordering of it is permitted? `watch` judges every
  reordering.
- Does `hold` piped into `watch` print the replies of `watch --hold`, but for the numbers of bad lines? Also of each
  stored script of the worked examples, cut at some places, and where it has no last line feed?
"""

import argparse
import pathlib
import random
import re
import subprocess
import sys

import examples

TOP = pathlib.Path(__file__).resolve().parent.parent
PROGRAM = TOP / "crates/scribmon/out/scribmon"
LIMIT = 1_000_000
DISTURBANCES = [(0, 0), (2, 0), (10, 0), (0, 10), (0, 100), (50, 100)]
SMALL_EVENTS = 10
MOST_ORDERS = 2_000


def two_buyer(pick):
    yield from [("First", "Seller", "title(Str)"), ("Seller", "First", "price(Int)"), ("Seller", "Second", "price(Int)"), ("First", "Second", "share(Int)")]
    if pick.random() < 0.5:
        yield from [("Second", "Seller", "accept(Address)"), ("Seller", "Second", "date(Date)")]
    else:
        yield "Second", "Seller", "quit()"
    yield "Second", "First", "decided()"


def streaming(pick):
    for _ in range(pick.randint(0, 6)):
        yield from [("Sink", "Source", "next()"), ("Source", "Sink", "item(Bytes)")]
    yield "Sink", "Source", "stop()"


def retries(pick):
    for _ in range(pick.randint(0, 4)):
        yield from [("Client", "Server", "request(Text)"), ("Server", "Client", "busy()")]
    yield from [("Client", "Server", "request(Text)"), ("Server", "Client", "reply(Text)")]


def authorization(pick):
    yield "Client", "Issuer", "login(User,Password)"
    yield "Issuer", "Client", pick.choice(["token(Token)", "denied()"])
    yield from [("Client", "Resource", "request(Token)"), ("Resource", "Issuer", "check(Token)")]
    yield "Issuer", "Resource", pick.choice(["valid()", "invalid()"])
    yield "Resource", "Client", pick.choice(["data(Bytes)", "refused()"])


def map_reduce(pick):
    for worker in ["One", "Two", "Three"]:
        yield from [("Master", worker, "map(Slice)"), (worker, "Reducer", "result(Data)")]
    yield "Reducer", "Master", "total(Data)"


def travel(pick):
    yield from [("Customer", "Agency", "trip(Place)"), ("Agency", "Customer", "price(Int)")]
    if pick.random() < 0.5:
        yield from [("Customer", "Agency", "accept()"), ("Customer", "Airline", "pay(Card)"), ("Airline", "Customer", "ticket(Date)")]
    else:
        yield from [("Customer", "Agency", "reject()"), ("Customer", "Airline", "leave()")]


# Each protocol: its module's file, its full name, its roles, and the messages of a run.
PROTOCOLS = [
    ("02_two_buyer/two_buyer", "two_buyer.TwoBuyer", ["First", "Second", "Seller"], two_buyer),
    ("03_streaming/streaming", "streaming.Streaming", ["Source", "Sink"], streaming),
    ("04_retries/retries", "retries.Retries", ["Client", "Server"], retries),
    ("05_authorization/authorization", "authorization.Authorization", ["Client", "Issuer", "Resource"], authorization),
    ("06_map_reduce/map_reduce", "map_reduce.MapReduce", ["Master", "One", "Two", "Three", "Reducer"], map_reduce),
    ("07_travel/travel", "travel.Travel", ["Customer", "Agency", "Airline"], travel),
]


def happened(pick, roles, messages):
    """The events of a conversation as (time, role, text), each role's own in order, each reception after its send."""
    clock = {role: pick.uniform(0, 5) for role in roles}
    events = [(clock[role], role, f"join {{}} {role}") for role in roles]
    for sender, receiver, message in messages:
        clock[sender] += pick.uniform(0.1, 3)
        sent = clock[sender]
        events.append((sent, sender, f"send {{}} {sender} {receiver} {message}"))
        clock[receiver] = max(clock[receiver], sent) + pick.uniform(0.1, 3)
        events.append((clock[receiver], receiver, f"recv {{}} {sender} {receiver} {message}"))
    return events


def with_fault(pick, roles, events):
    """The same events and one more that no order of them permits: at any place of its role's own order."""
    role = pick.choice(roles)
    at = pick.choice([time for time, whose, _ in events if whose == role])
    kind = pick.randrange(3)
    if kind == 0:
        other = pick.choice([it for it in roles if it != role])
        return [*events, (at, role, f"send {{}} {role} {other} unheard()")]
    if kind == 1:
        return [*events, (at, "Stranger", f"send {{}} Stranger {role} hello()")]
    return [*events, (at, role, f"join {{}} {role}")]


def reported(pick, events, skew, batch):
    """The events as (time of arrival, text): each role has a clock of its own, and reports in batches."""
    offset, phase = {}, {}
    arrivals = []
    for time, role, text in sorted(events, key=lambda it: it[0]):
        at = time + offset.setdefault(role, pick.uniform(-skew, skew))
        if batch:
            first = phase.setdefault(role, pick.uniform(0, batch))
            at = first + batch * -((first - at) // batch)
        arrivals.append((at, text))
    return arrivals


def puts():
    yield "profile reception\n"
    for name, _, _, _ in PROTOCOLS:
        yield "put\n" + (TOP / "examples" / f"{name}.scr").read_text().rstrip("\n") + "\n%%\n"


def script(pick, conversations, skew, batch, has_faults):
    """A script of these conversations, whose reports arrive so."""
    lines = []
    for id in range(1, conversations + 1):
        _, name, roles, run = pick.choice(PROTOCOLS)
        events = happened(pick, roles, run(pick))
        if has_faults:
            events = with_fault(pick, roles, events)
        start = pick.uniform(0, conversations)
        lines.append((start - skew - 1, f"open {id} {name}"))
        lines += [(start + at, text.format(id)) for at, text in reported(pick, events, skew, batch)]
    lines.sort(key=lambda it: it[0])
    asks = "".join(f"ask {id}\n" for id in range(1, conversations + 1))
    return "".join(puts()) + "".join(f"{text}\n" for _, text in lines), asks


def run(program, words, script):
    """The bytes that the program prints for a script."""
    ran = subprocess.run([program, *words], input=script, stdout=subprocess.PIPE, stderr=subprocess.PIPE)
    if ran.returncode:
        sys.exit(f"scribmon {' '.join(words)} ended with status {ran.returncode}: {ran.stderr.decode()}")
    return ran.stdout


def output(program, words, text):
    return run(program, words, text.encode()).decode()


def offences(program, words, text, asks):
    """The ids of the conversations that are offences at the end. `hold` releases what waits before these asks are made."""
    released = output(program, ["hold", *words], text) if words else text
    last = output(program, ["watch"], released + asks).splitlines()[-asks.count("\n"):]
    return {int(line.split()[0]) for line in last if " offence " in line}


def held_offences(program, text):
    """The ids of the conversations for which `watch --hold` reports an offence."""
    found = re.findall(r"(?m)^(\d+)\.\d+ offence ", output(program, ["watch", "--hold", str(LIMIT)], text))
    return {int(id) for id in found}


def try_disturbances(program, pick, conversations):
    for skew, batch in DISTURBANCES:
        right, asks = script(pick, conversations, skew, batch, False)
        plain = offences(program, [], right, asks)
        held = held_offences(program, right)
        wrong, _ = script(pick, conversations, skew, batch, True)
        caught = held_offences(program, wrong)
        print(f"skew {skew} ms, batches of {batch} ms: {len(plain)} of {conversations} correct conversations are offences to watch, "
              f"{len(held)} to watch --hold; with a fault {len(caught)} of {conversations}")
        if held or len(caught) != conversations:
            sys.exit("watch --hold is wrong")
        for text in (right, wrong):
            try_piped(program, text.encode(), LIMIT)
            try_piped(program, text.encode(), 20)


def same_but_for_numbers(replies):
    return re.sub(rb"refused BadLine \d+", b"refused BadLine", replies)


def try_piped(program, script, lines):
    """Compares `hold` piped into `watch` with `watch --hold`."""
    held = run(program, ["watch", "--hold", str(lines)], script)
    piped = run(program, ["watch"], run(program, ["hold", "--lines", str(lines)], script))
    if same_but_for_numbers(held) != same_but_for_numbers(piped):
        sys.stderr.buffer.write(script)
        sys.exit(f"hold --lines {lines} piped into watch prints other replies than watch --hold {lines}")


def try_stored_scripts(program, pick, cuts):
    """Tries the inputs of the worked examples of `watch`: whole, without their last byte, and cut at some places."""
    scripts = [example.input for example in examples.read_examples() if example.text.split(b"\n")[1] == b"watch"]
    for script in scripts:
        for cut in [len(script), len(script) - 1, *(pick.randrange(len(script) + 1) for _ in range(cuts))]:
            try_piped(program, script[:max(cut, 0)], pick.choice([1, 2, 3, 5, 10_000]))
    print(f"{len(scripts)} stored scripts, each at {cuts + 2} places")


def orders(lists):
    """All merges of these lists."""
    if not any(lists):
        yield []
        return
    for i, own in enumerate(lists):
        if own:
            for rest in orders([*lists[:i], own[1:], *lists[i + 1:]]):
                yield [own[0], *rest]


def small_log(pick):
    """The events of a short log as (role, text): a beginning of a run, where some are left out, changed or doubled."""
    _, name, roles, run = pick.choice(PROTOCOLS)
    events = sorted(happened(pick, roles, run(pick)), key=lambda it: it[0])
    own = [(role, text) for _, role, text in events][: pick.randint(3, SMALL_EVENTS)]
    if own and pick.random() < 0.6:
        at = pick.randrange(len(own))
        kind = pick.randrange(3)
        if kind == 0:
            del own[at]
        elif kind == 1:
            own.insert(at, own[at])
        else:
            other = pick.randrange(len(own))
            own[at], own[other] = own[other], own[at]
    pick.shuffle(own)
    return name, own[:SMALL_EVENTS]


def try_small_logs(program, pick, count):
    """Compares `watch --hold` on short logs with `watch` on all their reorderings."""
    tried = allowed = 0
    for _ in range(count):
        name, log = small_log(pick)
        lists = {}
        for role, text in log:
            lists.setdefault(role, []).append(text)
        all_orders = []
        for order in orders(list(lists.values())):
            all_orders.append(order)
            if len(all_orders) > MOST_ORDERS:
                break
        if len(all_orders) > MOST_ORDERS:
            continue
        text = "".join(puts())
        for id, order in enumerate(all_orders, 1):
            text += f"open {id} {name}\n" + "".join(line.format(id) + "\n" for line in order)
        asks = "".join(f"ask {id}\n" for id in range(1, len(all_orders) + 1))
        is_allowed = len(offences(program, [], text, asks)) < len(all_orders)
        held = "".join(puts()) + f"open 1 {name}\n" + "".join(line.format(1) + "\n" for _, line in log)
        is_held_offence = bool(held_offences(program, held))
        if is_allowed == is_held_offence:
            sys.exit(f"watch --hold is wrong on:\n{held}")
        tried, allowed = tried + 1, allowed + is_allowed
    print(f"{tried} short logs, {allowed} of them with a permitted reordering")


def main():
    parser = argparse.ArgumentParser(description=__doc__, formatter_class=argparse.RawDescriptionHelpFormatter)
    parser.add_argument("--program", metavar="FILE", type=pathlib.Path, default=PROGRAM, help="scribmon (default: the built one)")
    parser.add_argument("--seed", metavar="N", type=int, default=1, help="of the generated conversations (default: 1)")
    parser.add_argument("--conversations", metavar="N", type=int, default=300, help="how many conversations a script has (default: 300)")
    parser.add_argument("--cuts", metavar="N", type=int, default=8, help="at how many places each stored script is cut (default: 8)")
    parser.add_argument("--print", action="store_true", help="print a script and try nothing")
    parser.add_argument("--skew", metavar="MS", type=float, default=2, help="how far the roles' clocks differ, with --print (default: 2)")
    parser.add_argument("--batch", metavar="MS", type=float, default=0, help="how long a role gathers reports, with --print (default: 0)")
    parser.add_argument("--faults", action="store_true", help="put a fault into each conversation, with --print")
    words = parser.parse_args()
    pick = random.Random(words.seed)
    if words.print:
        text, asks = script(pick, words.conversations, words.skew, words.batch, words.faults)
        print(text + asks, end="")
        return
    if not words.program.is_file():
        sys.exit(f"{words.program} is not built")
    try_disturbances(words.program, pick, words.conversations)
    try_small_logs(words.program, pick, words.conversations)
    try_stored_scripts(words.program, pick, words.cuts)


if __name__ == "__main__":
    main()
