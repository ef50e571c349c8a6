#!/usr/bin/env python3
"""Prints a script of generated logs, with edits of their protocol between the events.

    generated_logs.py [--seed N]

With the default seed this is the input of a stored example, `each_verdict_on_generated_logs_with_edits_between_their`
among the cases of crates/scrib_examples, topic `whole_logs`. That example compares each verdict that is not stale with
the judgement of the whole log by the definitions. `watch` reads the script too.
"""

import argparse
import random

LOGS = 24
EVENTS = 40
HEAD = "put\nmodule m; global protocol P"
TEXTS = [
    HEAD + "(role A, role B) { rec X { choice at A { a() from A to B; continue X; } or { b() from A to B; continue X; } } }\n%%",
    HEAD + "(role A, role B) { rec X { a() from A to B; continue X; } }\n%%",
    HEAD + "(role A, role B, role C) { a() from A to B; rec X { a() from A to B; c() from C to B; continue X; } }\n%%",
]
# One event in a hundred is one of these, whatever the log holds.
OTHERS = ["join {} C", "join {} A", "recv {} A B b()", "recv {} A B a()", "send {} C B c()", "send {} B A a()"]


def event(pick, flight):
    """An event of A and B, which mostly follow the protocol."""
    if pick.random() < 0.01:
        return pick.choice(OTHERS)
    if flight and pick.random() < 0.5:
        return "recv {} A B " + flight.pop(0)
    flight.append("b()" if pick.random() < 0.03 else "a()")
    return "send {} A B " + flight[-1]


def log(pick, id):
    """The lines of one conversation."""
    yield pick.choice([TEXTS[0], *TEXTS])
    yield f"open {id} m.P"
    for role in pick.choice(["AB", "AB", "AB", "AB", "AB", "ABC"]):
        yield f"join {id} {role}"
    flight = []
    for _ in range(EVENTS):
        if pick.random() < 0.05:
            yield "withdraw m" if pick.random() < 0.2 else pick.choice(TEXTS)
            yield f"ask {id}"
        if pick.random() < 0.25:
            yield f"turn {pick.choice([id, pick.randint(1, id)])}"
        yield event(pick, flight).format(id)


def main():
    parser = argparse.ArgumentParser(description=__doc__, formatter_class=argparse.RawDescriptionHelpFormatter)
    parser.add_argument("--seed", metavar="N", type=int, default=2, help="of the generated events (default: 2)")
    pick = random.Random(parser.parse_args().seed)
    for id in range(1, LOGS + 1):
        print("\n".join(log(pick, id)))


if __name__ == "__main__":
    main()
