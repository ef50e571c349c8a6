#!/usr/bin/env python3
"""Prints examples of generated steps: edits, withdrawals, openings, turns, asks and events over a service.

    generated_steps.py [--lists N] [--closes]

Sixteen lists under each profile are the stored examples of the topic `generated_steps`, among the cases of
crates/scrib_examples. Such an example runs its steps over a service of two shards and beside a core. Where two replies
differ, its output has one line more. Without titles and commands, each list is a script that `watch` reads too.

With `--closes` the lists also close conversations and open their ids again. Four such lists under each profile are the
stored examples of the topic `generated_closes`. The output of such an example is one line: how many replies there are,
how many of them differ from the core's, and how many conversations were closed. It is printed to standard error.
"""

import argparse
import sys

STEPS = 500
CALLED = "module lib; global protocol P(role A, role B) { a() from A to B; }"
CALLED_LATER = "module lib; global protocol P(role A, role B) { a(Int) from A to B; }"
CALLING = "module use; import lib; global protocol Q(role A, role B) { do lib.P(A, B); }"
LOOP = "module k; global protocol K(role A, role B) { rec X { a() from A to B; continue X; } }"
CHOICE = (
    "module k; global protocol K(role A, role B) { rec X { choice at A { a() from A to B; continue X; }"
    " or { b() from A to B; continue X; } } }"
)
TEXTS = [CALLED, CALLED_LATER, CALLING, LOOP, CHOICE]
OPENED = ["open 0 use.Q", "open 1 lib.P", "open 2 k.K", "open 3 k.K"]
WITHDRAWN = ["withdraw use", "withdraw lib", "withdraw k"]
# Steps of a conversation, whatever its log holds.
OTHERS = ["ask", "turn", "ask", "turn", "join A", "join C", "send A B b()", "recv A B a(Int)"]
# The events that follow the protocol, in turn.
EXCHANGED = ["send A B a()", "recv A B a()"]


class Numbers:
    """A linear congruential generator: x = 1664525 x + 1013904223 modulo 2^32, of which the upper 16 bits are used."""

    def __init__(self):
        self.last = 1

    def next(self):
        self.last = (1_664_525 * self.last + 1_013_904_223) % 2**32
        return self.last >> 16

    def once_in(self, times):
        return self.next() % times == 0

    def one_of(self, texts):
        return texts[self.next() % len(texts)]


def put(text):
    return f"put\n{text}\n%%"


def line_with(text, id):
    """The line with the conversation's number behind its first word."""
    word, _, rest = text.partition(" ")
    return f"{word} {id} {rest}".rstrip()


def next_step(numbers, made):
    if numbers.once_in(20):
        return put(numbers.one_of(TEXTS))
    if numbers.once_in(40):
        return numbers.one_of(WITHDRAWN)
    id = numbers.next() & 3
    if numbers.once_in(3):
        return line_with(numbers.one_of(OTHERS), id)
    return line_with(EXCHANGED[made % 2], id)


def setup(profile):
    """The profile, three modules, and four conversations that two roles join."""
    made = [f"profile {profile}", *map(put, [CALLED, CALLING, LOOP]), *OPENED]
    for id in range(4):
        made += [f"join {id} A", f"join {id} B"]
    return made


def steps(profile, numbers):
    """A list of steps: the setup, and generated steps."""
    made = setup(profile)
    while len(made) < STEPS:
        made.append(next_step(numbers, len(made)))
    return made


def closing_steps(profile, numbers):
    """As `steps`, with closes and openings among them; and how many closes are accepted."""
    made = setup(profile)
    is_open = [True] * 4
    closed = 0
    while len(made) < STEPS:
        id = numbers.next() & 3
        if numbers.once_in(20):
            made.append(f"close {id}")
            closed += is_open[id]
            is_open[id] = False
        elif not is_open[id] and numbers.once_in(4):
            made += [put(LOOP), f"open {id} k.K", f"join {id} A", f"join {id} B"]
            is_open[id] = True
        else:
            made.append(next_step(numbers, len(made)))
    return made, closed


def print_closing(profile, number, numbers):
    """Prints an example of closes, and to standard error what it prints."""
    made, closed = closing_steps(profile, numbers)
    print(f"== generated closes, {profile}, list {number}\nservice agree 2")
    print("\n".join(made))
    print(f"{profile}, list {number}: {len(made)} replies, 0 differ, {closed} closed", file=sys.stderr)


def main():
    parser = argparse.ArgumentParser(description=__doc__, formatter_class=argparse.RawDescriptionHelpFormatter)
    parser.add_argument("--lists", metavar="N", type=int, default=16, help="lists under each profile (default: 16)")
    parser.add_argument("--closes", action="store_true", help="lists with closes")
    options = parser.parse_args()
    numbers = Numbers()
    for profile in ("plain", "reception"):
        for number in range(1, options.lists + 1):
            if options.closes:
                print_closing(profile, number, numbers)
                continue
            print(f"== generated steps, {profile}, list {number}\nservice script 2")
            print("\n".join(steps(profile, numbers)))


if __name__ == "__main__":
    main()
