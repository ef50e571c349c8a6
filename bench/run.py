#!/usr/bin/env python3
"""Times `scribmon run` by the clock.

    run.py [--program FILE] [--rounds N] [--events N] [--conversations N] [--cores LIST]

Run it from anywhere, after `make build`, while nothing else runs: times are those of the clock, and output is
dropped.

First it runs four connections of 250,000 events each, over 4 shards with 2 workers. Beside that it runs `watch` over
the same events in one script, and four `watch` at once over a quarter each, which is the most that the machine gives.
Each round runs the three in turn, so that a change of the machine's pace meets all of them. For each it prints the
least seconds, and the median over the rounds of how many times as fast as that round's `watch` it was.

Then it times an edit of the one protocol of 10,000 conversations with 100 events each, until no verdict is stale,
with 1, 2 and 4 workers. The time is the difference of two runs, the best of all rounds each. One has a connection
that puts a changed text, which permits all that the first text permits. In the other the connection puts the first
text again.

It is no test: it prints the last line of the tables and compares nothing. Status: 0 fine, 1 a command failed, 2 a bad
command line.
"""

import argparse
import os
import statistics
import subprocess
import sys
import tempfile
import time

PROGRAM = os.path.join(os.path.dirname(os.path.abspath(__file__)), "..", "crates", "scribmon", "out", "scribmon")
ROUNDS = 10
CONNECTIONS = 4
LOG = 60_000
BODY = "ask(Int) from A to B; tell(Int, Str) from B to A; continue X;"
CHANGED_BODY = "choice at A { %s } or { stop() from A to B; }" % BODY
TEXT = "put\nmodule k; global protocol K(role A, role B) { rec X { %s } }\n%%%%\n"


def exchanges(conversation, events):
    """Lines of so many events of a conversation, behind its joins."""
    turn = ["send %d A B ask(Int)", "recv %d A B ask(Int)", "send %d B A tell(Int,Str)", "recv %d B A tell(Int,Str)"]
    return [turn[i % 4] % conversation for i in range(events)]


def conversation_lines(conversation, events):
    return ["join %d A" % conversation, "join %d B" % conversation] + exchanges(conversation, events - 2)


def write(folder, name, lines):
    path = os.path.join(folder, name)
    with open(path, "w") as file:
        file.write("".join(line if line.endswith("\n") else line + "\n" for line in lines))
    return path


def seconds_of(commands, cores):
    """The seconds until these commands, started together, have all ended."""
    pin = ["taskset", "-c", cores] if cores else []
    begun = time.monotonic()
    running = [subprocess.Popen(pin + words, stdout=subprocess.DEVNULL) for words in commands]
    if any([process.wait() for process in running]):
        sys.exit("a command failed")
    return time.monotonic() - begun


def last_line(words):
    """The last line that the command prints."""
    done = subprocess.run(words, capture_output=True, check=True)
    return done.stdout.rsplit(b"\n", 2)[-2].decode()


def beside_watch(program, folder, events, rounds, cores):
    """Prints the times of four connections, of one script, and of four programs at once."""
    setup, connections, quarters, whole = [TEXT % BODY], [], [], [TEXT % BODY]
    for number in range(CONNECTIONS):
        lines, quarter = [], [TEXT % BODY]
        for first in range(0, events, LOG):
            conversation = number + CONNECTIONS * (first // LOG)
            opened = "open %d k.K" % conversation
            setup.append(opened)
            whole.append(opened)
            quarter.append(opened)
            lines += conversation_lines(conversation, min(LOG, events - first))
        connections.append(write(folder, "connection%d" % number, lines))
        quarters.append(write(folder, "quarter%d" % number, quarter + lines))
        whole += lines
    words = [program, "run", "--shards", "4", "--workers", "2", write(folder, "setup", setup)] + connections
    last = last_line(words)
    ways = [
        ("watch of %d events in one script:" % (CONNECTIONS * events), [[program, "watch", write(folder, "whole", whole)]]),
        ("run of them over %d connections (%s):" % (CONNECTIONS, last), [words]),
        ("%d times watch beside each other:" % CONNECTIONS, [[program, "watch", quarter] for quarter in quarters]),
    ]
    taken = [[seconds_of(commands, cores) for _, commands in ways] for _ in range(rounds)]
    for place, (name, _) in enumerate(ways):
        least = min(round[place] for round in taken)
        faster = statistics.median(round[0] / round[place] for round in taken)
        print("%s %.3f s, %.2f times as fast" % (name, least, faster))


def until_judged(program, folder, conversations, rounds, cores):
    """Prints the times from an edit under many conversations until no verdict is stale."""
    setup = [TEXT % BODY]
    for conversation in range(conversations):
        setup.append("open %d k.K" % conversation)
        setup += conversation_lines(conversation, 100)
    setup = write(folder, "many", setup)
    same = write(folder, "same", [TEXT % BODY])
    changed = write(folder, "changed", [TEXT % CHANGED_BODY])
    for workers in ["1", "2", "4"]:
        words = [program, "run", "--shards", "4", "--workers", workers, setup]
        last = last_line(words + [changed])
        without = min(seconds_of([words + [same]], cores) for _ in range(rounds))
        with_edit = min(seconds_of([words + [changed]], cores) for _ in range(rounds))
        print("until no verdict is stale, %s workers: %.3f s (%s)" % (workers, with_edit - without, last))


def main():
    parser = argparse.ArgumentParser(description=__doc__, formatter_class=argparse.RawDescriptionHelpFormatter)
    parser.add_argument("--program", metavar="FILE", default=PROGRAM, help="the built scribmon")
    parser.add_argument("--rounds", metavar="N", type=int, default=ROUNDS, help="rounds of each part (default: 10)")
    parser.add_argument("--events", metavar="N", type=int, default=250_000, help="of a connection (default: 250000)")
    parser.add_argument("--conversations", metavar="N", type=int, default=10_000, help="of the edit (default: 10000)")
    parser.add_argument("--cores", metavar="LIST", help="the processors that are used, as 2,3")
    options = parser.parse_args()
    if not os.path.exists(options.program):
        parser.error("%s is not built: make build" % options.program)
    with tempfile.TemporaryDirectory() as folder:
        beside_watch(options.program, folder, options.events, options.rounds, options.cores)
        until_judged(options.program, folder, options.conversations, options.rounds, options.cores)


if __name__ == "__main__":
    main()
