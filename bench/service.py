#!/usr/bin/env python3
"""Times notes of the sharded service over threads.

    service.py [--program FILE] [--whole] [--notes N] [--cores LIST]

Run it from anywhere, after `make examples`, while nothing else runs. The program reads no clock: this script takes
the times. A note takes the difference of the seconds of two runs by that of their numbers of notes, each the best of
three runs. It prints

- microseconds of a core's note on one thread;
- notes in a second of 2, 4 and 8 programs at once, each with a core of its own: the most that the machine gives;
- for 1, 2, 4 and 8 threads, with 64 shards and with one, notes in a second over all threads and microseconds of
  processor time for each;
- the same while another thread puts a module without pause;
- with --whole, the seconds in which 1,000,000 notes of 16 threads are noted and settled.

It is no test. Status: 0 fine, 1 a run failed or lost notes, 2 a bad command line.
"""

import argparse
import os
import resource
import subprocess
import sys
import time

HERE = os.path.dirname(os.path.abspath(__file__))
PROGRAM = os.path.join(HERE, "..", "crates", "scrib_examples", "out", "scrib_examples")
RUNS = 3


def seconds(program, words, cores):
    """The seconds of one run, by the clock and of processor time, and what it printed."""
    before = resource.getrusage(resource.RUSAGE_CHILDREN)
    begun = time.monotonic()
    pin = ["taskset", "-c", cores] if cores else []
    done = subprocess.run(pin + [program] + [str(word) for word in words], capture_output=True, check=True)
    ended = time.monotonic()
    after = resource.getrusage(resource.RUSAGE_CHILDREN)
    spent = after.ru_utime + after.ru_stime - before.ru_utime - before.ru_stime
    return ended - begun, spent, done.stdout.decode()


def per_note(program, words, notes, cores):
    """The seconds of one note, by the clock and of processor time."""
    few, many = notes // 4, notes
    best = []
    for count in (few, many):
        runs = [seconds(program, words + [count], cores) for _ in range(RUNS)]
        if any(int(run[2]) < count - 64 for run in runs):
            sys.exit("not all events were noted")
        best.append((min(run[0] for run in runs), min(run[1] for run in runs)))
    return [(best[1][i] - best[0][i]) / (many - few) for i in (0, 1)]


def per_note_of_many(program, count, notes, cores):
    """The seconds of one note by the clock, where so many programs at once share the notes."""
    pin = ["taskset", "-c", cores] if cores else []
    best = []
    for all_notes in (notes // 4, notes):
        words = pin + [program, "apply", str(all_notes // count)]
        took = []
        for _ in range(RUNS):
            begun = time.monotonic()
            running = [subprocess.Popen(words, stdout=subprocess.DEVNULL) for _ in range(count)]
            if any([one.wait() for one in running]):
                sys.exit("a program failed")
            took.append(time.monotonic() - begun)
        best.append(min(took))
    return (best[1] - best[0]) / (notes - notes // 4)


def main():
    parser = argparse.ArgumentParser(description=__doc__, formatter_class=argparse.RawDescriptionHelpFormatter)
    parser.add_argument("--program", metavar="FILE", default=PROGRAM, help="the built scrib_examples")
    parser.add_argument("--whole", action="store_true", help="settle a million notes too")
    parser.add_argument("--notes", metavar="N", type=int, default=400_000, help="of the longer run (default: 400000)")
    parser.add_argument("--cores", metavar="LIST", help="the processors that are used, as 2,3")
    given = parser.parse_args()
    program = given.program
    if not os.path.exists(program):
        parser.error("%s is not built: make examples" % program)
    clock, spent = per_note(program, ["apply"], given.notes, given.cores)
    print("core                          %10.0f notes/s %8.2f us" % (1 / clock, spent * 1e6), flush=True)
    for count in (2, 4, 8):
        clock = per_note_of_many(program, count, given.notes, given.cores)
        print("%d programs, a core each        %8.0f notes/s" % (count, 1 / clock), flush=True)
    for task, name in (("notes", "alone"), ("edited", "beside edits")):
        for shards in (64, 1):
            for threads in (1, 2, 4, 8):
                clock, spent = per_note(program, [task, threads, shards], given.notes, given.cores)
                print(
                    "%d threads, %2d shards, %-12s %8.0f notes/s %8.2f us" % (threads, shards, name, 1 / clock, spent * 1e6),
                    flush=True,
                )
    if given.whole:
        clock, _, printed = seconds(program, ["settle", 16, 64, 1_000_000], given.cores)
        print("%s settled in %.1f s" % (printed.splitlines()[-1], clock))


if __name__ == "__main__":
    main()
