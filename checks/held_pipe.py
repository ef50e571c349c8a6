#!/usr/bin/env python3
"""Feeds scribmon through a pipe that stays open, and reads each reply before it sends the next line.

    held_pipe.py [--program FILE]

Prints how many replies came. Status: 0 fine, 1 a reply is wrong or did not come within ten seconds, 2 a bad command
line.
"""

import select
import subprocess
import sys

from built_program import built_program

TEXT = b"""put
module demo; global protocol Hello(role A, role B) { hello() from A to B; bye() from B to A; }
%%
"""
# With `watch`: the lines that are sent, and the replies that then come.
WATCHED = [
    (TEXT, b"put demo: +demo.Hello\n"),
    (b"open 1 demo.Hello\n", b"open 1: demo.Hello\n"),
    (b"join 1 A\n", b"1.1 permitted\n"),
    (b"join 1 B\n", b"1.2 permitted\n"),
    (b"send 1 A B hello()\n", b"1.3 permitted\n"),
    (b"json ask 1\n", b'{"conversation":1,"events":3,"protocol":"demo.Hello","verdict":"permitted"}\n'),
    (b"recv 1 B A bye()\n", b"1.4 offence at 4 by A, allowed: none\n"),
    (b"close 1\n", b"close 1: offence at 4 by A, allowed: none\n"),
    (b"nothing\n", b"refused BadLine 11\n"),
]
# With `watch --hold`: a reception waits for its send, and the reply to it comes with that of the send.
HELD = [
    (TEXT, b"put demo: +demo.Hello\n"),
    (b"open 1 demo.Hello\n", b"open 1: demo.Hello\n"),
    (b"join 1 B\n", b"1.1 permitted\n"),
    (b"recv 1 A B hello()\njoin 1 A\n", b"1.2 permitted\n"),
    (b"send 1 A B hello()\n", b"1.3 permitted\n1.4 permitted\n"),
    (b"close 1\n", b"close 1: permitted\n"),
    (b"nothing\n", b"refused BadLine 10\n"),
]
# With `watch --hold --names --tags`: the reply to a line that waited has the tag of that line.
LABELLED = [
    (TEXT, b"put demo: +demo.Hello\n"),
    (b"@1 open a demo.Hello\n", b"@1 open a: demo.Hello\n"),
    (b"@2 join a B\n", b"@2 a.1 permitted\n"),
    (b"@3 recv a A B hello()\n@4 join a A\n", b"@4 a.2 permitted\n"),
    (b"@5 send a A B hello()\n", b"@5 a.3 permitted\n@3 a.4 permitted\n"),
    (b"close a\n", b"close a: permitted\n"),
    (b"@6 nothing\n", b"@6 refused BadLine 10\n"),
]
# With `hold`: the same lines as with `watch --hold`, and what is printed of them.
PRINTED = [
    (TEXT, TEXT),
    (b"open 1 demo.Hello\n", b"open 1 demo.Hello\n"),
    (b"join 1 B\n", b"join 1 B\n"),
    (b"recv 1 A B hello()\njoin 1 A\n", b"join 1 A\n"),
    (b"send 1 A B hello()\n", b"send 1 A B hello()\nrecv 1 A B hello()\n"),
    (b"close 1\n", b"close 1\n"),
    (b"nothing\n", b"nothing\n"),
]
RUNS = [
    (["watch"], WATCHED),
    (["watch", "--hold", "100"], HELD),
    (["watch", "--hold", "100", "--names", "--tags"], LABELLED),
    (["hold"], PRINTED),
]


def reply(program, wanted):
    """The next bytes of the program's output: as many as are wanted, or fewer where the rest comes too late."""
    got = b""
    while len(got) < len(wanted):
        ready, _, _ = select.select([program.stdout], [], [], 10)
        piece = program.stdout.read1(len(wanted) - len(got)) if ready else b""
        if not piece:
            break
        got += piece
    return got


def replies_in_turn(path, words, exchanges):
    """Whether the program prints each reply before the next line is sent."""
    pipe = subprocess.PIPE
    program = subprocess.Popen([path, *words], stdin=pipe, stdout=pipe, stderr=subprocess.DEVNULL)
    for line, wanted in exchanges:
        program.stdin.write(line)
        program.stdin.flush()
        got = reply(program, wanted)
        if got != wanted:
            print("%s: after %r came %r and not %r" % (" ".join(words), line, got, wanted))
            program.kill()
            return False
    program.stdin.close()
    return program.wait() == 0


def main():
    program = built_program(__doc__)
    if not all(replies_in_turn(program, words, exchanges) for words, exchanges in RUNS):
        return 1
    print("%d replies, each before the next line was sent" % sum(len(exchanges) for _, exchanges in RUNS))
    return 0


if __name__ == "__main__":
    sys.exit(main())
