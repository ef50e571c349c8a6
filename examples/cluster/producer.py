#!/usr/bin/env python3
"""Publishes what one service reports: numbers its lines of each session, and appends them to the session's log.

    producer.py --engine ADDRESS --name NAME --partitions P [--lines N] SERVICE < LINES

Standard input has lines `SESSION VERB ARGS`, as `order-8f3a send Client Shop order(Item)`. Each line that came is
published at once, up to N of a partition in one message. The program ends once all are confirmed.
"""

import collections
import os
import sys
from typing import Dict, Iterator, List

from engine import Engine, EngineFault, open_engine
from options import stream_parser
from records import BadRecord, Line, Streams, parse_record

READ_BYTES = 65_536


class Producer:
    """A service's lines. It counts those of each session, so one producer must see all that its service reports."""

    def __init__(self, engine: Engine, streams: Streams, service: str, lines_a_message: int = 1) -> None:
        self._engine = engine
        self._streams = streams
        self._service = service
        self._lines_a_message = lines_a_message
        self._numbers: Dict[str, int] = collections.Counter()
        self._unsent: Dict[int, List[str]] = collections.defaultdict(list)

    def report(self, session: str, verb: str, arguments: str = "") -> None:
        """Gives a line its number. It is published by the next `flush`.

        Raises BadRecord where the adapter could not read the line.
        """
        line = Line(session, self._service, self._numbers[session] + 1, verb, arguments)
        if parse_record(line.text()) != line:
            raise BadRecord(line.text())
        self._numbers[session] += 1
        self._unsent[self._streams.partition_of(session)].append(line.text())

    def flush(self) -> None:
        """Publishes what was reported, and returns once all of it is confirmed."""
        for partition, lines in sorted(self._unsent.items()):
            pieces = range(0, len(lines), self._lines_a_message)
            bodies = ["\n".join(lines[at:at + self._lines_a_message]).encode("ascii") for at in pieces]
            self._engine.append(self._streams.log(partition), bodies)
        self._unsent.clear()


def pieces_of_input() -> Iterator[List[str]]:
    """The whole lines of standard input, as many at once as are there."""
    rest = b""
    while True:
        piece = os.read(sys.stdin.fileno(), READ_BYTES)
        *lines, rest = (rest + piece).split(b"\n")
        if not piece and rest:
            lines.append(rest)
        yield [line.decode("ascii") for line in lines if line.strip()]
        if not piece:
            return


def main() -> int:
    parser = stream_parser(__doc__)
    parser.add_argument("--lines", metavar="N", type=int, default=100, help="of a message, at most (default: 100)")
    parser.add_argument("service", metavar="SERVICE", help="the producer's name in its lines")
    options = parser.parse_args()
    engine = open_engine(options.engine)
    producer = Producer(engine, Streams(options.name, options.partitions), options.service, options.lines)
    count = 0
    try:
        for lines in pieces_of_input():
            for line in lines:
                producer.report(*line.split(" ", 2))
            producer.flush()
            count += len(lines)
    except (EngineFault, BadRecord, UnicodeDecodeError, TypeError) as fault:
        print(f"producer.py: {fault}", file=sys.stderr)
        return 1
    engine.close()
    print(f"{count} lines confirmed")
    return 0


if __name__ == "__main__":
    sys.exit(main())
