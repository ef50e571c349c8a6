#!/usr/bin/env python3
"""Runs the monitor of one partition: reads its log, feeds `scribmon watch`, and writes the replies.

    adapter.py --engine ADDRESS --name NAME --partitions P --program FILE [--hold N] PARTITION

It keeps nothing. It reads its log from the beginning, so each start writes all replies anew, and a sink drops those
that it has. It ends with status 1 where its monitor or the engine fails; whoever started it starts it again. A signal
SIGTERM ends it behind what it has read; then standard error has its counts and those of the monitor.
"""

import argparse
import signal
import sys
import time
from pathlib import Path
from typing import Callable, Iterator, List, Optional, Tuple

from engine import Engine, EngineFault, Message, open_engine
from monitor import Monitor, MonitorFault
from ordering import Ordering
from options import stream_parser
from records import BadRecord, Line, Mark, Streams, parse_edit, parse_record

IDLE_SECONDS, EDIT_SECONDS = 0.2, 60
REPLIES_A_MESSAGE = 200
Feed = Callable[[str], None]


class Edits:
    """The edits that a partition has taken: those from the first on, up to a number."""

    def __init__(self, engine: Engine, streams: Streams) -> None:
        self._messages = engine.read(streams.edits(), 0, IDLE_SECONDS)
        self.due = 0

    def up_to(self, number: int) -> Iterator[Message]:
        """The edits up to a number that were not taken yet. An edit is there before its mark is."""
        limit = time.monotonic() + EDIT_SECONDS
        while self.due <= number:
            message = next(self._messages)
            if message is not None:
                self.due = message.offset + 1
                yield message
            elif time.monotonic() > limit:
                raise EngineFault(f"a mark names edit {number}, which does not come")


class Adapter:
    """Turns the messages of a log into a script."""

    def __init__(self, partition: int, edits: Edits, feed: Feed) -> None:
        self._partition = partition
        self._edits = edits
        self._feed = feed
        self._ordering: Ordering[Tuple[str, Line]] = Ordering()
        self.messages = self.lines = self.bad = self.marks = 0

    def take(self, message: Message) -> None:
        """Feeds what a message brings: a message has one or more records, each on a line."""
        self.messages += 1
        script: List[str] = []
        for at, body in enumerate(message.body.split(b"\n")):
            try:
                record = parse_record(body.decode("ascii"))
            except (BadRecord, UnicodeDecodeError):
                self.bad += 1
                continue
            if isinstance(record, Mark):
                script += self._at_mark(record)
            else:
                script += self._at_line(f"{self._partition}.{message.offset}.{at}", record)
        if script:
            self._feed("".join(script))

    def _at_line(self, tag: str, line: Line) -> List[str]:
        """The script lines whose turn has come with this line."""
        ready = self._ordering.take((line.session, line.producer), line.number, (tag, line))
        self.lines += len(ready)
        return [each.script(its_tag) + "\n" for its_tag, each in ready]

    def _at_mark(self, mark: Mark) -> List[str]:
        """The edits that a mark brings, and a sweep behind them. A mark of edits that were taken does nothing."""
        script = []
        for message in self._edits.up_to(mark.edit):
            try:
                script.append(parse_edit(message.body.decode("utf-8")).script(message.offset))
            except (BadRecord, UnicodeDecodeError):
                self.bad += 1
        if script:
            self.marks += 1
            script.append(f"@sweep.{self._partition}.{mark.edit} sweep\n")
        return script

    def counts(self) -> str:
        """What came, in one line."""
        lines = self._ordering
        return (f"adapter {self._partition}: {self.messages} messages, {self.lines} lines, {lines.doubled} doubled, "
                f"{lines.came_early} early, {lines.waiting()} still early, {self.bad} bad, {self._edits.due} edits at "
                f"{self.marks} marks")


def publisher(engine: Engine, streams: Streams, partition: int) -> Callable[[List[bytes]], None]:
    """Writes reply lines, as many in a message as came together."""
    def write(lines: List[bytes]) -> None:
        pieces = range(0, len(lines), REPLIES_A_MESSAGE)
        engine.append(streams.replies(partition), [b"\n".join(lines[at:at + REPLIES_A_MESSAGE]) for at in pieces])
    return write


def follow(adapter: Adapter, monitor: Monitor, messages: Iterator[Optional[Message]], stopping: List[int]) -> None:
    """Takes messages until a signal has come and nothing more is there."""
    for message in messages:
        monitor.check()
        if message is not None:
            adapter.take(message)
        elif stopping:
            return


def arguments() -> argparse.Namespace:
    parser = stream_parser(__doc__)
    parser.add_argument("--program", metavar="FILE", type=Path, required=True, help="scribmon")
    parser.add_argument("--hold", metavar="N", type=int, default=10_000, help="as of watch (default: 10000)")
    parser.add_argument("partition", metavar="PARTITION", type=int)
    return parser.parse_args()


def main() -> int:
    options = arguments()
    stopping: List[int] = []
    signal.signal(signal.SIGTERM, lambda number, frame: stopping.append(number))
    streams = Streams(options.name, options.partitions)
    reading, writing = open_engine(options.engine), open_engine(options.engine)
    monitor = Monitor(options.program, options.hold, sys.stderr.buffer,
                      publisher(writing, streams, options.partition))
    print(f"monitor {monitor.pid}", flush=True)
    adapter = Adapter(options.partition, Edits(reading, streams), monitor.feed)
    try:
        follow(adapter, monitor, reading.read(streams.log(options.partition), 0, IDLE_SECONDS), stopping)
        monitor.finish()
    except (EngineFault, MonitorFault) as fault:
        monitor.kill()
        print(f"adapter.py: {fault}", file=sys.stderr)
        return 1
    print(adapter.counts(), file=sys.stderr)
    return 0


if __name__ == "__main__":
    sys.exit(main())
