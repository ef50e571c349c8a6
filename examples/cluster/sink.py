#!/usr/bin/env python3
"""Prints the replies of all partitions, each once, as they come.

    sink.py --engine ADDRESS --name NAME --partitions P

A reply is known by its tag and its first word, so the replies of a second monitor and of a restart are dropped. Where
they differ from those that were printed the sink reports it and ends with status 1. It ends with status 0 at a signal
SIGTERM; then standard error has its counts. Each start prints all replies from the beginning of the logs.
"""

import os
import queue
import signal
import sys
import threading
from typing import Dict, List, Optional, Tuple

from engine import EngineFault, open_engine
from options import stream_parser
from records import Stream, Streams

IDLE_SECONDS = 0.2
Arrived = Tuple[Optional[bytes], Optional[Exception]]


class Conflict(Exception):
    """Two replies to one line that differ."""


class Sink:
    """The replies that came, by tag and first word."""

    def __init__(self) -> None:
        self._seen: Dict[Tuple[str, str], str] = {}
        self.dropped = 0

    def take(self, body: bytes) -> List[str]:
        """The replies of a message that are new.

        Raises Conflict where a reply differs from the one that came first.
        """
        new = []
        for reply in body.decode("ascii").split("\n"):
            tag, first, *_ = reply.split(" ", 2)
            known = self._seen.setdefault((tag, first), reply)
            if known is reply:
                new.append(reply)
            elif known == reply:
                self.dropped += 1
            else:
                raise Conflict(f"{reply!r} differs from {known!r}")
        return new

    def counts(self) -> str:
        return f"sink: {len(self._seen)} replies, {self.dropped} repeats dropped"


def read_stream(address: str, stream: Stream, arrived: "queue.Queue[Arrived]") -> None:
    """Hands on the messages of a stream, from a thread of its own."""
    try:
        for message in open_engine(address).read(stream, 0, IDLE_SECONDS):
            if message is not None:
                arrived.put((message.body, None))
    except EngineFault as fault:
        arrived.put((None, fault))


def print_replies(sink: Sink, arrived: "queue.Queue[Arrived]", stopping: List[int]) -> None:
    """Prints what is new until a signal has come and nothing more is there."""
    while True:
        try:
            body, fault = arrived.get(timeout=IDLE_SECONDS)
        except queue.Empty:
            if stopping:
                return
            continue
        if fault is not None:
            raise fault
        new = sink.take(body)
        if new:
            print("\n".join(new), flush=True)


def main() -> int:
    parser = stream_parser(__doc__)
    options = parser.parse_args()
    stopping: List[int] = []
    signal.signal(signal.SIGTERM, lambda number, frame: stopping.append(number))
    streams, sink = Streams(options.name, options.partitions), Sink()
    arrived: "queue.Queue[Arrived]" = queue.Queue(maxsize=10_000)
    for partition in range(options.partitions):
        threading.Thread(target=read_stream, args=(options.engine, streams.replies(partition), arrived),
                         daemon=True).start()
    status = 0
    try:
        print_replies(sink, arrived, stopping)
    except (Conflict, EngineFault) as fault:
        print(f"sink.py: {fault}", file=sys.stderr)
        status = 1
    print(sink.counts(), file=sys.stderr, flush=True)
    return status


if __name__ == "__main__":
    found = main()
    # The threads that read wait for messages, and end with the process.
    sys.stdout.flush()
    os._exit(found)
