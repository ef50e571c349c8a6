#!/usr/bin/env python3
"""Measures what a producer and the adapters carry, over three nodes that it starts on loopback.

    measure.py --program FILE [--sessions N] [--partitions P]

Prints lines a second of one producer and of all adapters together, the time from a report to its reply, and the memory
that an open session takes. Nothing is compared: checks/cluster.py does that.
"""

import argparse
import os
import signal
import statistics
import sys
import tempfile
import threading
import time
from dataclasses import dataclass, replace
from pathlib import Path
from typing import List

from editor import append_edit, put_marks
from engine import Engine, EngineFault, open_engine
from nodes import Cluster
from processes import Adapters, Settings
from producer import Producer
from records import Streams
from workload import MODULES, Session, make_sessions, module_text

HOLD, LIMIT_SECONDS, REPLY_SECONDS = 10_000, 600, 200
REPORTS, FLUSHED_SESSIONS = 200, 50
IDLE_SECONDS, LOOK_SECONDS = 0.5, 0.0005


class Replies:
    """Counts the reply lines of all partitions, as they come."""

    def __init__(self, address: str, streams: Streams) -> None:
        self._counts = [0] * streams.partitions
        for partition in range(streams.partitions):
            threading.Thread(target=self._read, args=(open_engine(address), streams, partition), daemon=True).start()

    def _read(self, engine: Engine, streams: Streams, partition: int) -> None:
        for message in engine.read(streams.replies(partition), 0, IDLE_SECONDS):
            if message is not None:
                self._counts[partition] += message.body.count(b"\n") + 1

    def wait_for(self, count: int) -> None:
        limit = time.monotonic() + REPLY_SECONDS
        while sum(self._counts) < count:
            if time.monotonic() > limit:
                raise EngineFault(f"{sum(self._counts)} replies, and not {count}")
            time.sleep(LOOK_SECONDS)


@dataclass
class Bench:
    """One generation of logs, whose producer is one for all services."""
    settings: Settings
    engine: Engine
    producer: Producer
    due: int = 0

    def put_modules(self) -> None:
        streams = self.settings.streams
        for name in MODULES:
            number = append_edit(self.engine, streams, "put", module_text(name))
            put_marks(self.engine, streams, number, range(streams.partitions))
        self.due += 2 * len(MODULES) * streams.partitions

    def publish(self, sessions: List[Session]) -> str:
        """Publishes sessions that stay open, and returns how fast."""
        begin, count = time.monotonic(), 0
        for at, session in enumerate(sessions, 1):
            for report in (session.opening(), *session.reports):
                self.producer.report(report.session, report.verb, report.arguments)
                count += 1
            if at % FLUSHED_SESSIONS == 0:
                self.producer.flush()
        self.producer.flush()
        self.due += count
        return rate(count, time.monotonic() - begin)

    def reply_times(self, replies: Replies, session: Session) -> List[float]:
        """The seconds from single reports to their replies, one after another."""
        times = []
        for _ in range(REPORTS):
            begin = time.monotonic()
            self.producer.report(session.name, "ask")
            self.producer.flush()
            self.due += 1
            replies.wait_for(self.due)
            times.append(time.monotonic() - begin)
        return times


def rate(count: int, seconds: float) -> str:
    return f"{count} lines in {seconds:.1f} s, {count / seconds:.0f} lines/s"


def resident_bytes(pid: int) -> int:
    pages = Path(f"/proc/{pid}/statm").read_text(encoding="ascii").split()[1]
    return int(pages) * os.sysconf("SC_PAGE_SIZE")


def memory(adapters: Adapters) -> List[int]:
    """The resident bytes of all adapters, and of all monitors."""
    return [sum(map(resident_bytes, map(adapters.adapter_pid, adapters.places))),
            sum(map(resident_bytes, map(adapters.monitor_pid, adapters.places)))]


def measure(settings: Settings, sessions: List[Session], lines_a_message: int) -> List[int]:
    """Measures one generation, and returns the memory of its adapters and monitors."""
    engine = open_engine(settings.address)
    engine.create(settings.streams.all())
    bench = Bench(settings, engine, Producer(engine, settings.streams, "all", lines_a_message))
    bench.put_modules()
    if sessions:
        print(f"{lines_a_message} lines a message: one producer {bench.publish(sessions)}")
    replies, adapters = Replies(settings.address, settings.streams), Adapters(settings, places_of(settings))
    begin = time.monotonic()
    try:
        adapters.start()
        replies.wait_for(bench.due)
        if sessions:
            print(f"  {settings.streams.partitions} adapters {rate(bench.due, time.monotonic() - begin)}, their start "
                  f"included")
            times = bench.reply_times(replies, sessions[0])
            print(f"  a report to its reply: median {1000 * statistics.median(times):.1f} ms, the slowest of "
                  f"{REPORTS} {1000 * max(times):.0f} ms")
        return memory(adapters)
    finally:
        adapters.kill()
        engine.close()


def places_of(settings: Settings) -> List[tuple]:
    return [(partition, 0) for partition in range(settings.streams.partitions)]


def run(program: Path, folder: Path, options: argparse.Namespace) -> None:
    """Starts the nodes and measures: nothing, one line a message, and a hundred."""
    cluster = Cluster.prepared(folder, 3)
    sessions = make_sessions(1, options.sessions, 0)
    try:
        cluster.start()
        base = Settings(program, cluster.address(), Streams("base", options.partitions), HOLD, folder)
        print(f"load average {os.getloadavg()[0]:.1f} on {os.cpu_count()} processors, the nodes' start included")
        empty = measure(base, [], 1)
        measure(replace(base, streams=Streams("one", options.partitions)), sessions, 1)
        full = measure(replace(base, streams=Streams("hundred", options.partitions)), sessions, 100)
        events = sum(len(session.reports) for session in sessions) / len(sessions)
        adapter, monitor = ((after - before) / len(sessions) for before, after in zip(empty, full))
        print(f"an open session of {events:.1f} events: {adapter:.0f} bytes in its adapter, {monitor:.0f} in its "
              f"monitor")
        print(f"load average {os.getloadavg()[0]:.1f}")
    finally:
        cluster.stop()


def expired(_number: int, _frame: object) -> None:
    raise EngineFault(f"{LIMIT_SECONDS} seconds have passed")


def main() -> int:
    parser = argparse.ArgumentParser(description=__doc__, formatter_class=argparse.RawDescriptionHelpFormatter)
    parser.add_argument("--program", metavar="FILE", type=Path, required=True, help="scribmon")
    parser.add_argument("--sessions", metavar="N", type=int, default=5000, help="how many are open (default: 5000)")
    parser.add_argument("--partitions", metavar="P", type=int, default=4, help="how many logs (default: 4)")
    options = parser.parse_args()
    signal.signal(signal.SIGALRM, expired)
    signal.alarm(LIMIT_SECONDS)
    with tempfile.TemporaryDirectory(prefix="scribmon-measure-") as folder:
        try:
            run(options.program.resolve(), Path(folder), options)
        except EngineFault as fault:
            print(f"measure.py: {fault}", file=sys.stderr)
            return 1
    return 0


if __name__ == "__main__":
    found = main()
    # The threads that count replies wait for more, and end with the process.
    sys.stdout.flush()
    os._exit(found)
