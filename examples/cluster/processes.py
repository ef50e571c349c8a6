"""Runs adapters and a sink as processes: starts again what ends, kills one by its pid, and stops all."""

import os
import signal
import subprocess
import sys
import threading
from dataclasses import dataclass, field
from pathlib import Path
from typing import Dict, List, Tuple

from records import Streams

FOLDER = Path(__file__).resolve().parent
LOOK_SECONDS, STOP_SECONDS, KILL_SECONDS = 0.3, 90, 10
MOST_STARTS = 60
# An adapter's partition, and which of the partition's adapters it is.
Place = Tuple[int, int]


class ProcessFault(Exception):
    """A process that ended where it should not, or did not end."""


@dataclass(frozen=True)
class Settings:
    """What all processes of a trial are started with."""
    program: Path
    address: str
    streams: Streams
    hold: int
    folder: Path

    def words(self, script: str) -> List[str]:
        """The command line of a script, up to what only it takes."""
        return [sys.executable, str(FOLDER / script), "--engine", self.address, "--name", self.streams.name,
                "--partitions", str(self.streams.partitions)]


def end_process(process: subprocess.Popen, seconds: float) -> int:
    """Waits for a process and returns its status. Kills its group where it takes too long."""
    try:
        return process.wait(seconds)
    except subprocess.TimeoutExpired:
        os.killpg(process.pid, signal.SIGKILL)
        return process.wait(KILL_SECONDS)


@dataclass
class Adapters:
    """An adapter with its monitor at each place. One that ends is started again."""
    settings: Settings
    places: List[Place]
    starts: int = 0
    _running: Dict[Place, subprocess.Popen] = field(default_factory=dict)
    _stopping: threading.Event = field(default_factory=threading.Event)
    _lock: threading.Lock = field(default_factory=threading.Lock)

    def start(self) -> None:
        for place in self.places:
            self._start(place)
        threading.Thread(target=self._keep, daemon=True).start()

    def adapter_pid(self, place: Place) -> int:
        return self._running[place].pid

    def monitor_pid(self, place: Place) -> int:
        """The pid of an adapter's monitor, which the adapter prints when it starts."""
        return int(self._file(place, "pid").read_text(encoding="ascii").split()[-1])

    def stop(self) -> List[str]:
        """Ends all adapters behind what is there, and returns what they and their monitors counted."""
        self._stopping.set()
        with self._lock:
            for process in self._running.values():
                process.send_signal(signal.SIGTERM)
            statuses = {place: end_process(process, STOP_SECONDS) for place, process in self._running.items()}
            self._running.clear()
        counts = [line for place in self.places for line in self._tail(place)]
        if any(statuses.values()):
            raise ProcessFault(f"adapters ended with {statuses}: {counts}")
        return counts

    def kill(self) -> None:
        """Ends all at once, whatever they do."""
        self._stopping.set()
        with self._lock:
            for process in self._running.values():
                end_process(process, 0)
            self._running.clear()

    def _keep(self) -> None:
        while not self._stopping.wait(LOOK_SECONDS):
            with self._lock:
                ended = [place for place, process in self._running.items() if process.poll() is not None]
                for place in ended if self.starts < MOST_STARTS and not self._stopping.is_set() else []:
                    self._start(place)

    def _start(self, place: Place) -> None:
        self.starts += 1
        words = self.settings.words("adapter.py") + ["--program", str(self.settings.program), "--hold",
                                                     str(self.settings.hold), str(place[0])]
        with open(self._file(place, "pid"), "wb") as pid, open(self._file(place, "log"), "ab") as log:
            self._running[place] = subprocess.Popen(words, stdin=subprocess.DEVNULL, stdout=pid, stderr=log,
                                                    start_new_session=True)

    def _file(self, place: Place, kind: str) -> Path:
        return self.settings.folder / f"{self.settings.streams.name}.{place[0]}.{place[1]}.{kind}"

    def _tail(self, place: Place) -> List[str]:
        """The monitor's counts and the adapter's, which come last."""
        return self._file(place, "log").read_text(encoding="utf-8").splitlines()[-2:]


class SinkProcess:
    """A sink that prints into a file."""

    def __init__(self, settings: Settings) -> None:
        self._output = settings.folder / f"{settings.streams.name}.sink"
        self._errors = settings.folder / f"{settings.streams.name}.sink.log"
        with open(self._output, "wb") as output, open(self._errors, "wb") as errors:
            self._process = subprocess.Popen(settings.words("sink.py"), stdin=subprocess.DEVNULL, stdout=output,
                                             stderr=errors, start_new_session=True)

    def replies(self) -> List[str]:
        """The whole lines that it has printed."""
        if self._process.poll() not in (None, 0):
            raise ProcessFault(self._errors.read_text(encoding="utf-8"))
        return self._output.read_text(encoding="ascii").split("\n")[:-1]

    def stop(self) -> str:
        """Ends it, and returns its counts."""
        self._process.send_signal(signal.SIGTERM)
        status = end_process(self._process, STOP_SECONDS)
        errors = self._errors.read_text(encoding="utf-8")
        if status:
            raise ProcessFault(f"the sink ended with status {status}: {errors}")
        return errors.splitlines()[-1]

    def kill(self) -> None:
        if self._process.poll() is None:
            end_process(self._process, 0)
