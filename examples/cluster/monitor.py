"""The monitor of a partition: a process of `scribmon watch` behind two pipes."""

import os
import subprocess
import threading
from pathlib import Path
from typing import BinaryIO, Callable, List, Optional

READ_BYTES = 65_536
END_SECONDS = 60
Replies = Callable[[List[bytes]], None]


class MonitorFault(Exception):
    """The monitor ended, or its replies could not be handed on."""


class Monitor:
    """Feeds a script to the program, and hands on its replies from a thread of its own."""

    def __init__(self, program: Path, hold: int, counts: BinaryIO, replies: Replies) -> None:
        words = [str(program), "watch", "--names", "--tags", "--endless", "--hold", str(hold)]
        self._process = subprocess.Popen(words, stdin=subprocess.PIPE, stdout=subprocess.PIPE, stderr=counts)
        self._replies = replies
        self._fault: Optional[Exception] = None
        self._reader = threading.Thread(target=self._read, daemon=True)
        self._reader.start()

    @property
    def pid(self) -> int:
        return self._process.pid

    def feed(self, script: str) -> None:
        """Writes lines of the script. Waits where the monitor or the engine that takes its replies is behind."""
        try:
            self._process.stdin.write(script.encode("utf-8"))
            self._process.stdin.flush()
        except OSError as fault:
            raise MonitorFault(f"the monitor has ended: {self._fault or fault}") from fault

    def check(self) -> None:
        """Raises where the monitor has ended or its replies are not handed on any more."""
        if not self._reader.is_alive():
            raise MonitorFault(f"the monitor has ended: {self._fault or 'status %s' % self._process.poll()}")

    def finish(self) -> None:
        """Ends the script, and waits for the last replies."""
        self._process.stdin.close()
        self._reader.join(END_SECONDS)
        status = self._process.wait(END_SECONDS)
        self._process.stdout.close()
        if self._fault or status:
            raise MonitorFault(f"the monitor ended with status {status}: {self._fault}")

    def kill(self) -> None:
        """Ends the process, whatever it does."""
        self._process.kill()
        self._process.wait(END_SECONDS)
        self._reader.join(END_SECONDS)
        self._process.stdout.close()
        try:
            self._process.stdin.close()
        except OSError:
            pass  # Lines that it never read are lost with it.

    def _read(self) -> None:
        """Hands on whole lines as they come, as many at once as there are."""
        rest = b""
        try:
            while True:
                piece = os.read(self._process.stdout.fileno(), READ_BYTES)
                if not piece:
                    return
                *lines, rest = (rest + piece).split(b"\n")
                if lines:
                    self._replies(lines)
        except Exception as fault:  # pylint: disable=broad-except
            # Whoever feeds the monitor has to see it, and must not wait at a full pipe.
            self._fault = fault
            self._process.kill()
