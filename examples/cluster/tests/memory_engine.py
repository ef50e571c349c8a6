"""An engine in memory, for tests. Importing it lets tests import the example's modules."""

import sys
from collections import defaultdict
from pathlib import Path
from typing import Dict, Iterable, Iterator, List, Optional, Sequence

sys.path.insert(0, str(Path(__file__).resolve().parent.parent))

from engine import Message
from records import Stream


class MemoryEngine:
    """Streams as lists. A reader that has read all gets None for ever."""

    def __init__(self) -> None:
        self.streams: Dict[Stream, List[bytes]] = defaultdict(list)

    def create(self, streams: Iterable[Stream]) -> None:
        for stream in streams:
            self.streams[stream] = []

    def append(self, stream: Stream, bodies: Sequence[bytes]) -> None:
        self.streams[stream] += bodies

    def read(self, stream: Stream, offset: int, idle: float) -> Iterator[Optional[Message]]:
        while True:
            if offset < len(self.streams[stream]):
                yield Message(offset, self.streams[stream][offset])
                offset += 1
            else:
                yield None

    def last(self, stream: Stream, patience: float) -> int:
        return len(self.streams[stream]) - 1

    def close(self) -> None:
        """Nothing is held open."""
