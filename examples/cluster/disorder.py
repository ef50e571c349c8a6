"""An engine for trials that doubles and swaps messages, as a transport that delivers at least once may do."""

import random
from typing import Iterable, Iterator, List, Optional, Sequence

from engine import Engine, Message
from records import Stream


class DisorderedEngine:
    """Hands messages on to another engine, some of them twice and some behind their followers."""

    def __init__(self, engine: Engine, seed: int, share: float = 0.1) -> None:
        self._engine = engine
        self._pick = random.Random(seed)
        self._share = share
        self.doubled = self.swapped = 0

    def create(self, streams: Iterable[Stream]) -> None:
        self._engine.create(streams)

    def append(self, stream: Stream, bodies: Sequence[bytes]) -> None:
        messages: List[bytes] = []
        for body in bodies:
            if self._pick.random() < self._share and messages:
                messages.insert(-1, body)
                self.swapped += 1
            else:
                messages.append(body)
            if self._pick.random() < self._share:
                messages.append(body)
                self.doubled += 1
        self._engine.append(stream, messages)

    def read(self, stream: Stream, offset: int, idle: float) -> Iterator[Optional[Message]]:
        return self._engine.read(stream, offset, idle)

    def last(self, stream: Stream, patience: float) -> int:
        return self._engine.last(stream, patience)

    def close(self) -> None:
        self._engine.close()
