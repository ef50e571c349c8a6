"""What adapter, producer, editor and sink ask of an engine of replicated logs."""

from dataclasses import dataclass
from typing import Iterable, Iterator, Optional, Protocol, Sequence

from records import Stream


class EngineFault(Exception):
    """The engine did not do what was asked within its time."""


@dataclass(frozen=True)
class Message:
    """One message of a stream, and its place there."""
    offset: int
    body: bytes


class Engine(Protocol):
    """Append with confirmation, read in order from an offset, and the last offset."""

    def create(self, streams: Iterable[Stream]) -> None:
        """Makes the streams that are not there."""

    def append(self, stream: Stream, bodies: Sequence[bytes]) -> None:
        """Returns once most copies have each message. One may then be there more than once, or in another order."""

    def read(self, stream: Stream, offset: int, idle: float) -> Iterator[Optional[Message]]:
        """The messages from an offset on, without end: none of them twice, none left out, and None after each `idle`
        seconds without one."""

    def last(self, stream: Stream, patience: float) -> int:
        """The last offset that a copy has, or -1 where no message comes within `patience` seconds. A copy may lag."""

    def close(self) -> None:
        """Ends all connections."""


def open_engine(address: str) -> Engine:
    """The engine of an address: `rabbit:HOST:PORT,..` or `kafka:HOST:PORT,..`."""
    kind, _, hosts = address.partition(":")
    # Each module needs its client package, so only the one that is asked for is loaded.
    if kind == "rabbit":
        from rabbit_engine import RabbitEngine
        return RabbitEngine(hosts.split(","))
    if kind == "kafka":
        from kafka_engine import KafkaEngine
        return KafkaEngine(hosts)
    raise EngineFault(f"{address} is no address of an engine")
