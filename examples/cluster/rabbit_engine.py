"""The engine on RabbitMQ streams, by AMQP 0.9.1."""

from __future__ import annotations

import collections
import socket
import time
from typing import Callable, Deque, Dict, Iterable, Iterator, List, Optional, Sequence, Set, TypeVar, Union

import amqp
from amqp.exceptions import AMQPError

from engine import EngineFault, Message
from records import Stream

CONNECT_SECONDS, SILENT_SECONDS = 5, 15
# For how long a call goes from node to node before it fails, and how long it rests in between.
RETRY_SECONDS, REST_SECONDS = 90, 0.3
WINDOW = 256
PREFETCH = 400
# A copy that was left behind may deliver nothing without a word, so a silent subscription is made anew.
RENEW_SECONDS = 10
# The last messages of a stream come together; a second without one is their end.
LAST_SECONDS = 1
FAULTS = (AMQPError, OSError)
Result = TypeVar("Result")


class RabbitEngine:
    """Streams of RabbitMQ. Where a node fails, the next one is asked."""

    def __init__(self, hosts: Sequence[str]) -> None:
        self._hosts = list(hosts)
        self._at = 0
        self._writing: Optional[Publisher] = None

    def create(self, streams: Iterable[Stream]) -> None:
        """Declares each stream, with a copy on each node."""
        arguments = {"x-queue-type": "stream", "x-initial-cluster-size": len(self._hosts)}

        def declare(channel: amqp.Channel) -> None:
            for stream in streams:
                channel.queue_declare(str(stream), durable=True, auto_delete=False, arguments=arguments)

        streams = list(streams)
        self._retried(lambda: declare(self._publisher().connection.channel()), "declare the streams")

    def append(self, stream: Stream, bodies: Sequence[bytes]) -> None:
        """Publishes the messages, and again those that were not confirmed."""
        left = list(bodies)

        def publish() -> None:
            publisher = self._publisher()
            try:
                publisher.publish(str(stream), left)
            finally:
                left[:] = publisher.unconfirmed(left)

        self._retried(publish, f"append to {stream}")

    def read(self, stream: Stream, offset: int, idle: float) -> Iterator[Optional[Message]]:
        """Reads the copy of the node that it is connected to, and goes on with another where that fails."""
        due = offset
        while True:
            subscription = self._retried(lambda: Subscription(self._connection(), str(stream), due),
                                         f"read {stream}")
            try:
                while True:
                    message = subscription.take(idle)
                    if message is not None:
                        if message.offset != due:
                            raise EngineFault(f"{stream} has no offset {due}; the next one is {message.offset}")
                        due += 1
                    yield message
            except FAULTS:
                self._at += 1
            finally:
                subscription.close()

    def last(self, stream: Stream, patience: float) -> int:
        """The last offset of the copy of the node that it is connected to."""
        subscription = self._retried(lambda: Subscription(self._connection(), str(stream), "last"), f"read {stream}")
        found = -1
        try:
            message = subscription.take(patience)
            while message is not None:
                found = message.offset
                message = subscription.take(LAST_SECONDS)
        except FAULTS as fault:
            raise EngineFault(f"cannot read {stream}: {fault}") from fault
        finally:
            subscription.close()
        return found

    def close(self) -> None:
        """Ends the connection that writes. Those that read are ended by their readers."""
        if self._writing is not None:
            close_connection(self._writing.connection)
        self._writing = None

    def _connection(self) -> amqp.Connection:
        """A new connection to the node whose turn it is."""
        connection = amqp.Connection(host=self._hosts[self._at % len(self._hosts)], connect_timeout=CONNECT_SECONDS,
                                     read_timeout=SILENT_SECONDS, write_timeout=SILENT_SECONDS)
        connection.connect()
        return connection

    def _publisher(self) -> Publisher:
        """The channel that writes."""
        if self._writing is None:
            self._writing = Publisher(self._connection())
        return self._writing

    def _retried(self, action: Callable[[], Result], what: str) -> Result:
        """The action's result, tried with one node after another for a limited time."""
        limit = time.monotonic() + RETRY_SECONDS
        while True:
            try:
                return action()
            except FAULTS as fault:
                self.close()
                self._at += 1
                if time.monotonic() > limit:
                    raise EngineFault(f"cannot {what}: {fault}") from fault
                time.sleep(REST_SECONDS)


class Publisher:
    """A channel whose messages are confirmed."""

    def __init__(self, connection: amqp.Connection) -> None:
        self.connection = connection
        self._tag = 0
        # The tag of each message that is not confirmed yet, with its place in the present call.
        self._under_way: Dict[int, int] = {}
        self._confirmed: Set[int] = set()
        self._channel = connection.channel()
        self._channel.confirm_select()
        self._channel.events["basic_ack"].add(self._acknowledged)
        self._channel.events["basic_nack"].add(refuse)

    def publish(self, queue: str, bodies: Sequence[bytes]) -> None:
        """Publishes all, at most WINDOW of them unconfirmed at once, and waits for the confirmations."""
        self._confirmed = set()
        for at, body in enumerate(bodies):
            while len(self._under_way) >= WINDOW:
                self._wait()
            self._tag += 1
            self._under_way[self._tag] = at
            # Without `mandatory` RabbitMQ confirms a message that no stream takes. With it the message comes back,
            # which the client raises as an error.
            self._channel.basic_publish(amqp.Message(body, delivery_mode=2), routing_key=queue, mandatory=True)
        while self._under_way:
            self._wait()

    def unconfirmed(self, bodies: Sequence[bytes]) -> List[bytes]:
        """The messages of the last call that were not confirmed."""
        return [body for at, body in enumerate(bodies) if at not in self._confirmed]

    def _wait(self) -> None:
        self.connection.drain_events(timeout=SILENT_SECONDS)

    def _acknowledged(self, tag: int, multiple: bool) -> None:
        tags = [each for each in self._under_way if each <= tag] if multiple else [tag]
        self._confirmed.update(self._under_way.pop(each) for each in tags)


def refuse(tag: int, multiple: bool) -> None:
    """Raises, so that a message that was not taken is published again."""
    raise amqp.RecoverableChannelError(f"message {tag} was not taken")


class Subscription:
    """Messages of one copy of a stream, from an offset on."""

    def __init__(self, connection: amqp.Connection, queue: str, offset: Union[int, str]) -> None:
        self._connection = connection
        self._first = offset if isinstance(offset, int) else 0
        self._waiting: Deque[Message] = collections.deque()
        self._heard = time.monotonic()
        self._unacknowledged = 0
        try:
            self._channel = connection.channel()
            self._channel.basic_qos(0, PREFETCH, False)
            arguments: Dict[str, Union[int, str]] = {"x-stream-offset": offset}
            self._channel.basic_consume(queue, callback=self._delivered, arguments=arguments)
        except FAULTS:
            close_connection(connection)
            raise

    def take(self, seconds: float) -> Optional[Message]:
        """The next message, or None where none comes in this time. Raises where it was silent for too long."""
        if not self._waiting:
            try:
                self._connection.drain_events(timeout=seconds)
            except socket.timeout:
                if time.monotonic() - self._heard > RENEW_SECONDS:
                    raise OSError("silent for too long") from None
                return None
        self._heard = time.monotonic()
        return self._waiting.popleft() if self._waiting else None

    def _delivered(self, message: amqp.Message) -> None:
        offset = message.headers["x-stream-offset"]
        # Delivery begins with the chunk that has the offset.
        if offset >= self._first:
            self._waiting.append(Message(offset, message.body))
        self._unacknowledged += 1
        if self._unacknowledged >= PREFETCH // 4:
            self._channel.basic_ack(message.delivery_tag, multiple=True)
            self._unacknowledged = 0

    def close(self) -> None:
        close_connection(self._connection)


def close_connection(connection: amqp.Connection) -> None:
    """Ends a connection, also a broken one."""
    try:
        connection.collect()
    except FAULTS:
        pass
