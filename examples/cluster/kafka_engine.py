"""The engine on Kafka: a stream is a partition of a topic."""

from __future__ import annotations

import time
from typing import Dict, Iterable, Iterator, List, Optional, Sequence

from confluent_kafka import OFFSET_BEGINNING, Consumer, KafkaError, KafkaException, Producer, TopicPartition
from confluent_kafka.admin import AdminClient, NewTopic

from engine import EngineFault, Message
from records import Stream

CREATE_SECONDS, CONFIRM_SECONDS, POLL_SECONDS = 60, 90, 0.1
COPIES, LEAST_COPIES = 3, 2


class KafkaEngine:
    """Partitions of topics. The client finds the brokers, and tries again by itself."""

    def __init__(self, hosts: str) -> None:
        self._settings = {"bootstrap.servers": hosts}
        # Idempotence keeps what the client sends again from being there twice, or behind what came later.
        self._producer = Producer({**self._settings, "acks": "all", "enable.idempotence": True, "linger.ms": 2,
                                   "message.timeout.ms": CONFIRM_SECONDS * 1000})

    def create(self, streams: Iterable[Stream]) -> None:
        """Makes the topics. A message counts as written once two copies of three have it."""
        counts: Dict[str, int] = {}
        for stream in streams:
            counts[stream.topic] = max(counts.get(stream.topic, 0), stream.partition + 1)
        topics = [NewTopic(topic, num_partitions=count, replication_factor=COPIES,
                           config={"min.insync.replicas": str(LEAST_COPIES), "cleanup.policy": "delete",
                                   "retention.ms": "-1"}) for topic, count in counts.items()]
        client = AdminClient(self._settings)
        for future in client.create_topics(topics).values():
            try:
                future.result(CREATE_SECONDS)
            except KafkaException as fault:
                if fault.args[0].code() != KafkaError.TOPIC_ALREADY_EXISTS:
                    raise EngineFault(f"cannot make the topics: {fault}") from fault

    def append(self, stream: Stream, bodies: Sequence[bytes]) -> None:
        """Returns once each message is confirmed."""
        faults: List[str] = []

        def confirmed(fault: Optional[KafkaError], _message: object) -> None:
            if fault is not None:
                faults.append(str(fault))

        for body in bodies:
            self._produce(stream, body, confirmed)
        if self._producer.flush(CONFIRM_SECONDS) or faults:
            raise EngineFault(f"cannot append to {stream}: {faults[:1] or 'no confirmation'}")

    def _produce(self, stream: Stream, body: bytes, confirmed: object) -> None:
        """Hands a message to the client. Waits where its buffer is full."""
        limit = time.monotonic() + CONFIRM_SECONDS
        while True:
            try:
                self._producer.produce(stream.topic, value=body, partition=stream.partition, callback=confirmed)
                return
            except BufferError:
                if time.monotonic() > limit:
                    raise EngineFault(f"cannot append to {stream}: the buffer is full") from None
                self._producer.poll(POLL_SECONDS)

    def read(self, stream: Stream, offset: int, idle: float) -> Iterator[Optional[Message]]:
        """Reads from an offset on. No group is used: who reads keeps nothing."""
        consumer = self._consumer()
        due = offset
        try:
            consumer.assign([TopicPartition(stream.topic, stream.partition, offset or OFFSET_BEGINNING)])
            while True:
                message = consumer.poll(idle)
                if message is None:
                    yield None
                elif message.error():
                    # The client goes on by itself. Only what it cannot mend ends the reading, as a missing offset.
                    if message.error().fatal() or message.error().code() == KafkaError._AUTO_OFFSET_RESET:
                        raise EngineFault(f"cannot read {stream}: {message.error()}")
                else:
                    if message.offset() != due:
                        raise EngineFault(f"{stream} has no offset {due}; the next one is {message.offset()}")
                    due += 1
                    yield Message(message.offset(), message.value())
        finally:
            consumer.close()

    def last(self, stream: Stream, patience: float) -> int:
        """The last offset that the leader has given to readers."""
        consumer = self._consumer()
        try:
            _, high = consumer.get_watermark_offsets(TopicPartition(stream.topic, stream.partition), timeout=patience)
            return high - 1
        finally:
            consumer.close()

    def close(self) -> None:
        """Waits for what is under way."""
        self._producer.flush(CONFIRM_SECONDS)

    def _consumer(self) -> Consumer:
        return Consumer({**self._settings, "group.id": "unused", "enable.auto.commit": False,
                         "auto.offset.reset": "error"})
