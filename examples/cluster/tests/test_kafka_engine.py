"""Tests of the engine on Kafka over the mock brokers of librdkafka. They are left out without confluent_kafka."""

import importlib.util
import unittest

import memory_engine  # the path of the example's modules
from engine import EngineFault
from records import Stream, Streams

HAS_CLIENT = importlib.util.find_spec("confluent_kafka") is not None
PATIENCE = 10


def read_some(engine, stream, offset, count):
    """The messages from an offset on, and how often none came before the last of them."""
    found, idle = [], 0
    for message in engine.read(stream, offset, 0.5):
        if message is None:
            idle += 1
        else:
            found.append(message)
        if len(found) == count or idle == 20:
            return found
    return found


@unittest.skipUnless(HAS_CLIENT, "confluent_kafka is not installed")
class KafkaEngineTest(unittest.TestCase):
    @classmethod
    def setUpClass(cls):
        from confluent_kafka import Producer
        from kafka_engine import KafkaEngine
        # This client runs the brokers, as long as it lives, on ports of loopback.
        cls.brokers = Producer({"bootstrap.servers": "127.0.0.1:1", "test.mock.num.brokers": 3, "log_level": 0})
        found = cls.brokers.list_topics(timeout=PATIENCE).brokers.values()
        cls.address = ",".join(f"{broker.host}:{broker.port}" for broker in found)
        cls.engine = KafkaEngine(cls.address)

    def test_offsets_begin_at_zero_and_have_no_gap(self):
        stream = Streams("offsets", 4).log(2)
        bodies = [b"%d" % number for number in range(500)]
        self.engine.append(stream, bodies[:300])
        self.engine.append(stream, bodies[300:])
        found = read_some(self.engine, stream, 0, 500)
        self.assertEqual([message.offset for message in found], list(range(500)))
        self.assertEqual([message.body for message in found], bodies)

    def test_reading_begins_at_an_offset(self):
        stream = Stream("begin", 0)
        self.engine.append(stream, [b"a", b"b", b"c"])
        self.assertEqual([message.body for message in read_some(self.engine, stream, 1, 2)], [b"b", b"c"])

    def test_partitions_are_apart(self):
        streams = Streams("apart", 2)
        self.engine.append(streams.log(0), [b"zero"])
        self.engine.append(streams.log(1), [b"one"])
        self.assertEqual([message.body for message in read_some(self.engine, streams.log(1), 0, 1)], [b"one"])

    def test_the_last_offset(self):
        stream = Stream("last", 0)
        self.engine.append(stream, [b"a"])
        self.assertEqual(self.engine.last(stream, PATIENCE), 0)
        self.engine.append(stream, [b"b", b"c"])
        self.assertEqual(self.engine.last(stream, PATIENCE), 2)

    def test_an_offset_that_is_not_there_is_a_fault(self):
        stream = Stream("missing", 0)
        self.engine.append(stream, [b"a"])
        with self.assertRaises(EngineFault):
            read_some(self.engine, stream, 7, 1)

    def test_what_waits_comes_when_it_is_written(self):
        stream = Stream("waits", 0)
        self.engine.append(stream, [b"a"])
        messages = self.engine.read(stream, 0, 0.5)
        found = [next(messages) for _ in range(6)]
        self.assertIn(None, found)
        self.engine.append(stream, [b"b"])
        later = [next(messages) for _ in range(6)]
        self.assertEqual([message.body for message in found + later if message], [b"a", b"b"])


if __name__ == "__main__":
    unittest.main()
