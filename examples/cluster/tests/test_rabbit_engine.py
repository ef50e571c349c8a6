"""Tests of the engine on RabbitMQ over copies in memory. They need no broker, but the package amqp."""

import importlib.util
import unittest

import memory_engine  # the path of the example's modules
from engine import EngineFault, Message
from records import Stream

HAS_CLIENT = importlib.util.find_spec("amqp") is not None
STREAM = Stream("t", 0)


class FakeNode:
    """A connection and its channel: takes messages, and then does what a test wants in place of each wait."""

    def __init__(self, *steps):
        self.events = {"basic_ack": set(), "basic_nack": set()}
        self.published = []
        self._steps = list(steps)

    def channel(self):
        return self

    def confirm_select(self):
        """Each message is confirmed by a step."""

    def basic_publish(self, message, routing_key, mandatory):
        assert mandatory and routing_key == "t.0"
        self.published.append(message.body)

    def drain_events(self, timeout):
        self._steps.pop(0)(self)

    def collect(self):
        self.published.append("collected")


def acknowledge(tag, multiple):
    return lambda node: [call(tag, multiple) for call in node.events["basic_ack"]]


def refuse(tag):
    return lambda node: [call(tag, False) for call in node.events["basic_nack"]]


def break_off(_node):
    raise ConnectionResetError("the node is gone")


@unittest.skipUnless(HAS_CLIENT, "amqp is not installed")
class AppendTest(unittest.TestCase):
    def engine(self, *nodes):
        import rabbit_engine
        self.addCleanup(setattr, rabbit_engine, "REST_SECONDS", rabbit_engine.REST_SECONDS)
        rabbit_engine.REST_SECONDS = 0
        engine = rabbit_engine.RabbitEngine(["a:1", "b:2"])
        left = list(nodes)
        engine._connection = lambda: left.pop(0)
        return engine

    def test_an_append_waits_for_each_confirmation(self):
        node = FakeNode(acknowledge(2, False), acknowledge(1, False), acknowledge(3, False))
        self.engine(node).append(STREAM, [b"x", b"y", b"z"])
        self.assertEqual(node.published, [b"x", b"y", b"z"])
        self.assertFalse(node._steps)

    def test_one_confirmation_may_be_of_several(self):
        node = FakeNode(acknowledge(2, True), acknowledge(3, True))
        self.engine(node).append(STREAM, [b"x", b"y", b"z"])
        self.assertFalse(node._steps)

    def test_later_calls_go_on_with_the_tags(self):
        node = FakeNode(acknowledge(1, False), acknowledge(2, False))
        engine = self.engine(node)
        engine.append(STREAM, [b"x"])
        engine.append(STREAM, [b"y"])
        self.assertEqual(node.published, [b"x", b"y"])

    def test_what_was_not_confirmed_goes_to_the_next_node(self):
        first, second = FakeNode(acknowledge(2, False), break_off), FakeNode(acknowledge(2, True))
        self.engine(first, second).append(STREAM, [b"x", b"y", b"z"])
        self.assertEqual(first.published, [b"x", b"y", b"z", "collected"])
        self.assertEqual(second.published, [b"x", b"z"])

    def test_a_message_that_was_not_taken_is_published_again(self):
        first, second = FakeNode(acknowledge(1, False), refuse(2)), FakeNode(acknowledge(1, False))
        self.engine(first, second).append(STREAM, [b"x", b"y"])
        self.assertEqual(second.published, [b"y"])


class ScriptedCopies:
    """Stands in for subscriptions: each one has messages, or faults, of its own."""

    def __init__(self, *copies):
        self.begun = []
        self._copies = list(copies)

    def __call__(self, connection, queue, offset):
        self.begun.append(offset)
        self._left = list(self._copies.pop(0))
        return self

    def take(self, seconds):
        step = self._left.pop(0)
        if isinstance(step, Exception):
            raise step
        return step

    def close(self):
        """Nothing is held open."""


@unittest.skipUnless(HAS_CLIENT, "amqp is not installed")
class ReadTest(unittest.TestCase):
    def messages(self, offset, *copies):
        import rabbit_engine
        self.addCleanup(setattr, rabbit_engine, "Subscription", rabbit_engine.Subscription)
        rabbit_engine.Subscription = self.scripted = ScriptedCopies(*copies)
        engine = rabbit_engine.RabbitEngine(["a:1", "b:2"])
        engine._connection = lambda: None
        return engine.read(STREAM, offset, 0)

    def test_reading_goes_on_with_another_copy_behind_the_last_message(self):
        first = [Message(3, b"x"), None, Message(4, b"y"), ConnectionResetError("the node is gone")]
        messages = self.messages(3, first, [Message(5, b"z")])
        self.assertEqual([next(messages) for _ in range(4)],
                         [Message(3, b"x"), None, Message(4, b"y"), Message(5, b"z")])
        self.assertEqual(self.scripted.begun, [3, 5])

    def test_an_offset_that_is_left_out_is_a_fault(self):
        messages = self.messages(0, [Message(0, b"x"), Message(2, b"z")])
        next(messages)
        with self.assertRaises(EngineFault):
            next(messages)

    def test_an_offset_that_comes_again_is_a_fault(self):
        messages = self.messages(0, [Message(0, b"x"), Message(0, b"x")])
        next(messages)
        with self.assertRaises(EngineFault):
            next(messages)


if __name__ == "__main__":
    unittest.main()
