"""Tests of the producer and the editor. They need no broker and no program."""

import unittest

from memory_engine import MemoryEngine
from editor import append_edit, put_marks
from producer import Producer
from records import BadRecord, Streams, parse_edit

STREAMS = Streams("t", 4)


def logs(engine):
    return [engine.streams[STREAMS.log(at)] for at in range(4)]


class ProducerTest(unittest.TestCase):
    def test_each_session_has_numbers_of_its_own(self):
        engine = MemoryEngine()
        producer = Producer(engine, Streams("t", 1), "shop")
        for session, verb in (("s", "ask"), ("t", "ask"), ("s", "close")):
            producer.report(session, verb)
        producer.flush()
        self.assertEqual(engine.streams[STREAMS.log(0)], [b"s shop 1 ask", b"t shop 1 ask", b"s shop 2 close"])

    def test_a_line_goes_to_the_log_of_its_session(self):
        engine = MemoryEngine()
        producer = Producer(engine, STREAMS, "shop")
        sessions = [f"order-{number}" for number in range(40)]
        for session in sessions:
            producer.report(session, "ask")
        producer.flush()
        for at, log in enumerate(logs(engine)):
            self.assertEqual([body.split()[0].decode() for body in log],
                             [session for session in sessions if STREAMS.partition_of(session) == at])
            self.assertTrue(log)

    def test_lines_of_a_partition_share_messages(self):
        engine = MemoryEngine()
        producer = Producer(engine, Streams("t", 1), "shop", 2)
        for _ in range(3):
            producer.report("s", "ask")
        producer.flush()
        self.assertEqual(engine.streams[STREAMS.log(0)], [b"s shop 1 ask\ns shop 2 ask", b"s shop 3 ask"])

    def test_nothing_is_published_twice(self):
        engine = MemoryEngine()
        producer = Producer(engine, Streams("t", 1), "shop")
        producer.report("s", "ask")
        producer.flush()
        producer.flush()
        self.assertEqual(len(engine.streams[STREAMS.log(0)]), 1)

    def test_a_line_that_no_adapter_reads_is_refused_and_takes_no_number(self):
        engine = MemoryEngine()
        producer = Producer(engine, Streams("t", 1), "shop")
        for session, verb, rest in (("s", "put", ""), ("a b", "ask", ""), ("s", "send", "A B a()\ns shop 9 ask")):
            with self.assertRaises(BadRecord):
                producer.report(session, verb, rest)
        producer.report("s", "ask")
        producer.flush()
        self.assertEqual(engine.streams[STREAMS.log(0)], [b"s shop 1 ask"])


class EditorTest(unittest.TestCase):
    def test_the_number_is_the_offset_of_the_own_edit(self):
        engine = MemoryEngine()
        self.assertEqual([append_edit(engine, STREAMS, "withdraw", "m") for _ in range(3)], [0, 1, 2])
        edits = [parse_edit(body.decode()) for body in engine.streams[STREAMS.edits()]]
        self.assertEqual([(edit.verb, edit.argument) for edit in edits], [("withdraw", "m")] * 3)

    def test_marks_go_where_they_are_put(self):
        engine = MemoryEngine()
        put_marks(engine, STREAMS, 5, [0, 2])
        self.assertEqual(logs(engine), [[b"!mark 5"], [], [b"!mark 5"], []])

    def test_a_text_that_ends_early_is_refused(self):
        engine = MemoryEngine()
        with self.assertRaises(BadRecord):
            append_edit(engine, STREAMS, "put", "module m;\n%%\nwithdraw m\n")
        self.assertFalse(engine.streams[STREAMS.edits()])


if __name__ == "__main__":
    unittest.main()
