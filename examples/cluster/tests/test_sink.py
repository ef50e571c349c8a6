"""Tests of the sink. They need no broker and no program."""

import unittest

import memory_engine  # the path of the example's modules
from sink import Conflict, Sink


class SinkTest(unittest.TestCase):
    def test_each_reply_is_new_once(self):
        sink = Sink()
        self.assertEqual(sink.take(b"@0.1.0 s.1 permitted\n@0.2.0 s.2 permitted"),
                         ["@0.1.0 s.1 permitted", "@0.2.0 s.2 permitted"])
        self.assertEqual(sink.take(b"@0.2.0 s.2 permitted\n@0.3.0 s.3 permitted"), ["@0.3.0 s.3 permitted"])
        self.assertEqual(sink.counts(), "sink: 3 replies, 1 repeats dropped")

    def test_equal_texts_with_other_tags_are_other_replies(self):
        sink = Sink()
        sink.take(b"@0.1.0 refused NoConversation")
        self.assertEqual(sink.take(b"@0.2.0 refused NoConversation"), ["@0.2.0 refused NoConversation"])

    def test_two_replies_of_a_line_differ_in_their_first_word(self):
        sink = Sink()
        sink.take(b"@0.1.0 s.1 permitted")
        self.assertEqual(sink.take(b"@0.1.0 close s: complete"), ["@0.1.0 close s: complete"])

    def test_monitors_that_disagree_are_a_fault(self):
        sink = Sink()
        sink.take(b"@0.1.0 s.1 permitted")
        with self.assertRaises(Conflict):
            sink.take(b"@0.1.0 s.1 stale")

    def test_partitions_that_disagree_on_an_edit_are_a_fault(self):
        sink = Sink()
        sink.take(b"@edit.3 put m: ~m.P")
        with self.assertRaises(Conflict):
            sink.take(b"@edit.3 put m: no change")


if __name__ == "__main__":
    unittest.main()
