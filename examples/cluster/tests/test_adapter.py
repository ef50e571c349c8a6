"""Tests of the adapter. They need no broker; the last class needs the program that SCRIBMON names, and is left out
without it."""

import os
import subprocess
import sys
import tempfile
import unittest
from pathlib import Path

from memory_engine import MemoryEngine
import adapter
from adapter import Adapter, Edits, publisher
from engine import EngineFault
from monitor import Monitor, MonitorFault
from records import Edit, Streams

STREAMS = Streams("t", 1)
PROGRAM = os.environ.get("SCRIBMON")


def run_log(engine, log):
    """The script that a log makes, and the adapter."""
    fed = []
    engine.append(STREAMS.log(0), [record.encode() for record in log])
    under_test = Adapter(0, Edits(engine, STREAMS), fed.append)
    for message in engine.read(STREAMS.log(0), 0, 0):
        if message is None:
            return "".join(fed).splitlines(), under_test
        under_test.take(message)


class LinesTest(unittest.TestCase):
    def test_a_line_has_its_place_as_tag(self):
        script, _ = run_log(MemoryEngine(), ["s gate 1 open m.P", "s a 1 join A"])
        self.assertEqual(script, ["@0.0.0 open s m.P", "@0.1.0 join s A"])

    def test_a_message_may_have_several_lines(self):
        script, _ = run_log(MemoryEngine(), ["s gate 1 open m.P\ns a 1 join A"])
        self.assertEqual(script, ["@0.0.0 open s m.P", "@0.0.1 join s A"])

    def test_an_early_line_keeps_the_tag_of_its_first_arrival(self):
        script, _ = run_log(MemoryEngine(), ["s a 2 ask", "s a 2 ask", "s a 1 join A", "s a 1 join A"])
        self.assertEqual(script, ["@0.2.0 join s A", "@0.0.0 ask s"])

    def test_a_bad_record_is_counted_and_left_out(self):
        script, under_test = run_log(MemoryEngine(), ["s a 1 put", "s a 1 join A", "\N{BULLET}"])
        self.assertEqual(script, ["@0.1.0 join s A"])
        self.assertEqual(under_test.bad, 2)

    def test_the_counts_name_what_is_left(self):
        _, under_test = run_log(MemoryEngine(), ["s a 1 ask", "s a 1 ask", "s a 3 ask"])
        self.assertEqual(under_test.counts(), "adapter 0: 3 messages, 1 lines, 1 doubled, 1 early, 1 still early, "
                                              "0 bad, 0 edits at 0 marks")


class MarksTest(unittest.TestCase):
    def setUp(self):
        self.engine = MemoryEngine()
        edits = [Edit("a", "withdraw", "m"), Edit("b", "withdraw", "n"), Edit("c", "profile", "plain")]
        self.engine.append(STREAMS.edits(), [edit.text().encode() for edit in edits])

    def test_a_mark_takes_its_edit_and_then_sweeps(self):
        script, _ = run_log(self.engine, ["s a 1 ask", "!mark 0", "s a 2 ask"])
        self.assertEqual(script, ["@0.0.0 ask s", "@edit.0 withdraw m", "@sweep.0.0 sweep", "@0.2.0 ask s"])

    def test_a_lost_mark_is_made_good_by_the_next(self):
        script, _ = run_log(self.engine, ["!mark 2"])
        self.assertEqual(script, ["@edit.0 withdraw m", "@edit.1 withdraw n", "@edit.2 profile plain",
                                  "@sweep.0.2 sweep"])

    def test_a_late_and_a_doubled_mark_do_nothing(self):
        script, under_test = run_log(self.engine, ["!mark 1", "!mark 1", "!mark 0"])
        self.assertEqual(script, ["@edit.0 withdraw m", "@edit.1 withdraw n", "@sweep.0.1 sweep"])
        self.assertEqual(under_test.marks, 1)

    def test_edits_that_no_mark_names_are_not_taken(self):
        script, _ = run_log(self.engine, ["s a 1 ask"])
        self.assertEqual(script, ["@0.0.0 ask s"])

    def test_a_mark_of_an_edit_that_does_not_come_is_a_fault(self):
        adapter.EDIT_SECONDS, seconds = 0, adapter.EDIT_SECONDS
        try:
            with self.assertRaises(EngineFault):
                run_log(self.engine, ["!mark 3"])
        finally:
            adapter.EDIT_SECONDS = seconds

    def test_a_bad_edit_is_left_out(self):
        self.engine.append(STREAMS.edits(), [b"d put\n%%\nopen x m.P"])
        script, under_test = run_log(self.engine, ["!mark 2", "!mark 3"])
        self.assertEqual(script[-1], "@sweep.0.2 sweep")
        self.assertEqual(under_test.bad, 1)


class RestartTest(unittest.TestCase):
    def test_two_readers_of_a_log_feed_the_same(self):
        engine = MemoryEngine()
        engine.append(STREAMS.edits(), [Edit("a", "withdraw", "m").text().encode()])
        first, _ = run_log(engine, ["s a 2 ask", "!mark 0", "s a 1 join A", "s a 2 ask", "t a 1 ask"])
        second, _ = run_log(engine, [])
        self.assertEqual(first, second)
        self.assertEqual(len(first), 5)


class PublisherTest(unittest.TestCase):
    def test_many_replies_take_several_messages(self):
        engine = MemoryEngine()
        replies = [b"@%d ask" % number for number in range(2 * adapter.REPLIES_A_MESSAGE + 1)]
        publisher(engine, STREAMS, 0)(replies)
        bodies = engine.streams[STREAMS.replies(0)]
        self.assertEqual(len(bodies), 3)
        self.assertEqual(b"\n".join(bodies).split(b"\n"), replies)


class MonitorFaultTest(unittest.TestCase):
    """The monitor's program is Python here: what counts is how its end is seen."""

    def monitor(self, code, replies):
        folder = tempfile.TemporaryDirectory()
        self.addCleanup(folder.cleanup)
        program = Path(folder.name) / "program"
        program.write_text(f"#!{sys.executable}\n{code}\n", encoding="utf-8")
        program.chmod(0o700)
        return Monitor(program, 10, subprocess.DEVNULL, replies)

    def test_an_ended_monitor_is_a_fault(self):
        ended = self.monitor("", lambda lines: None)
        ended._reader.join(10)
        with self.assertRaises(MonitorFault):
            ended.check()
        with self.assertRaises(MonitorFault):
            for _ in range(10_000):
                ended.feed("ask 1\n" * 100)
        ended.kill()

    def test_replies_that_cannot_be_handed_on_are_a_fault(self):
        def refuse(lines):
            raise EngineFault("no engine")
        failing = self.monitor("import sys\nfor line in sys.stdin: print(line, flush=True)", refuse)
        failing.feed("ask 1\n")
        failing._reader.join(10)
        with self.assertRaises(MonitorFault) as raised:
            failing.check()
        self.assertIn("no engine", str(raised.exception))
        failing.kill()

    def test_a_status_is_a_fault(self):
        failing = self.monitor("import sys\nsys.stdin.read()\nsys.exit(1)", lambda lines: None)
        with self.assertRaises(MonitorFault):
            failing.finish()


@unittest.skipUnless(PROGRAM, "SCRIBMON names no program")
class WithTheProgram(unittest.TestCase):
    def test_replies_have_the_tags_of_their_lines(self):
        engine, streams = MemoryEngine(), STREAMS
        text = "module m; global protocol P(role A, role B) { hello() from A to B; }"
        engine.append(streams.edits(), [Edit("a", "put", text).text().encode()])
        log = ["!mark 0", "s b 1 join B", "s b 2 recv A B hello()", "s gate 1 open m.P", "s a 2 send A B hello()",
               "s a 1 join A", "s gate 2 close"]
        engine.append(streams.log(0), [record.encode() for record in log])
        monitor = Monitor(Path(PROGRAM), 100, subprocess.DEVNULL, publisher(engine, streams, 0))
        under_test = Adapter(0, Edits(engine, streams), monitor.feed)
        for message in engine.read(streams.log(0), 0, 0):
            if message is None:
                break
            under_test.take(message)
        monitor.finish()
        replies = b"\n".join(engine.streams[streams.replies(0)]).decode().splitlines()
        self.assertEqual(replies, ["@edit.0 put m: +m.P", "@sweep.0.0 sweep: 0 judged", "@0.3.0 open s: m.P",
                                   "@0.1.0 s.1 permitted", "@0.5.0 s.2 permitted", "@0.4.0 s.3 permitted",
                                   "@0.2.0 s.4 permitted", "@0.6.0 close s: complete"])


if __name__ == "__main__":
    unittest.main()
