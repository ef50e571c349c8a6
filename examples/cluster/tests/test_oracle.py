"""Tests of the comparison with one monitor, and of the adapter against it. They need no broker and no program."""

import random
import unittest

from memory_engine import MemoryEngine
from adapter import Adapter, Edits
from disorder import DisorderedEngine
from engine import Message
from oracle import by_tag, differences, partition_script, swept_sums, whole_script
from producer import Producer
from records import Edit, Mark, Streams

STREAMS = Streams("t", 1)


def messages(*records):
    return [Message(at, record.encode()) for at, record in enumerate(records)]


def edits(count):
    return [Message(at, Edit(f"e{at}", "withdraw", f"m{at}").text().encode()) for at in range(count)]


class PartitionScriptTest(unittest.TestCase):
    def test_a_line_comes_where_the_last_before_it_came(self):
        script = partition_script(0, messages("s a 2 ask", "t a 1 ask", "s a 1 join A", "s a 3 close"))
        self.assertEqual("".join(script.groups[0]).splitlines(),
                         ["@0.1.0 ask t", "@0.2.0 join s A", "@0.0.0 ask s", "@0.3.0 close s"])
        self.assertEqual((script.doubled, script.early), (0, 1))

    def test_a_line_with_a_gap_before_it_never_comes(self):
        script = partition_script(0, messages("s a 1 ask", "s a 3 ask", "s a 1 ask"))
        self.assertEqual(script.groups[0], ["@0.0.0 ask s\n"])
        self.assertEqual((script.doubled, script.early), (1, 1))

    def test_lines_are_grouped_by_the_edits_before_them(self):
        script = partition_script(0, messages("s a 1 ask", "!mark 1", "s a 2 ask", "!mark 0", "!mark 2", "s a 3 ask"))
        self.assertEqual(dict(script.groups), {0: ["@0.0.0 ask s\n"], 2: ["@0.2.0 ask s\n"], 3: ["@0.5.0 ask s\n"]})
        self.assertEqual(script.swept, [1, 2])


class WholeScriptTest(unittest.TestCase):
    def test_an_edit_comes_behind_the_lines_before_it_in_each_partition(self):
        scripts = [partition_script(0, messages("s a 1 ask", "!mark 0", "s a 2 ask")),
                   partition_script(1, messages("!mark 0", "t a 1 ask"))]
        self.assertEqual(whole_script(scripts, edits(1)).splitlines(), [
            "@0.0.0 ask s", "@edit.0 withdraw m0", "@sweep.0 sweep", "@0.2.0 ask s", "@1.1.0 ask t"])

    def test_a_partition_without_a_mark_has_its_lines_before_the_edit_that_it_lacks(self):
        scripts = [partition_script(0, messages("!mark 0", "s a 1 ask", "!mark 1")),
                   partition_script(1, messages("t a 1 ask", "!mark 1", "t a 2 ask"))]
        self.assertEqual(whole_script(scripts, edits(2)).splitlines(), [
            "@1.0.0 ask t", "@edit.0 withdraw m0", "@sweep.0 sweep", "@0.1.0 ask s", "@edit.1 withdraw m1",
            "@sweep.1 sweep", "@1.2.0 ask t"])


class RepliesTest(unittest.TestCase):
    def test_numbers_of_bad_lines_do_not_count(self):
        self.assertEqual(by_tag(["@a refused BadLine 12"]), by_tag(["@a refused BadLine 9"]))

    def test_two_replies_to_a_line_are_found(self):
        with self.assertRaises(ValueError):
            by_tag(["@a s.1 permitted", "@a refused NoConversation"])

    def test_other_missing_and_further_replies_differ(self):
        wanted = {"@a": "s.1 permitted", "@b": "s.2 permitted"}
        self.assertEqual(differences(dict(wanted), wanted), [])
        self.assertEqual(len(differences({"@a": "s.1 stale", "@b": "s.2 permitted"}, wanted)), 1)
        self.assertEqual(len(differences({"@a": "s.1 permitted"}, wanted)), 1)
        self.assertEqual(len(differences({**wanted, "@c": "s.3 permitted"}, wanted)), 1)

    def test_sweeps_are_added_up_where_all_partitions_swept(self):
        scripts = [partition_script(at, messages(*marks)) for at, marks in
                   enumerate([["!mark 0", "!mark 1", "!mark 2", "!mark 3"], ["!mark 0", "!mark 2", "!mark 3"]])]
        replies = {f"@sweep.{at}.{number}": f"sweep: {number + at} judged" for at in (0, 1) for number in range(4)}
        self.assertEqual(swept_sums(scripts, replies), {"@sweep.0": "sweep: 1 judged", "@sweep.3": "sweep: 7 judged"})


class AdapterAgainstOracle(unittest.TestCase):
    """The two share no code for the order of lines, so each tests the other."""

    def disordered_log(self, seed):
        engine, pick = MemoryEngine(), random.Random(seed)
        engine.append(STREAMS.edits(), [edit.body for edit in edits(4)])
        transport = DisorderedEngine(engine, seed, 0.4)
        producers = [Producer(transport, STREAMS, name, pick.randint(1, 3)) for name in ("a", "b")]
        for _ in range(40):
            for _ in range(pick.randint(1, 6)):
                pick.choice(producers).report(pick.choice("st"), "ask")
            pick.choice(producers).flush()
            if pick.random() < 0.2:
                transport.append(STREAMS.log(0), [Mark(pick.randrange(4)).text().encode()])
        for producer in producers:
            producer.flush()
        return engine, transport

    def test_both_make_one_script(self):
        disorder = 0
        for seed in range(60):
            engine, transport = self.disordered_log(seed)
            fed = []
            adapter = Adapter(0, Edits(engine, STREAMS), fed.append)
            log = [Message(at, body) for at, body in enumerate(engine.streams[STREAMS.log(0)])]
            for message in log:
                adapter.take(message)
            script = partition_script(0, log)
            wanted = whole_script([script], edits(max(script.swept, default=-1) + 1))
            self.assertEqual("".join(fed).replace("@sweep.0.", "@sweep."), wanted)
            self.assertEqual(len(script.lines), adapter.lines)
            disorder += min(transport.doubled, transport.swapped, script.doubled, script.early)
        self.assertGreater(disorder, 100)


if __name__ == "__main__":
    unittest.main()
