"""Tests of the forms of records. They need no broker and no program."""

import unittest
import zlib

import memory_engine  # the path of the example's modules
from records import BadRecord, Edit, Line, Mark, Streams, parse_edit, parse_record


class Lines(unittest.TestCase):
    def test_a_line_has_five_fields(self):
        line = parse_record("order-8f3a shop 3 send Client Shop order(Item)")
        self.assertEqual(line, Line("order-8f3a", "shop", 3, "send", "Client Shop order(Item)"))

    def test_a_line_without_arguments(self):
        self.assertEqual(parse_record("s gateway 9 close"), Line("s", "gateway", 9, "close"))

    def test_the_script_has_the_tag_first_and_the_session_behind_the_verb(self):
        self.assertEqual(Line("s", "shop", 3, "join", "Shop").script("1.2.0"), "@1.2.0 join s Shop")
        self.assertEqual(Line("s", "shop", 3, "ask").script("1.2.0"), "@1.2.0 ask s")

    def test_what_is_published_is_read_back(self):
        for line in (Line("s", "p", 1, "open", "shop.Order"), Line("s", "p", 2, "ask")):
            self.assertEqual(parse_record(line.text()), line)

    def test_marks(self):
        self.assertEqual(parse_record("!mark 12"), Mark(12))
        self.assertEqual(Mark(0).text(), "!mark 0")

    def test_other_records_are_bad(self):
        for text in ("", "s p 1", "s p one join A", "s p 0 join A", "s p -1 join A", "s p \u0661 join A", "!mark",
                     "!mark x", " p 1 join A", "s  1 join A", "s p 1 join A\tB", "s p 1 join A\r"):
            with self.subTest(text), self.assertRaises(BadRecord):
                parse_record(text)

    def test_a_record_that_would_open_a_module_text_is_bad(self):
        for verb in ("put", "json", "withdraw", "profile", "sweep", "%%", "#"):
            with self.subTest(verb), self.assertRaises(BadRecord):
                parse_record(f"s p 1 {verb} x")


class Edits(unittest.TestCase):
    def test_a_put_becomes_a_text_with_its_end(self):
        edit = parse_edit("a1 put\nmodule m;\n")
        self.assertEqual(edit.script(7), "@edit.7 put\nmodule m;\n%%\n")

    def test_other_edits_are_one_line(self):
        self.assertEqual(parse_edit("a1 withdraw\nm").script(0), "@edit.0 withdraw m\n")
        self.assertEqual(parse_edit("a1 profile\nplain").script(1), "@edit.1 profile plain\n")

    def test_what_is_published_is_read_back(self):
        edit = Edit("a1", "put", "module m;\n\n// end")
        self.assertEqual(parse_edit(edit.text()), edit)

    def test_an_edit_that_would_end_its_text_early_is_bad(self):
        for text in ("a put\nmodule m;\n%%\nopen 1 m.P", "a put\n%%\r\n", "a withdraw\nm\nsweep", "a withdraw\n",
                     "a withdraw\nm n", "a sweep\n", "put\nmodule m;", "a  put\nmodule m;"):
            with self.subTest(text), self.assertRaises(BadRecord):
                parse_edit(text)


class Partitions(unittest.TestCase):
    def test_the_partition_is_the_checksum_of_the_session(self):
        # 0xcbf43926 is the published check value of this CRC-32 for these nine digits.
        self.assertEqual(zlib.crc32(b"123456789"), 0xCBF43926)
        self.assertEqual(Streams("t", 4).partition_of("123456789"), 0xCBF43926 % 4)

    def test_a_generation_has_its_streams(self):
        names = [str(stream) for stream in Streams("t", 2).all()]
        self.assertEqual(sorted(names), ["t.edits.0", "t.log.0", "t.log.1", "t.replies.0", "t.replies.1"])


if __name__ == "__main__":
    unittest.main()
