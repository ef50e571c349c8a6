"""Tests of the order of numbered lines. They need no broker and no program."""

import itertools
import unittest

import memory_engine  # the path of the example's modules
from ordering import Ordering

SOURCE = ("session", "producer")


class OrderingTest(unittest.TestCase):
    def test_lines_in_order_pass(self):
        ordering = Ordering()
        self.assertEqual([ordering.take(SOURCE, number, number) for number in (1, 2, 3)], [[1], [2], [3]])
        self.assertEqual((ordering.doubled, ordering.came_early, ordering.waiting()), (0, 0, 0))

    def test_a_line_that_came_is_dropped(self):
        ordering = Ordering()
        ordering.take(SOURCE, 1, "first")
        self.assertEqual(ordering.take(SOURCE, 1, "again"), [])
        self.assertEqual(ordering.doubled, 1)

    def test_an_early_line_waits_for_all_before_it(self):
        ordering = Ordering()
        self.assertEqual(ordering.take(SOURCE, 3, "c"), [])
        self.assertEqual(ordering.take(SOURCE, 2, "b"), [])
        self.assertEqual(ordering.waiting(), 2)
        self.assertEqual(ordering.take(SOURCE, 1, "a"), ["a", "b", "c"])
        self.assertEqual(ordering.waiting(), 0)

    def test_an_early_line_that_comes_again_is_dropped(self):
        ordering = Ordering()
        ordering.take(SOURCE, 2, "first")
        self.assertEqual(ordering.take(SOURCE, 2, "again"), [])
        self.assertEqual(ordering.take(SOURCE, 1, "a"), ["a", "first"])

    def test_sources_do_not_wait_for_each_other(self):
        ordering = Ordering()
        self.assertEqual(ordering.take(("s", "p"), 2, "early"), [])
        self.assertEqual(ordering.take(("s", "q"), 1, "q"), ["q"])
        self.assertEqual(ordering.take(("t", "p"), 1, "t"), ["t"])

    def test_every_order_of_arrival_gives_the_order_of_numbers(self):
        arrivals = [1, 2, 3, 4, 2, 4]
        for order in itertools.permutations(range(len(arrivals))):
            ordering = Ordering()
            given = [each for at in order for each in ordering.take(SOURCE, arrivals[at], arrivals[at])]
            self.assertEqual(given, [1, 2, 3, 4])
            self.assertEqual((ordering.doubled, ordering.waiting()), (2, 0))


if __name__ == "__main__":
    unittest.main()
