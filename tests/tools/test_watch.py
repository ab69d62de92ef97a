"""Tests of what tools/watch.py makes of a relay's pages, without a terminal."""

import unittest

import pytest

import watch
from page import Output, Tag

pytestmark = pytest.mark.quick

URL = "http://127.0.0.1:8080/"


def output(accepted, settled, number=0, tags=()):
    """The counts of an output whose entries have ten bytes, a hundred in a chunk."""
    held = accepted - settled
    return Output(number, accepted, settled, held, held * 10, (held + 99) // 100, list(tags))


class Courses(unittest.TestCase):
    """What is told of an output, from page to page."""

    def setUp(self):
        self.watch = watch.Watch(100)

    def take(self, moment, *counts):
        """Takes a page of one output."""
        self.watch.take_page([output(*counts)], moment)
        return self.watch.courses[0]

    def test_rates_go_over_the_last_seconds(self):
        self.assertIsNone(self.take(100, 1000, 0).rates())
        self.assertEqual(self.take(102, 1200, 50).rates(), (100, 25))
        self.assertEqual(self.take(104, 1200, 50).rates(), (50, 12.5))
        for moment in range(105, 130):
            course = self.take(moment, 1200, 50)
        self.assertEqual(course.rates(), (0, 0))

    def test_stalled_while_it_holds_and_settles_nothing(self):
        self.assertEqual(self.take(100, 0, 0).stalled(100), None)
        self.assertEqual(self.take(101, 5, 0).stalled(101), 1)
        self.assertEqual(self.take(109, 9, 0).stalled(110), 10)
        self.assertEqual(self.take(111, 9, 4).stalled(112), 1)
        self.assertEqual(self.take(113, 9, 9).stalled(113), None)

    def test_a_restart_gives_no_negative_rates(self):
        self.take(100, 1000, 900)
        self.take(101, 1100, 1000)
        self.assertIsNone(self.take(102, 10, 0).rates())
        self.assertEqual(self.take(103, 30, 10).rates(), (20, 10))

    def test_rates_begin_anew_behind_missing_pages(self):
        self.take(100, 10, 0)
        self.watch.take_fault("gone")
        self.assertIsNone(self.take(103, 1000, 0).rates())
        self.assertEqual(self.take(104, 1000, 0).stalled(104), 4)

    def test_other_outputs_are_another_relay(self):
        self.take(100, 10, 0)
        self.watch.take_page([output(10, 0), output(20, 10, number=1)], 101)
        self.assertEqual([course.rates() for course in self.watch.courses], [None, None])


class Lines(unittest.TestCase):
    """What stands on a screen."""

    def texts(self, width, height, outputs, fault=None):
        """The lines of a screen, without the spaces at their ends."""
        shown = watch.Watch(90)
        shown.take_page(outputs, 100)
        if fault:
            shown.take_fault(fault)
        lines = watch.screen_lines(shown, URL, 102, width, height)
        self.assertLessEqual(len(lines), height)
        for text, _ in lines:
            self.assertEqual(sum(map(watch.width_of, text)), width)
        return [text.rstrip() for text, _ in lines]

    def test_a_table(self):
        tags = [Tag(b"few", 1, 10), Tag("größe".encode(), 2, 2048)]
        tags += [Tag(b"\xff", 1, 30), Tag(b"", 0, 0)]
        self.assertEqual(
            self.texts(80, 24, [output(12, 8, tags=tags), output(5, 5, number=1)]),
            [
                "forward_relay at http://127.0.0.1:8080/                                  q quits",
                "",
                "output        accepted/s   settled/s       held       bytes   chunks     stalled",
                "0                      -           -          4        40 B        1         2 s",
                "  größe                                       2     2.0 KiB",
                "  hex:ff                                      1        30 B",
                "  few                                         1        10 B",
                "  (empty)                                     0         0 B",
                "1                      -           -          0         0 B        0           -",
            ],
        )

    def test_no_page(self):
        lines = self.texts(80, 24, [output(12, 8)], fault="Connection refused")
        self.assertEqual(lines[1], "no page for 2 s: Connection refused")
        self.assertEqual(lines[3].split()[-2:], ["0", "s"])

    def test_tags_share_what_is_left(self):
        tags = [Tag(b"%d" % n, 1, n) for n in range(20)]
        outputs = [output(40, 20, tags=tags), output(9, 8, number=1, tags=tags[:1])]
        titles = [line.split("  ")[:2] for line in self.texts(80, 10, outputs)[3:]]
        first = [["0", ""], ["", "19"], ["", "18"], ["", "17"], ["", "and 17 more tags"]]
        self.assertEqual(titles, [*first, ["1", ""], ["", "0"]])

    def test_outputs_that_have_no_room(self):
        outputs = [output(n, 0, number=n, tags=[Tag(b"a", n, n)]) for n in range(9)]
        lines = self.texts(80, 6, outputs)
        self.assertEqual([line.split()[0] for line in lines[3:]], ["0", "1", "and"])
        self.assertEqual(lines[-1], "and 7 more outputs")

    def test_each_size(self):
        tags = [Tag("日本語のタグ".encode() * 9, 2**64 - 1, 2**64 - 1), Tag(b"a" * 99, 1, 1)]
        outputs = [output(2**64 - 1, 0, number=n, tags=tags) for n in range(3)]
        for width in range(1, 130):
            for height in range(1, 12):
                self.texts(width, height, outputs, fault="timed out")

    def test_numbers(self):
        numbers = {0: "0", 999_999: "999999", 1_000_000: "1.0 M", 2**64 - 1: "18.4 E"}
        for number, text in numbers.items():
            self.assertEqual(watch.number_text(number), text)
        sizes = {0: "0 B", 1023: "1023 B", 1024: "1.0 KiB", 2**64 - 1: "16.0 EiB"}
        for size, text in sizes.items():
            self.assertEqual(watch.size_text(size), text)

    def test_a_snapshot(self):
        tags = [Tag(b"t%02d" % n, 1, n) for n in range(12)]
        lines = list(watch.snapshot_lines([output(1_000_000, 999_988, tags=tags), output(0, 0, 1)]))
        self.assertEqual(
            lines[:3] + lines[-2:],
            [
                "output             accepted  settled  held  bytes  chunks",
                "0                   1000000   999988    12    120       1",
                "  t11                                    1     11",
                "  and 2 more tags",
                "1                         0        0     0      0       0",
            ],
        )
