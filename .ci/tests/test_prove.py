"""Tries what a waiting reader is told of a run of `rt ci`, by lines that it printed."""

import unittest

from shared import script

PROVE = script("prove")
PAGE = "| Crate | functions | with tests | edits | proof | tests | must-fail | edits |\n| `low` | 2 |  | 3 | 360 |  | 9 | 9 |\n| `high` | 4 | 7 |  | 600 | 120 |  |  |\n"


class Followed(unittest.TestCase):
    """A run over two crates, one minute from line to line."""

    def setUp(self):
        times = iter(range(0, 6000, 60))
        self.follower = PROVE.Follower(["low", "high"], PROVE.seconds_told(PAGE), lambda: next(times))

    def told(self, *lines):
        """Returns what is printed of these lines."""
        return [it for it in map(self.follower.taken, lines) if it is not None]

    def test_seconds_are_those_of_the_page(self):
        self.assertEqual(PROVE.seconds_told(PAGE), {("low", "proof"): 360, ("high", "proof"): 600, ("high", "tests"): 120})

    def test_a_proved_crate_is_one_line(self):
        self.assertEqual(self.told("== low", "fn low::one: proved", "logic=proved", "rt: low proved"), ["1:00 1 of 2, some 3 minutes left: low proved"])
        self.assertEqual(self.told("rt: high: trying its must-fail edits (1)"), ["rt: high: trying its must-fail edits (1)"])

    def test_of_a_crate_that_is_not_proved_all_is_printed_but_what_is(self):
        self.assertEqual(
            self.told("== low", "fn low::one: proved", "fn low::two: open", "  goal: proved", "rt: low NOT PROVED"),
            ["== low\nfn low::two: open\n  goal: proved\n1:00 1 of 2, some 3 minutes left: low NOT PROVED"],
        )

    def test_what_is_kept_took_no_time(self):
        self.assertEqual(self.told("rt: low is kept: an earlier run"), ["1:00 1 of 2, some 7 minutes left: low is kept"])
        self.assertEqual(self.told("== high: its tests", "rt: high: its tests are proved"), ["2:00 1 of 2, some 6 minutes left: high: its tests proved"])

    def test_the_last_line_comes_through(self):
        self.assertEqual(self.told("2 passed, 0 failed"), ["2 passed, 0 failed"])
