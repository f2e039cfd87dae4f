"""Tries the contests: that an outcome of a round is told which the page does not allow, and an outcome that it allows and that never comes."""

import contextlib
import io
import itertools
import os
import unittest

from shared import CI, script
from antt import deeply
from meant import Meant

FIRST, SECOND = b"[a]\n3 ! E11\n[b]\n[end]\nglobals 0 weaks 0 live 1 used 0\n", b"[a]\n[b]\n5 ! E11\n[end]\nglobals 0 weaks 0 live 1 used 0\n"
TOGETHER = b"[a]\ngc busy 1\n[b]\ngc busy 1\n[end]\nglobals 0 weaks 0 live 0 used 0\n"
# A thread ends beside a collection: it is in the way, or what it held is kept, or dropped.
BUSY = b"[c]\ngc busy 2\ngc busy 1\n[a]\n[b]\n[end]\nglobals 0 weaks 0 live 2 used 0\n"
KEPT = BUSY.replace(b"gc busy 2", b"gc cleared 0 dropped 0 used 0")
DROPPED = BUSY.replace(b"gc busy 1", b"gc cleared 0 dropped 2 used 0").replace(b"live 2", b"live 0")
MEANT = Meant()


class Fought(unittest.TestCase):
    """Contests in their small forms, fought by a program that prints one text after the other."""

    def setUp(self):
        os.chdir(f"{CI}/..")
        self.contend = script("contend")

    def said(self, contest, *texts, never=()):
        """Returns how many outcomes came, how many of them were wrong and how many never came, and what is told."""
        runs = itertools.cycle(it if isinstance(it, tuple) else (0, it, b"") for it in texts)

        def small(count=1, names="ab"):
            """Returns the small form in place of the whole."""
            return contest(count, names)

        self.contend.ended, self.contend.NEVER = lambda *_: next(runs), {small: {*never}}
        with contextlib.redirect_stdout(io.StringIO()) as told:
            found = self.contend.contended(small, deeply(self.contend.allowed, small, MEANT), [("out/jrefs", None)], 2)
        return found, told.getvalue()

    def test_outcomes_that_are_allowed_are_counted(self):
        self.assertEqual(self.said(self.contend.numbers, FIRST, SECOND), ((6, 0, 0), "jrefs: small: 2 -, 2 E11\n"))

    def test_an_outcome_outside_is_told_with_what_was_printed(self):
        wrong = FIRST.replace(b"E11", b"E12")
        found, told = self.said(self.contend.numbers, SECOND, wrong)
        self.assertEqual(found, (6, 1, 0))
        self.assertEqual(told, f"FAILED  jrefs: small: 2 -, 1 E11\nwrong: E12\n{wrong.decode()}\n")

    def test_outcomes_are_told_that_must_not_come_together(self):
        both = b"[a]\n[b]\n[end]\nglobals 0 weaks 0 live 2 used 0\n"
        found, told = self.said(self.contend.numbers, SECOND, both)
        self.assertEqual(found, (6, 1, 0))
        self.assertIn(f"wrong: False\n{both.decode()}", told)

    def test_another_last_line_is_told(self):
        for contest, text, wrong in ((self.contend.numbers, FIRST, "False"), (self.contend.announced_and_not, TOGETHER, "globals 1 weaks 0 live 0 used 0")):
            found, told = self.said(contest, text.replace(b"globals 0", b"globals 1"))
            self.assertEqual(found[1] * 3, found[0])
            self.assertIn(f"\nwrong: {wrong}\n", told)

    def test_another_end_is_told_and_so_is_a_thread_in_the_way_that_is_none(self):
        for came in ((3, b"", b"out of memory\n"), (0, DROPPED, b"told\n"), BUSY.replace(b"busy 2", b"busy 3")):
            found, told = self.said(self.contend.ends, KEPT, came, DROPPED)
            self.assertEqual(found[1:], (1, 0))
            self.assertIn("FAILED  jrefs: small: ", told)

    def test_an_outcome_that_never_comes_is_told_once_it_was_awaited(self):
        found, told = self.said(self.contend.ends, KEPT, BUSY)
        self.assertEqual(found, (2 * 3 * self.contend.TURNS, 0, 1))
        self.assertEqual(told.splitlines()[-2:], ["jrefs: small: 3 busy some, 1 cleared 0 dropped 0 used 0", "FAILED  small: cleared 0 dropped some used 0 never came"])

    def test_a_contest_is_fought_again_until_each_outcome_came(self):
        self.assertEqual(self.said(self.contend.ends, KEPT, BUSY, KEPT, DROPPED, KEPT)[0], (2 * 2 * 3, 0, 0))

    def test_an_outcome_that_the_program_does_not_come_to_is_not_awaited(self):
        self.assertEqual(self.said(self.contend.ends, KEPT, BUSY, never={"cleared 0 dropped some used 0"})[0], (2 * 3, 0, 0))


class Allowed(unittest.TestCase):
    """What the page allows in a contest."""

    def setUp(self):
        os.chdir(f"{CI}/..")
        self.contend = script("contend")

    def test_what_two_threads_cannot_both_have_is_not_allowed(self):
        outside = {"deletions": "- -", "one_slot_by_turns": "E8/E2/0 E8/E2/0", "numbers": "E8", "words": "-/-/- own/own/own", "cleared": "true/-/1/true/-"}
        inside = {"deletions": "E2 -", "one_slot_by_turns": "-/-/0 -/-/0", "numbers": "E11", "words": "-/-/- own/0/own", "cleared": "false/null/0/true/-"}
        for it, wrong in [*outside.items(), ("regions", "-/0/-/-"), ("barred", "busy 2/1/busy 2"), ("barred", "busy 2/busy 1/busy 2")]:
            allowed = deeply(self.contend.allowed, getattr(self.contend, it), MEANT)
            self.assertNotIn(wrong, allowed)
            self.assertLessEqual({inside[it]} if it in inside else set(), allowed)

    def test_what_is_looked_at_by_hand_holds_of_all_that_the_page_allows(self):
        for it in ("numbers", "words", "cleared", "slots_by_turns", "ends"):
            text, judge = getattr(self.contend, it)(1, "ab")
            for printed in deeply(MEANT.schedules.texts, MEANT.script(text), self.contend.MOST_STATES):
                self.assertIs(judge(self.contend.Printed(text, printed))[-1], True)


class Printed(unittest.TestCase):
    """What a run printed, taken apart."""

    def test_each_command_has_its_answer(self):
        text = b"vm threads 1 slots 1 objects 1 words 1 locals 16\nthread a\nint x 1\nload x 0\ntype y\nsame x null\nlocal y null\ngcann 5\nint y 1\npost x\nwait z\n"
        lines = [b"[a]", b"load x 0 0", b"type y 0", b"same x null false", b"local y null", b"gc cleared 0 dropped 0 used 1", b"9 ! E10 1", b"11 ! E20", b"[end]", b"globals 0", b""]
        printed = script("contend").Printed(text, b"\n".join(lines))
        self.assertEqual(printed.by_thread["a"], ["-", "0", "0", "false", "null", "cleared 0 dropped 0 used 1", "E10 1", "E20"])
        self.assertEqual(printed.rounds("a", 1, 2), ["0/0", "false/null", "cleared 0 dropped 0 used 1/E10 1", "E20"])
        self.assertEqual(printed.last, "globals 0")
