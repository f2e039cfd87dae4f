"""Tries the scripts that race: what is drawn, that all their texts are found, and that a run with another text is told."""

import os
import random
import unittest

from shared import CI, script
from antt import deeply
from language import first_fault, parts_of
from machine import printed
from meant import Meant
from races import MOST_STATES, any_script, raced

TEXT = b"vm threads 2 slots 1 objects 1 words 0 locals 16\nthread a\nplain p\nthread b\nplain p\n"
HEAD, END = b"[a]\n", b"[end]\nglobals 0 weaks 0 live 1 used 0\n"
FIRST, SECOND, BOTH = HEAD + b"3 ! E11\n[b]\n" + END, HEAD + b"[b]\n5 ! E11\n" + END, HEAD + b"3 ! E11\n[b]\n5 ! E11\n" + END


class Canned:
    """A program that ends as it is told to."""

    def __init__(self, *came):
        """Takes how each run ends."""
        self.came, self.is_ended = [*came], False

    def ended(self, _):
        """Returns how the next run ends."""
        return self.came.pop(0)

    def end(self):
        """Notes that the process has ended."""
        self.is_ended = True


class Strays:
    """What interrupts nothing."""

    def variables(self, _):
        """Returns no variable."""
        return {}


class DrawnRaces(unittest.TestCase):
    """Scripts that are drawn."""

    def setUp(self):
        os.chdir(f"{CI}/..")

    def test_each_is_a_script_whose_waits_are_not_in_vain(self):
        for seed in range(100):
            text = any_script(random.Random(seed))
            self.assertIsNone(first_fault(text))
            self.assertNotIn(b" ! E20", printed(text))
            posts = [it.words[0] for part in parts_of(text) for it in part.commands if it.verb == "post"]
            waits = {it.words[0] for part in parts_of(text) for it in part.commands if it.verb == "wait"}
            self.assertEqual(waits, {*posts})

    def test_all_texts_of_one_are_found(self):
        meant = Meant()
        text, texts = deeply(raced, 7, meant)
        self.assertGreater(len(texts), 1)
        self.assertIn(deeply(meant.printed, text), texts)
        self.assertEqual(deeply(meant.schedules.texts, meant.script(text), MOST_STATES), texts)


class RunRaces(unittest.TestCase):
    """Scripts that are run, by programs that end as they are told to."""

    def said(self, *came):
        """Returns what is told of a script that may print two texts, where its runs end so."""
        soak, program = script("soak"), Canned(*came)
        soak.MEANT[:], soak.RUNS, soak.raced, soak.Handed = [None], len(came), lambda *_: (TEXT, {FIRST, SECOND}), lambda *_: program
        (found,) = soak.Races(["jrefs"], "", Strays()).tried(5)
        self.assertTrue(program.is_ended)
        return found

    def test_texts_that_are_allowed_are_counted(self):
        self.assertEqual(self.said(*[(0, FIRST, b"")] * 3), (3, 0, 1, 2, None))
        self.assertEqual(self.said((0, FIRST, b""), (0, SECOND, b"")), (2, 0, 2, 2, None))

    def test_a_text_outside_is_told_with_its_script_and_the_others(self):
        *counted, told = self.said((0, FIRST, b""), (0, BOTH, b""), (0, SECOND, b""))
        self.assertEqual(counted, [3, 0, 2, 2])
        for it in (b"jrefs: races of seed 5: ", TEXT, b"printed:\n" + BOTH, FIRST, SECOND):
            self.assertIn(it.decode().rstrip("\n"), told)

    def test_another_end_is_told(self):
        for came in ((3, b"", b"out of memory\n"), (0, FIRST, b"told\n"), ("none, and the process ended with -6", b"", b""), (0, FIRST[:-1], b"")):
            self.assertIn(f"status {came[0]}, ", self.said(came)[-1])

    def test_a_thread_that_gave_up_is_counted_and_not_compared(self):
        self.assertEqual(self.said((0, FIRST, b""), (0, HEAD + b"3 ! E20\n[b]\n" + END, b"")), (2, 1, 1, 2, None))
