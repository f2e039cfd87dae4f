"""Tries the refusing of allocations: that each text of a copy without memory must come, and none outside, by runs that end as they are told to."""

import os
import unittest

from shared import CI, planted, script
from cases import Case
from meant import Meant
from preloaded import OUT_OF_MEMORY, Ended
from schedules import DOING

# A copy of an element, one of none, and one that is refused before it asks for memory.
TEXT = b"vm threads 1 slots 1 objects 2 words 1 locals 16\nthread a\nint a 1\nelems b a\nint c 0\nelems b c\nelems b null\n"
HEAD, END = b"[a]\n", b"7 ! E1\n[end]\nglobals 0 weaks 0 live 2 used 1\n"
WHOLE, FIRST, SECOND = HEAD + END, HEAD + b"4 ! E16\n" + END, HEAD + b"6 ! E16\n" + END
MEANT = Meant()


class Refusing:
    """An executable that ends as it is told to, where the first allocation of its first thread is refused, its second and so on, and then
    where those of the next are."""

    def __init__(self, refusals, *threads):
        """Takes the script, and how the runs of each thread end."""
        self.each, self.threads = refusals.EACH, threads

    def ended(self, _words, _given, library=None, number=0):
        """Returns how the run ends whose allocation of this number is refused, or the one with ample memory."""
        came = self.threads[number // self.each]
        is_refused = library and 1 <= number % self.each <= len(came)
        return Ended(came[number % self.each - 1] if is_refused else (0, WHOLE, b""), b"!" if is_refused else b"", (0, *[len(self.threads) - 1] * 2))


class RefusedAllocations(unittest.TestCase):
    """A script of one thread, by definitions and an executable that ends as it is told to."""

    def setUp(self):
        os.chdir(f"{CI}/..")

    def said(self, *threads, meant=MEANT):
        """Returns what is told of the script, where its runs end so and definitions say so of it."""
        refusing = script("refuse-allocations")
        refusing.MEANT, refusing.ended = meant, Refusing(refusing, *threads).ended
        number, wrong, line = refusing.refused_in_turn(refusing.of_program(["run"], Case("a/b", TEXT, WHOLE, b"")), "library")
        self.assertEqual((number, line.partition(":")[0]), (sum(map(len, threads)), "jrefs run a/b, status 0"))
        return wrong

    def test_each_text_of_a_copy_without_memory_must_come(self):
        for threads in ([[OUT_OF_MEMORY, (0, FIRST, b"")]], [[OUT_OF_MEMORY] * 2, [], [(0, FIRST, b""), OUT_OF_MEMORY]]):
            self.assertEqual(self.said(*threads), [])
        for came in ([], [OUT_OF_MEMORY], [OUT_OF_MEMORY, (0, WHOLE, b"")], [(1, FIRST, b"")]):
            wrong = self.said(came)
            self.assertTrue(wrong[-1].startswith("WRONG   jrefs run a/b: ") and wrong[-1].endswith(f" never does:\n{FIRST.decode()}"), wrong)

    def test_a_text_outside_is_told(self):
        for threads in ([[(0, FIRST, b""), OUT_OF_MEMORY, (0, SECOND, b"")]], [[OUT_OF_MEMORY], [OUT_OF_MEMORY, (0, FIRST, b""), (0, SECOND, b"")]]):
            (told,) = self.said(*threads)
            self.assertTrue(told.startswith(f"WRONG   jrefs run a/b, allocation 3 of thread {len(threads) - 1}: "), told)

    def test_definitions_that_allow_more_than_happens_are_told(self):
        more = planted(DOING, "copied_in_steps o zero = done []", "copied_in_steps o zero = by_step finds_memory >> done []")
        (told,) = self.said([OUT_OF_MEMORY, (0, FIRST, b"")], meant=more)
        self.assertTrue(told.endswith(f"\n{SECOND.decode()}"), told)
