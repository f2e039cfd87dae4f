"""Tries ./new-repository: what it copies, what it leaves alone, and where it changes nothing."""

import os
import unittest
from unittest import mock

from shared import repository, script

from rattle import text_of
from pages import write

FILES = {
    "crates.txt": "jr_word:\njr_scripts: jr_word\njr: jr_word\nfirst_threads: jr\n", ".ci/landing": "7 some-kit logic 1\n",
    "HANDLES": "Handles allowed: none.\n", ".gitignore": "out/\n", "crates/jr_scripts/src/lib.rt": "", "crates/first_threads/src/main.rt": "", "crates/first_threads/stdout": "1\n",
    "crates/jr_word/src/lib.rt": "one", "crates/jr_word/must-fail/it.edit": "", "crates/jr_word/README.md": "", "crates/jr_word/out/it": "", "crates/jr/src/lib.rt": "", "crates/jr/specs/Lib.antt": "",
}
LIBRARY = {f"library/{it}": text for it, text in FILES.items()}
MADE = [".gitignore", "HANDLES", "crates.txt", "crates/first_threads/src/main.rt", "crates/first_threads/stdout", "crates/jr/specs/Lib.antt", "crates/jr/src/lib.rt", "crates/jr_word/src/lib.rt"]


def files_below(folder):
    """Returns the files below a folder, but for those of git."""
    found = [os.path.relpath(f"{at}/{name}", folder) for at, _, names in os.walk(folder) for name in names]
    return sorted(it for it in found if not it.startswith(".git/"))


class Own(unittest.TestCase):
    """Repositories over a small library."""

    def setUp(self):
        self.script = script("../new-repository")

    def run_over(self, room, folder="mine"):
        """Has the script stand in a small library, and makes a repository of it."""
        self.script.HERE = os.path.realpath(f"{room}/library")
        with mock.patch("builtins.print"):
            self.script.main([folder])

    def test_the_library_is_copied_as_the_first_program_needs_it(self):
        with repository(LIBRARY) as room:
            self.run_over(room)
            self.assertEqual(files_below("mine"), MADE)
            lines = text_of("mine/crates.txt").split("\n")
            self.assertIn("some-kit", lines[0])
            self.assertEqual(lines[1:], ["jr_word:", "jr: jr_word", "", "# Your own crates:", "first_threads: jr", ""])

    def test_another_run_changes_the_library_alone(self):
        with repository(LIBRARY) as room:
            self.run_over(room)
            write("mine/crates.txt", text_of("mine/crates.txt") + "more: jr\n")
            write("mine/crates/first_threads/src/main.rt", "own")
            write("library/crates.txt", "jr:\nfirst_threads: jr\n")
            self.run_over(room)
            self.assertEqual(files_below("mine"), MADE[:-1])
            self.assertEqual(text_of("mine/crates.txt").split("\n")[1:], ["jr:", "", "# Your own crates:", "first_threads: jr", "more: jr", ""])
            self.assertEqual(text_of("mine/crates/first_threads/src/main.rt"), "own")

    def test_what_it_has_not_made_it_leaves_alone(self):
        for name in ("crates.txt", "it"):
            with repository({**LIBRARY, f"mine/{name}": "jr_word:\n"}) as room:
                with self.assertRaises(SystemExit):
                    self.run_over(room)
                self.assertEqual(files_below("mine"), [name])

    def test_none_is_made_in_the_checkout_itself(self):
        with repository(LIBRARY) as room:
            with self.assertRaises(SystemExit):
                self.run_over(room, "library/mine")
            self.assertFalse(os.path.exists("library/mine"))
