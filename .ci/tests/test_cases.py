"""Tries .ci/cases.py: what a file of a case says, what is wrong with one, and the page that lists those of examples/."""

import subprocess
import unittest

from shared import CI, repository, script

FAULT = "script fault at line 2: thread line expected\n"
PAGE = """# Examples

| Case of `examples/` | Shows |
|---|---|
| **First ones** | |
| [`two`](two.case) | what it showed |
| [`gone`](gone.case) | nothing |
"""
PAGES = {"examples/README.md": "| Case of `examples/` | Shows |\n|---|---|\n"}


class Cases(unittest.TestCase):
    """Files of cases in a small repository."""

    def setUp(self):
        self.cases = script("cases.py")

    def wrong(self, path, text):
        """Returns what is wrong with a file."""
        with repository({f"scripts/{path}": text}):
            return self.cases.wrong_with(path, self.cases.kept_in(f"scripts/{path}"))

    def test_what_a_case_says(self):
        files = {"run.case": "# runs\nvm\nthread a\n---\n[a]\n[end]\n", "short.case": f"# ends early\nvm\n--- no line feed\n{FAULT}", "none.case": f"# is empty\n---\n{FAULT}", "both.lines": f"# two lines\none\n\n---\n{FAULT}"}
        with repository({f"scripts/{path}": text for path, text in files.items()}):
            found = {it.name.removeprefix("scripts/"): it[1:] for it in self.cases.cases()}
            self.assertEqual(self.cases.script_and_output("scripts/run"), (b"vm\nthread a\n", b"[a]\n[end]\n"))
        fault, head = FAULT.encode(), self.cases.HEAD[0]
        self.assertEqual(found.pop("run"), (b"vm\nthread a\n", b"[a]\n[end]\n", b""))
        self.assertEqual(found, {"short": (b"vm", b"", fault), "none": (b"", b"", fault), "both:1": (head + b"one\n", b"", fault), "both:2": (head + b"\n", b"", fault)})

    def test_the_text_of_one_case_is_printed_alone(self):
        for path, wanted in (("examples/drop", 0), ("examples/drop.case", 0), ("examples/dro", 1)):
            done = subprocess.run([f"{CI}/run-scripts", "--print", path], stdout=subprocess.PIPE, check=False)
            self.assertEqual((done.returncode, done.stdout.startswith(b"vm threads 1 "), b"---" in done.stdout), (wanted, not wanted, False))

    def test_what_is_no_case_is_told(self):
        self.assertIsNone(self.wrong("it.case", "# runs\n---\n[a]\n"))
        for path, text, told in (
            ("it.script", "# runs\n---\n[a]\n", "is no case"),
            ("it.case", "vm\n---\n[a]\n", "a line '# WHAT IT SHOWS'"),
            ("it.case", "# \nvm\n---\n[a]\n", "a line '# WHAT IT SHOWS'"),
            ("it.case", "# a | b\nvm\n---\n[a]\n", "a line '# WHAT IT SHOWS'"),
            ("it.case", "# runs\nvm\n[a]\n", "a line of three dashes"),
            ("it.case", "# runs\nvm---\n[a]\n", "a line of three dashes"),
            ("it.case", "# runs\nvm\n---\n---\n[a]\n", "an answer that is no text of threads"),
            ("it.case", "# runs\nvm\n---\n", "an answer that is no text of threads"),
            ("it.lines", "# two\none\n---\n[a]\n", "the fault of a line"),
            ("it.lines", "# two\none\n---\nscript fault at line 4: too long\n", "of line 1 to 3"),
            ("it.lines", f"# two\none\n--- no line feed\n{FAULT}", "a line feed behind each line"),
        ):
            with self.subTest(text):
                self.assertIn(told, self.wrong(path, text))

    def test_the_page_of_examples_lists_each_as_it_says(self):
        files = {"examples/one.case": "# one thing\n---\n[a]\n", "examples/two.case": "# another\n---\n[a]\n", "scripts/new/three.lines": f"# more\none\n---\n{FAULT}"}
        with repository({"examples/README.md": PAGE, **files}):
            found = self.cases.page()
            self.assertEqual([it.split(":")[1][:14] for it in self.cases.problems()], [" does not list"])
        rows = "| [`two`](two.case) | another |\n| [`one`](one.case) | one thing |\n"
        self.assertEqual(found, PAGE[: PAGE.index("| [`two`")] + rows)
        with repository({"examples/README.md": found, **files}):
            self.assertEqual([*self.cases.problems()], [])

    def test_what_cases_show_is_listed(self):
        done = subprocess.run([f"{CI}/run-scripts", "--list", "examples/dro"], stdout=subprocess.PIPE, check=False, text=True)
        self.assertEqual((done.returncode, done.stdout.count("\n"), done.stdout[:20]), (0, 1, "examples/drop.case: "))

    def test_a_name_that_stands_twice_is_told(self):
        files = {"scripts/it.case": "# one\n---\n[a]\n", "scripts/it.lines": f"# two\none\n---\n{FAULT}"}
        with repository({**PAGES, **files}):
            self.assertEqual([*self.cases.problems()][0], "scripts/it.lines: a case of another form has its name")
