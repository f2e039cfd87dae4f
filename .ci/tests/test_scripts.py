"""Looks at the scripts themselves: that each function says what it does, and that the page names each file."""

import ast
import glob
import os
import unittest

from shared import CI, script
from language import COMMANDS

# Functions that one sentence stands for: of a script what a contest has as its judge, and the commands of the language, which its page tells.
TOLD_ELSEWHERE = {"contend": {"judge"}, "machine.py": {it + end for it in COMMANDS for end in ("", "_")}}


def scripts():
    """Returns the files of .ci and of its tests, with their texts."""
    paths = [it for it in sorted(glob.glob(f"{CI}/*") + glob.glob(f"{CI}/tests/*")) if os.path.isfile(it)]
    found = {}
    for path in paths:
        with open(path, encoding="utf-8") as file:
            found[os.path.relpath(path, CI)] = file.read()
    return found


class Scripts(unittest.TestCase):
    """The scripts as texts."""

    def test_each_function_says_what_it_does(self):
        for path, text in scripts().items():
            if path.endswith(".py") or text.startswith("#!/usr/bin/env python3"):
                parts = [it for it in ast.walk(ast.parse(text)) if isinstance(it, (ast.FunctionDef, ast.ClassDef))]
                self.assertEqual([f"{path}: {it.name}" for it in parts if not ast.get_docstring(it) and not it.name.startswith(("test_", "setUp")) and it.name not in TOLD_ELSEWHERE.get(path, ())], [])

    def test_each_script_can_be_loaded(self):
        for path, text in scripts().items():
            if text.startswith("#!/usr/bin/env python3") and "/" not in path:
                self.assertTrue(callable(script(path).main), path)

    def test_the_page_names_each_file(self):
        page = scripts()["README.md"]
        self.assertEqual([it for it in scripts() if f"`{it.replace('tests/test_', 'test_')}`" not in page and it not in ("README.md", "tests/shared.py", "landing")], [])
