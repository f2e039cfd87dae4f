"""What the tests of the scripts have in common: a script as a module, and a small repository to stand in."""

import contextlib
import importlib.machinery
import importlib.util
import os
import sys
import tempfile

sys.dont_write_bytecode = True
CI = os.path.dirname(os.path.dirname(os.path.abspath(__file__)))
sys.path.insert(0, CI)
from meant import Meant
from rattle import text_of


def planted(module, old, new):
    """Returns what the definitions say of texts where something takes the place of what stands once in a file of these."""
    text = text_of(f"crates/{module.replace('.', '/')}.antt")
    assert text.count(old) == 1, old
    return Meant({module: text.replace(old, new)})


def script(name):
    """Returns a script beside this folder as a module of its own."""
    loader = importlib.machinery.SourceFileLoader(name.replace("-", "_"), f"{CI}/{name}")
    module = importlib.util.module_from_spec(importlib.util.spec_from_loader(loader.name, loader))
    loader.exec_module(module)
    return module


@contextlib.contextmanager
def repository(files):
    """Makes a repository with these files, by their paths, and stands in it for a while."""
    before = os.getcwd()
    with tempfile.TemporaryDirectory(prefix="ci-tests-") as room:
        for path, text in files.items():
            os.makedirs(os.path.dirname(f"{room}/{path}"), exist_ok=True)
            with open(f"{room}/{path}", "w", encoding="utf-8") as file:
                file.write(text)
        os.chdir(room)
        try:
            yield room
        finally:
            os.chdir(before)
