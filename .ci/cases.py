"""The cases of examples/ and scripts/: texts for `jrefs run`, each with what the program answers, for the scripts beside this file.

A case is a file: a line '# WHAT IT SHOWS', the text, a line of three dashes, and the answer.

    NAME.case     a script and what it prints: status 0, and nothing on standard error; or a text that is no script and the line of its first
                  fault: status 1, and nothing on standard output
    NAME.lines    many of the latter: each line of the text stands alone as the line that the fault names, behind as many lines of HEAD as
                  come before it

Behind the dashes of a text without a line feed at its end stands ' no line feed'. `.ci/run-scripts --list` tells what each shows. The
README.md of examples/ has that in a table, which it makes too.
"""

import os
import re
from typing import NamedTuple

FOLDERS = ("examples", "scripts")
HEAD = (b"vm threads 1 slots 4 objects 8 words 16 locals 16\n", b"thread a\n")
FORM = re.compile(rb"# ([^\s|][^|\n]*)\n((?:[^\n]*\n)*?)---( no line feed)?\n(.*)", re.S)
FAULT = re.compile(rb"script fault at line ([0-9]+): [a-zA-Z ]+\n")
# The page with a table of cases, and a row of that.
PAGE, ROW = "examples/README.md", re.compile(r"\| \[`(\w+)`\]\([\w.]+\) \|")


class Case(NamedTuple):
    """A text, and what the program answers to it."""

    # The path of its file without an ending, and of one of several lines its number behind a colon.
    name: str
    text: bytes
    output: bytes
    fault: bytes

    @property
    def has_threads_that_wait(self):
        """Returns whether the script has several threads of which one may wait for another."""
        return b"\nwait " in self.text and self.text.count(b"\nthread ") > 1

    @property
    def answers(self):
        """Returns for each word that the text is handed to the program with how it ends: its status, its output and its standard error."""
        if self.fault:
            return {word: (1, b"", self.fault) for word in ("run", "check")}
        threads = self.text.count(b"\nthread ")
        line = b"ok threads %d commands %d\n" % (threads, self.text.count(b"\n") - 1 - threads)
        return {"run": (0, self.output, b""), "check": (0, line, b"")}


def read(path):
    """Returns the bytes of a file."""
    with open(path, "rb") as file:
        return file.read()


class Kept(NamedTuple):
    """A case as its file has it: what it shows, its text, and its answer."""

    shows: str
    text: bytes
    answer: bytes


def kept_in(path):
    """Returns the case of a file, or None where that has another form."""
    found = FORM.fullmatch(read(path))
    return Kept(found[1].decode(errors="replace"), found[2].removesuffix(b"\n") if found[3] else found[2], found[4]) if found else None


def kept():
    """Returns each file of a case, by its path, with the case."""
    paths = [(folder, file) for top in FOLDERS for folder, _, files in os.walk(top) for file in files if (folder, file) != (top, "README.md")]
    return {path: kept_in(path) for path in sorted(f"{folder}/{file}" for folder, file in paths)}


def wrong_with(path, it):
    """Returns what is wrong with a file that is to be a case, or None."""
    if not path.endswith((".case", ".lines")):
        return "is no case, NAME.case or NAME.lines"
    if not it:
        return "is to be a line '# WHAT IT SHOWS', a text, a line of three dashes, and an answer"
    fault = FAULT.fullmatch(it.answer)
    if path.endswith(".lines") and not (fault and 1 <= int(fault[1]) <= len(HEAD) + 1):
        return f"is to have the fault of a line behind {len(HEAD)} lines at the most: of line 1 to {len(HEAD) + 1}"
    if path.endswith(".lines") and not it.text.endswith(b"\n"):
        return "is to have a line feed behind each line"
    if not fault and not it.answer.startswith(b"["):
        return "has an answer that is no text of threads, and no line 'script fault at line N: TEXT'"
    return None


def problems():
    """Finds files that are no cases, names that stand twice, and a page that doesn't list the cases as they are."""
    found = kept()
    for path, it in found.items():
        wrong = wrong_with(path, it)
        if wrong:
            yield f"{path}: {wrong}"
        elif path.endswith(".lines") and f"{os.path.splitext(path)[0]}.case" in found:
            yield f"{path}: a case of another form has its name"
    if page() != read(PAGE).decode():
        yield f"{PAGE}: does not list the cases as they are: run .ci/run-scripts --list"


def page():
    """Returns the page of examples/ with the rows of its cases: in their order where the page has them, and new ones at its end."""
    left = {os.path.basename(path).removesuffix(".case"): it.shows for path, it in kept().items() if it and path.startswith("examples/")}
    lines = []
    for line in read(PAGE).decode().rstrip("\n").split("\n"):
        row = ROW.match(line)
        if not row:
            lines.append(line)
        elif row[1] in left:
            lines.append(row_of(row[1], left.pop(row[1])))
    return "\n".join([*lines, *(row_of(*it) for it in left.items()), ""])


def row_of(name, shows):
    """Returns the row of a case."""
    return f"| [`{name}`]({name}.case) | {shows} |"


def of_lines(name, text, fault):
    """Returns the cases of NAME.lines."""
    before = b"".join(HEAD[: int(FAULT.fullmatch(fault)[1]) - 1])
    lines = text.split(b"\n")[:-1]
    return [Case(f"{name}:{number}", before + line + b"\n", b"", fault) for number, line in enumerate(lines, 1)]


def cases():
    """Returns all cases, where there are no problems."""
    found = []
    for path, it in kept().items():
        name, ending = os.path.splitext(path)
        if ending == ".lines":
            found += of_lines(name, it.text, it.answer)
        elif FAULT.fullmatch(it.answer):
            found.append(Case(name, it.text, b"", it.answer))
        else:
            found.append(Case(name, it.text, it.answer, b""))
    return found


def script_and_output(name):
    """Returns the script of a case, and what it prints."""
    return next((it.text, it.output) for it in cases() if it.name == name)
