"""The language of scripts as docs/SCRIPTS.md has it, for the scripts beside this file: which line of a text has a fault, and what the
commands of a script are. It is written from that page, reads its table of commands, and knows nothing of the program."""

import re
from pathlib import Path
from typing import NamedTuple

MOST_BYTES, MOST_LINES = 65_536, 4_096
NUMBER = rb"(?:0|[1-9][0-9]*)"
NAME = rb"(?!null$)[a-z][a-z0-9]{0,15}"
# The kinds of words: the form of each, and the least and the greatest number where it is one.
KINDS = {
    "name": (NAME, None),
    "reference": (rb"[a-z][a-z0-9]{0,15}", None),
    "count": (NUMBER, (0, 16_777_215)),
    "tries": (NUMBER, (1, 16_777_215)),
    "unit": (NUMBER, (0, 65_535)),
    "value": (rb"(?:0|-?[1-9][0-9]*)", (-(2**63), 2**63 - 1)),
    "mode": (rb"copy|commit|abort", None),
}
# The words by which the page's table of commands names them.
WORDS = {
    "N": "name", "REF": "reference", "K": "count", "LEN": "count", "I": "count", "TRIES": "tries", "UNIT": "unit", "VALUE": "value", "MODE": "mode", "..": "..",
}  # fmt: skip
PAGE = Path(__file__).resolve().parent.parent / "docs" / "SCRIPTS.md"


def commands_of(page):
    """Returns the commands of the page's table with the kinds of their words: each row begins with one form, or with several."""
    table = page.split("| Command | JNI function | Prints |\n|---|---|---|\n")[1].split("\n\n")[0]
    forms = [form.split() for row in table.splitlines() for form in re.findall("`([^`]+)`", row.split(" | ")[0])]
    return {verb: " ".join(WORDS[word] for word in words) for verb, *words in forms}


# A string has up to 64 units behind its name.
COMMANDS = commands_of(PAGE.read_text())
MOST_UNITS = 64
SIZES = {"threads": (1, 64), "slots": (1, 65_536), "objects": (1, 65_535), "words": (0, 1_048_576), "locals": (16, 4_096)}
VM = re.compile(b"vm " + b" ".join(b"%s (%s)" % (name.encode(), NUMBER) for name in SIZES))
THREAD = re.compile(b"thread (%s)" % NAME)


class Command(NamedTuple):
    """A command: the number of its line, its verb, and its other words."""

    line: int
    verb: str
    words: list


class Part(NamedTuple):
    """A thread's part: its name and its commands."""

    name: str
    commands: list


def kinds_of(words):
    """Returns the kinds of the words behind the verb of a line, or None where it has no verb or another number of words."""
    kinds = COMMANDS.get(words[0].decode(), None)
    if kinds is None:
        return None
    kinds = kinds.split()
    if kinds[-1:] == [".."]:
        kinds = [kinds[0], *["unit"] * min(len(words) - 2, MOST_UNITS)]
    return kinds if len(kinds) == len(words) - 1 else None


def is_between(word, bounds):
    """Returns whether a number lies between two, where there are bounds."""
    return bounds is None or bounds[0] <= int(word) <= bounds[1]


def fault_of_command(line):
    """Returns the fault that a line has as a command, or None."""
    words = line.split(b" ")
    kinds = kinds_of(words)
    if kinds is None or not all(re.fullmatch(KINDS[kind][0], word) for kind, word in zip(kinds, words[1:])):
        return "command expected"
    in_range = all(is_between(word, KINDS[kind][1]) for kind, word in zip(kinds, words[1:]))
    return None if in_range else "number out of range"


class Reading:
    """What the lines before a line say."""

    def __init__(self):
        """Begins before the first line."""
        self.threads, self.names, self.posted = 0, set(), set()

    def fault_of_sizes(self, line):
        """Returns the fault of the first line, or None."""
        sizes = VM.fullmatch(line)
        if not sizes:
            return "vm line expected"
        self.threads = int(sizes[1])
        return None if all(map(is_between, sizes.groups(), SIZES.values())) else "number out of range"

    def fault_of_thread(self, name):
        """Returns the fault of a line that begins a thread, or None."""
        if len(self.names) >= self.threads:
            return "too many threads"
        if name in self.names:
            return "name used twice"
        self.names.add(name)
        return None

    def fault_of_post(self, line):
        """Returns the fault of a command that posts a name, or None."""
        verb, _, name = line.partition(b" ")
        if verb != b"post":
            return None
        if name in self.posted:
            return "posted twice"
        self.posted.add(name)
        return None

    def fault(self, number, line, is_finished):
        """Returns the first text that fits a line, or None."""
        if number > MOST_LINES:
            return "too long"
        if not is_finished:
            return "unfinished line"
        if not all(32 <= byte <= 126 for byte in line):
            return "not ASCII text"
        if number == 1:
            return self.fault_of_sizes(line)
        thread = THREAD.fullmatch(line)
        if thread:
            return self.fault_of_thread(thread[1])
        if number == 2:
            return "thread line expected"
        return fault_of_command(line) or self.fault_of_post(line)


def first_fault(text):
    """Returns the number of the first line with a fault, and its text, or None for a script."""
    if len(text) > MOST_BYTES:
        return 1, "too long"
    if not text:
        return 1, "empty input"
    lines, reading = text.split(b"\n"), Reading()
    last = lines.pop()
    for number, line in enumerate([*lines, last] if last else lines, 1):
        fault = reading.fault(number, line, number <= len(lines))
        if fault:
            return number, fault
    return (len(lines) + 1, "thread line expected") if len(reading.names) < reading.threads else None


def checked(text):
    """Returns how `jrefs check` ends on a text: its status, its output and its standard error."""
    fault = first_fault(text)
    if fault:
        return 1, b"", b"script fault at line %d: %s\n" % (fault[0], fault[1].encode())
    threads = sum(bool(THREAD.fullmatch(it)) for it in text.split(b"\n"))
    return 0, b"ok threads %d commands %d\n" % (threads, text.count(b"\n") - 1 - threads), b""


def script_of(sizes, parts):
    """Returns a script of the sizes of a room and the lines of each thread."""
    lines = ["vm threads %d slots %d objects %d words %d locals %d" % (len(parts), *sizes)]
    return "".join(f"{it}\n" for it in [*lines, *(it for name, part in parts.items() for it in (f"thread {name}", *part))]).encode()


def sizes_of(text):
    """Returns the sizes of a script."""
    return dict(zip(SIZES, map(int, VM.match(text).groups())))


def parts_of(text):
    """Returns the parts of a script."""
    parts = []
    for number, line in enumerate(text.decode().split("\n")[1:-1], 2):
        verb, *words = line.split(" ")
        if verb == "thread":
            parts.append(Part(words[0], []))
        else:
            parts[-1].commands.append(Command(number, verb, words))
    return parts
