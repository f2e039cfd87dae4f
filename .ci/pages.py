"""What the scripts that write pages have in common: links to headings, tables, and the check that a page is what its script makes."""

import os
import re

from rattle import text_of

# What several calls are refused by, and how their `///` cite it.
GATE = "E13 where a thread is collecting at the entry, or has announced that it will"
SPACE = "E10 with how many words are reserved, where so many more don't fit; E12 with how many words were looked at and how many were found, where another thread reserved some in between; E11 where every object number was present at one moment of the call"
HANDLE = "E2 where the handle is malformed or lies outside the room; E3 where it is a local one of another thread; E2 where its reference does not stand"
CITED = {"that of the gate": GATE, "those of space": SPACE, "those of a handle to an object": f"{HANDLE}; E1 where it is to null", "those of a handle": HANDLE}


def anchor(heading):
    """Returns the name by which a heading is linked to."""
    return re.sub(r"[^\w\- ]", "", heading.lower()).replace(" ", "-")


def link(text, heading):
    """Returns a link to a heading of the same page."""
    return f"[{text}](#{anchor(heading)})"


def counted(number, word):
    """Returns a number with the word for what is counted."""
    return f"{number:,} {word if number == 1 else word + 's'}"


def head_of(*columns):
    """Returns the first two lines of a table."""
    return [f"| {' | '.join(columns)} |", "|---" * len(columns) + "|"]


def row(*cells):
    """Returns a row of a table."""
    return f"| {' | '.join(f'{it:,}' if isinstance(it, int) else it for it in cells)} |"


def is_kept(path, text):
    """Returns whether a file has this text."""
    return os.path.exists(path) and text_of(path) == text


def write(path, text):
    """Writes a text to a file."""
    with open(path, "w", encoding="utf-8") as file:
        file.write(text)


def spelled_out(refusals):
    """Returns refusals with those that they cite."""
    return re.sub(r"th(?:at|ose) of [a-z ]+(?=[;.])", lambda it: CITED.get(it[0].lower(), it[0]), refusals, flags=re.I)
