"""The edits that the prover must refuse, each of which plants a bug in a crate, for the scripts beside this file.

Those of a source file crates/CRATE/PATH stand in .ci/edits/CRATE/PATH.edit, with an empty line between two:

    edit: NAME          says the bug
    proof: FUNCTION     of an edit of a definition, if need be: the function whose proof it makes fail
    old: TEXT           what stands once in the source file
    new: TEXT           what takes its place

Further pairs may follow. A line 'file: PATH' before a pair says that it is of another file of the crate. An edit of crates/CRATE/must-fail,
which rt reads too, is a file of its own with such a line in the place of the first.
"""

import glob
import os
import re
from typing import NamedTuple

from rattle import text_of

BLOCK, PAIR = re.compile(r"(?:[^\n]+\n?)+"), r"(?:file: (\S+)\n)?old: (.+)\nnew:(?: (.*))?(?:\n|\Z)"
FORM = re.compile(rf"edit: (\w+)\n(?:proof: (\S+)\n)?((?:{PAIR})+)")


class Written(NamedTuple):
    """An edit as it is written: its crate, where it stands, its name, the function whose proof it makes fail, if it names one, and its pairs, each with the
    file of the crate, what stands there and what takes its place. One without pairs has not the form of one."""

    crate: str
    place: str
    name: str = ""
    proof: str = ""
    pairs: list = ()

    def wrong(self):
        """Yields what is wrong with the edit."""
        if not self.pairs:
            yield f"{self.place}: is to be a line 'edit: NAME', one 'proof: FUNCTION' if need be, and pairs 'old: TEXT' and 'new: TEXT'"
        taken = []
        for file, old, _ in self.pairs:
            path = f"crates/{self.crate}/{file}"
            text = text_of(path) if os.path.isfile(path) else ""
            start = text.find(old)
            if text.count(old) != 1:
                yield f"{self.place}: {self.name}: an 'old:' text stands {text.count(old)} times in {path}, and not once: {old}"
            elif any(path == other and start < end and begin < start + len(old) for other, begin, end in taken):
                yield f"{self.place}: {self.name}: two of its 'old:' texts overlap in {path}"
            taken.append((path, start, start + len(old)))


def edit_of(crate, place, file, block):
    """Returns the edit that the lines of a block say, of this file of the crate."""
    found, pairs = FORM.fullmatch(block), []
    for other, old, new in re.findall(PAIR, found[3]) if found else []:
        file = other or file
        pairs.append((file, old, new))
    return Written(crate, place, found[1], found[2] or "", pairs) if found else Written(crate, place)


def edits_of(crate, with_rt=True):
    """Returns the edits of a crate: those of .ci/edits, and those that rt reads too."""
    found, top = [], f".ci/edits/{crate}"
    for path in sorted(glob.glob(f"{top}/**/*.edit", recursive=True)):
        text, file = text_of(path), os.path.relpath(path, top).removesuffix(".edit")
        blocks = [(f"{path}:{text.count(chr(10), 0, it.start()) + 1}", it[0]) for it in BLOCK.finditer(text)]
        found += [edit_of(crate, place, file, block) for place, block in blocks or [(path, "")]]
    for path in sorted(glob.glob(f"crates/{crate}/must-fail/*.edit")) if with_rt else []:
        found.append(edit_of(crate, path, "", f"edit: {os.path.basename(path).removesuffix('.edit')}\n{text_of(path)}"))
    return found


def wrong_with(edits):
    """Yields what is wrong with the edits of a crate, each of which has a name of its own."""
    places = {}
    for it in edits:
        yield from it.wrong()
        if it.pairs and places.setdefault(it.name, it.place) != it.place:
            yield f"{it.place}: an edit of this name stands in {places[it.name]} too: {it.name}"
