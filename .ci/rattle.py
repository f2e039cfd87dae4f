"""Reads Rattle, for the scripts beside this file: where the kit is and how a check begins, the crates of crates.txt, the items of a file of src/ with their clauses and bodies, and the functions of a crate by the names that the prover has for them."""

import glob
import json
import os
import re
import shutil
from dataclasses import dataclass, field

BLANKED = re.compile(r"//[^\n]*|/\*.*?\*/|\"(?:\\.|[^\"\\])*\"|'(?:\\.|[^\\'\n])'", re.S)
ATTRIBUTES = re.compile(r"\s*(#!?\[[^\]]*\]\s*)*")
HEAD = re.compile(r"(?P<public>pub(?:\((?P<within>\w+)\))? )?(?:const (?=fn)|extern\s+(?=fn)|unsafe (?=impl))?(?P<kind>ghost use|ghost|fn|struct|enum|trait|impl|mod|const|use|type|macro_rules(?=!))\b\s*(?P<name>\w*)")
CLAUSE = re.compile(r"\b(requires|ensures)\*?(?:\s+(\w+))?\s*\Z")
# Items whose braces are no body, and those whose bodies have items.
WITHOUT_BODY, WITH_ITEMS = ("ghost use", "use", "const", "type"), ("impl", "trait", "mod")
TRAIT = re.compile(r"(?:pub(?:\(\w+\))? )?trait\b")
TEST_MODULE = re.compile(r"#\[cfg\(test\)\]\s*mod (\w+);")
# The names of a crate's functions in what checks of it leave: in its library, and in the names of files.
BUILT, CHECKED = "crates/{0}/out/rlib/{0}.rlib/toolchain/mir.json", "crates/{0}/out/incremental/*/Rattle-{0}-proofs.*.Statement.oantt"


@dataclass
class Item:
    """An item of a file: what it is, its name, and whether all may name it; where it begins, where its name ends, where its first brace or its end is, and where it ends; each of its braces, from where to where, and whether that is a clause or a ghost value; its body, if it has one; whether tests alone have it; and the items in it."""
    kind: str
    name: str
    is_public: bool
    start: int
    named: int
    first: int
    stop: int
    braces: list
    body: tuple
    is_test: bool
    items: list = field(default_factory=list)


def text_of(path):
    """Returns the text of a file."""
    with open(path, encoding="utf-8", errors="replace") as file:
        return file.read()


def kit():
    """Returns the folder of the kit."""
    return os.path.dirname(os.path.dirname(os.path.realpath(shutil.which("rt"))))


def checking(crate, root):
    """Returns the words by which a check of a crate with this root begins, over the libraries of the kit, as rt itself does it."""
    logic = ["--antt-project", f"{kit()}/rattle/logic/antt-project.json", "--logic-built", f"{kit()}/logic_built"]
    return [f"{kit()}/bin/rattle", "check", "--crate-name", crate, root, "-L", f"dependency={kit()}/rlibs", *logic]


def libraries():
    """Returns the libraries that each crate of the repository names, the lowest crate first."""
    lines = [line.partition("#")[0].partition(":") for line in text_of("crates.txt").split("\n")]
    return {crate.split()[0]: below.split() for crate, _, below in lines if crate.strip()}


def crates():
    """Returns the crates, the lowest first."""
    return [*libraries()]


def reached(crate, listed):
    """Returns the repository's libraries that the crate names and those below them."""
    found, rest = [], [*listed[crate]]
    while rest:
        crate = rest.pop()
        if crate in listed and crate not in found:
            found.append(crate)
            rest += listed[crate]
    return found


def files_of(crate, folder, ending):
    """Returns the files of a folder of a crate whose names end so."""
    return sorted(glob.glob(f"crates/{crate}/{folder}/**/*{ending}", recursive=True))


def blanked(text):
    """Returns the text with spaces in the place of comments and of what is quoted."""
    return BLANKED.sub(lambda found: re.sub(r"[^\n]", " ", found[0]), text)


def next_brace(code, at, end):
    """Returns the place behind the next brace or semicolon that stands in no other bracket, and which it is."""
    depth = 0
    for found in re.compile(r"[(\[\])]|[{;]").finditer(code, at, end):
        if found[0] in "([":
            depth += 1
        elif found[0] in ")]":
            depth -= 1
        elif depth == 0:
            return found.end(), found[0]
    return end, ""


def closed_at(code, start):
    """Returns the place behind the brace that closes the one at a place."""
    depth = 0
    for found in re.compile(r"[{}]").finditer(code, start):
        depth += 1 if found[0] == "{" else -1
        if depth == 0:
            return found.end()
    return len(code)


def item_at(code, at, end):
    """Returns the item that begins at a place behind its attributes, or None where none does."""
    attributes = ATTRIBUTES.match(code, at, end)
    head = HEAD.match(code, attributes.end(), end)
    if not head:
        return None
    braces, at, brace, body = [], head.end(), "{", None
    while brace == "{" and not body:
        at, brace = next_brace(code, at, end)
        if brace == "{":
            start, at = at - 1, closed_at(code, at - 1)
            is_said = head["kind"] == "ghost" or bool(CLAUSE.search(code, head.end(), start))
            body = None if is_said or head["kind"] in WITHOUT_BODY else (start, at)
            braces.append((start, at, is_said))
    first, is_test = braces[0][0] if braces else at, "cfg(test)" in attributes[0]
    return Item(head["kind"], head["name"], bool(head["public"]) and not head["within"], head.start(), head.end(), first, at, braces, body, is_test)


def items_of(code, at=0, end=None):
    """Returns the items of a file that is blanked, or of a part of it, each with those in it."""
    found, end = [], len(code) if end is None else end
    while item := item_at(code, at, end):
        at = item.stop
        if item.body and item.kind in WITH_ITEMS:
            item.items = items_of(code, item.body[0] + 1, item.stop - 1)
        found.append(item)
    return found


def unread(code, items, at=0, end=None):
    """Returns the place at which the reading of a file or an item stops before its end, or None."""
    at, end = items[-1].stop if items else at, len(code) if end is None else end
    inside = (unread(code, it.items, it.body[0] + 1, it.stop - 1) for it in items if it.body and it.kind in WITH_ITEMS)
    found = [it for it in inside if it is not None]
    behind = ATTRIBUTES.match(code, at, end).end()
    return found[0] if found else behind if behind < end else None


def parameters_of(code, item):
    """Returns how many parameters a function of a file that is blanked has, `self` among them."""
    depth, count, are_begun, is_next = 0, 0, False, True
    for found in re.compile(r"->|\S").finditer(code, item.named, item.first):
        if are_begun and is_next and found[0] not in ",)":
            count, is_next = count + 1, False
        if found[0] in "<([":
            depth += 1
            are_begun = are_begun or (found[0], depth) == ("(", 1)
        elif found[0] in ">)]":
            depth -= 1
            if are_begun and depth == 0:
                break
        elif found[0] == "," and depth == 1:
            is_next = True
    return count


def ways_to(items, above=(), kinds=("fn",)):
    """Yields each function of some items, or each item of other kinds, behind the items that it stands in."""
    for it in items:
        if it.kind in kinds:
            yield (*above, it)
        yield from ways_to(it.items, (*above, it), kinds)


class File:
    """A file of the src/ of a crate: its path there, its text, without comments and what is quoted too, and its items."""

    def __init__(self, crate, path):
        """Reads a file."""
        self.crate, self.path, self.text = crate, os.path.relpath(path, f"crates/{crate}"), text_of(path)
        self.code = blanked(self.text)
        self.items = items_of(self.code)

    def modules(self, way):
        """Returns the names of the modules that lead to an item."""
        path = re.sub(r"\Asrc/|\.rt\Z|(/|\b)(lib|main|mod)\.rt\Z", "", self.path)
        return [*filter(None, path.split("/")), *[it.name for it in way if it.kind == "mod"]]

    def head(self, way):
        """Returns the head of the impl or the trait that a function stands in, from its first word to its body, or ''."""
        owners = [it for it in way if it.kind in ("impl", "trait")]
        return self.code[owners[-1].start : owners[-1].body[0]] if owners else ""

    def lines(self, start, stop):
        """Returns the first and the last line of an item, with the attributes above it, at which the prover tells of some goals. An edit puts one line in the place of one, so that lines keep their numbers."""
        first, last = self.text.count("\n", 0, start) + 1, self.text.count("\n", 0, stop) + 1
        lines = self.text.split("\n")
        while first > 1 and lines[first - 2].lstrip().startswith("#["):
            first -= 1
        return first, last


def words_of(head):
    """Returns the trait and the type of the head of an impl or a trait, each as the words that may stand in the prover's name for it. (A reference and the type of no value have words of their own.)"""
    of = re.sub(r"\Aimpl\s*(?:<(?:[^<>]|<[^<>]*>)*>)?|\A(?:pub(?:\(\w+\))? )?trait\b|\bwhere\b.*|'\w+|\w+\s*::\s*", " ", head, flags=re.S)
    pieces = of.replace("&", " Ref ").replace("()", " Unit ").rpartition(" for ")
    return tuple(re.findall(r"\w+", it) for it in (pieces[0], pieces[2]))


def is_spelled(owner, head):
    """Tells whether the prover's name for a type, with its trait, is made of words of the head: `NotesUnitBoard` and `StepsOver+PlainCells+LAST+unit` are. The prover's word for a type that is a parameter is `Any`."""
    words = "|".join(form for it in [*sum(words_of(head), []), "Any"] for form in (it, it[:1].upper() + it[1:], it[:1].lower() + it[1:]))
    return bool(re.fullmatch(rf"(?:{words}|\+)+", owner))


def known_to_the_prover(crate):
    """Returns the prover's names of the functions of a crate, as its library and checks of it left them: none, where nothing is left."""
    found = set()
    if os.path.isfile(BUILT.format(crate)):
        found = {it[0] for line in text_of(BUILT.format(crate)).split("\n") if line for it in json.loads(line)}
    return found | {"::".join([crate, *os.path.basename(path).split(".")[1:-2]]) for path in glob.glob(CHECKED.format(crate))}


class Functions:
    """The functions of a crate, but for those of its tests: for each name that the prover has for one the file and the way to it."""

    def __init__(self, crate, known=None):
        """Finds the functions of a crate, where the prover knows functions by these names, or by those that checks left."""
        self.crate, self.files = crate, {it.path: it for it in (File(crate, path) for path in files_of(crate, "src", ".rt"))}
        self.by_word = {}
        for name in known_to_the_prover(crate) if known is None else known:
            self.by_word.setdefault(name.rpartition("::")[2], []).append(name.split("::"))
        self.homes = {way[-1].name: it.modules(way) for it in self.files.values() for way in ways_to(it.items, kinds=("struct", "enum"))}
        roots = "".join(it.text for path, it in self.files.items() if path.count("/") == 1)
        tests, self.places = TEST_MODULE.findall(roots), {}
        for file in self.files.values():
            for way in ways_to(file.items):
                name = self.name(file, way)
                if name and way[-1].body and name.split("::")[1] not in tests and not any(it.is_test for it in way):
                    self.places[name] = (file, way)

    def name(self, file, way):
        """Returns the prover's name for a function: of those that it has, the one that says most of the impl, and where it has none yet, as for a program right behind rt ci, the one that a plain head leads to, or one with lifetimes alone."""
        modules, head, word = file.modules(way), file.head(way), way[-1].name
        if not self.by_word:
            plain = re.fullmatch(r"(?:impl|(?:pub )?trait) (?:[\w:<>]+ for )?\w+\s*", re.sub(r"<'\w+(?:, '\w+)*>", "", head))
            trait, of = words_of(head)
            owner, is_own = "".join(it[:1].upper() + it[1:] for it in [*of, *trait]), head.startswith("impl") and not trait
            within = self.homes.get(owner, modules) if is_own else modules
            return "::".join([self.crate, *within, *([owner] if head else []), word]) if plain or not head else None
        fitting = ["::".join(it) for it in self.by_word.get(word, []) if self.fits(it, modules, head)]
        return max(fitting, key=len, default=None)

    def fits(self, name, modules, head):
        """Tells whether a name may be that of a function in these modules, in an impl or a trait with this head. A type's own methods stand in the module of the type, and a method with its body in a trait is the trait's, also where impls have it."""
        if not head:
            return name[1:-1] == modules
        within, owner = name[1:-2], name[-2]
        trait, of = words_of(head)
        if TRAIT.match(head):
            return within == modules and owner == of[0]
        return (within == modules or not trait and owner == of[0]) and is_spelled(owner, head)

    def at(self, path, start, end):
        """Returns the name of the function whose body holds this part of a file, if the prover's name for it is known, with the way to it."""
        file = self.files[path]
        ways = [it for it in ways_to(file.items) if it[-1].body and it[-1].body[0] < start and end < it[-1].body[1]]
        return (self.name(file, ways[0]), ways[0]) if ways else (None, ())
