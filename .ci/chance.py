"""Draws scripts by chance, for the scripts beside this file: those of one thread, in a room that is small, and those of several, which hand
each other references and then make calls beside each other, where no race decides, but in what a collection finds. What stands in them
`.ci/soak` says."""

import random

from language import first_fault, script_of
from machine import BOUNDS

MOST_THREADS, MOST_COMMANDS, FEW_COMMANDS = 16, 120, 8
# Bytes that a changed byte may become: of words, of numbers, between words and lines, and such as no script has.
BYTES = b"apz019- \n\t\x00\x7f\xff"


class Drawn:
    """A thread's part that is drawn by chance. Names say what they mostly stand for: a an array of numbers, o one of objects, s a string,
    r any reference, w a weak one, b a buffer, v a level. What `given` has is read and never written."""

    def __init__(self, draw, is_alone, given=()):
        """Begins with no lines."""
        self.draw, self.is_alone, self.given, self.lines = draw, is_alone, list(given), []

    def name(self, sort):
        """Returns a name of a sort."""
        return f"{sort}{self.draw.randrange(3)}"

    def any(self, sort):
        """Returns a reference, mostly of a sort, that is only looked at."""
        by_chance = self.draw.random()
        if by_chance < 0.7:
            return self.name(sort)
        if by_chance < 0.75:
            return "null"
        if by_chance < 0.85 and self.given:
            return self.draw.choice(self.given)
        return self.name(self.draw.choice("aosrwb"))

    def own(self, sort):
        """Returns a reference that may be written by: to an array of this thread's own, where it is to one."""
        if self.is_alone:
            return self.any(sort)
        return "null" if self.draw.random() < 0.05 else self.name(self.draw.choice(sort * 8 + "aosb"))

    def index(self):
        """Returns an index, mostly within an array."""
        return self.draw.choice((0, 0, 0, 1, 1, 2, 3, 16_777_215))

    def value(self):
        """Returns a number, mostly near the bounds of a kind."""
        kind = self.draw.choice((*BOUNDS.values(), (0, 9), (0, 1)))
        return self.draw.choice((kind[0], kind[1], self.draw.randint(*kind), max(kind[0] - 1, -(2**63)), min(kind[1] + 1, 2**63 - 1)))

    def mode(self):
        """Returns a mode of a release."""
        return self.draw.choice(("copy", "commit", "abort"))

    def count(self):
        """Returns how many places are asked for."""
        return self.draw.choice((0, 0, 1, 1, 2, 3, 5, 16, 17, 300))

    # ---- commands, each a list of lines

    def make(self):
        """Makes an object."""
        units = " ".join(str(self.draw.choice((0, 7, 65_535))) for _ in range(self.draw.randrange(4)))
        array = f"{self.draw.choice([*BOUNDS])} {self.name('a')} {self.draw.randrange(4)}"
        objects = f"objs {self.name('o')} {self.draw.randrange(4)} {self.any('r')}"
        return [self.draw.choice((array, array, objects, f"string {self.name('s')} {units}".strip(), f"plain {self.name('r')}"))]

    def refer(self):
        """Makes a reference."""
        weak = self.any("r") if self.is_alone else self.draw.choice(self.given)
        return [self.draw.choice((f"global {self.name('r')} {self.any('a')}", f"local {self.name('r')} {self.any('o')}", f"weak {self.name('w')} {weak}"))]

    def keep(self):
        """Makes one more reference to what a name stands for."""
        sort = self.draw.choice("ao")
        return [f"{self.draw.choice(('global', 'local'))} {self.name(sort)} {self.own(sort)}"]

    def drop(self):
        """Deletes a reference."""
        return [f"drop {self.own(self.draw.choice('aorrww')) if self.is_alone else self.name(self.draw.choice('aosrw'))}"]

    def look(self):
        """Looks at a reference or two."""
        left = self.any(self.draw.choice("aosrw"))
        one = f"{self.draw.choice(('type', 'len', 'slen', 'chars', 'type'))} {left}"
        return [self.draw.choice((one, one, f"same {left} {self.any('r')}", f"len {self.any('a')}", f"chars {self.any('s')}"))]

    def elements(self):
        """Reads or writes an element."""
        get, load = f"get {self.name('r')} {self.any('o')} {self.index()}", f"load {self.any('a')} {self.index()}"
        put = f"set {self.own('o')} {self.index()} {self.any('r')}"
        return [self.draw.choice((get, load, put, f"store {self.own('a')} {self.index()} {self.value()}"))]

    def copy(self):
        """Makes a copy, uses one or releases one."""
        name = self.name("b")
        uses = [f"elems {self.name('b')} {self.any('a')}", f"eget {name} {self.index()}", f"eput {name} {self.index()} {self.value()}"]
        return [self.draw.choice((*uses, f"release {name} {self.own('a')} {self.mode()}"))]

    def frame(self):
        """Opens a frame, pops one or asks for places."""
        sort = self.draw.choice("aor")
        pop = f"pop {self.name(sort)} {self.own(sort)}"
        return [self.draw.choice((f"push {self.count()}", f"push {self.count()}", f"ensure {self.count()}", pop))]

    def region(self):
        """A critical region of a few levels. Where the level may be another's array, nothing is written."""
        lines, levels = [], self.draw.choice((1, 1, 2, 3, 17))
        for _ in range(levels):
            level, is_own = self.name("v"), self.draw.random() < 0.5
            array = self.own("a") if is_own else self.any("a")
            lines.append(f"crit own{level} {array}" if is_own else f"{self.draw.choice(('crit', 'critstr'))} {level} {array if self.draw.random() < 0.5 else self.any('s')}")
            lines += [f"cset own{level} {self.index()} {self.value()}"] if self.draw.random() < 0.6 else []
            lines += [self.draw.choice((f"cget {level} {self.index()}", f"cget own{level} {self.index()}", *self.look()))]
        ends = [f"endcrit {self.mode()}" for _ in range(levels + self.draw.choice((-1, 0, 0, 0, 1)))]
        return lines + ends

    def collect(self):
        """Collects, announced or not."""
        return [self.draw.choice(("gc", f"gcann {self.draw.choice((1, 2, 100))}"))]

    def chain(self):
        """Makes a row of arrays of objects, of which each names the one before, collects, cuts it somewhere and collects again."""
        long = self.draw.randrange(4, 13)
        cut, lines = self.draw.randrange(1, long), ["objs o0 1 null"]
        for it in range(1, long):
            lines += ["objs o1 1 o0", "drop o0", "local o0 o1", "drop o1", *(["local r0 o0"] if it == cut else [])]
        return [*lines, "gc", "set r0 0 null", "drop r0", "gc", "get r1 o0 0", "type r1"]

    def begin(self):
        """Has most names stand for something."""
        for number in range(3):
            kind = self.draw.choice([*BOUNDS])
            self.lines += [f"{kind} a{number} 3", f"objs o{number} 3 a{number}", f"string s{number} 7 8 9", f"local r{number} {self.any('a')}", f"elems b{number} a{number}"]

    def add(self, count):
        """Adds commands by chance, so many times."""
        ways = [self.make] * 6 + [self.refer] * 4 + [self.keep, self.keep, self.drop, self.frame, self.frame, self.region, self.collect]
        ways += [self.look] * 4 + [self.elements] * 5 + [self.copy] * 3
        for _ in range(count):
            self.lines += self.draw.choice(ways)()


def alone(draw, most):
    """Returns a script of one thread in a small room, of some four times so many commands at the most."""
    sizes = (draw.randrange(1, 13), draw.choice((1, 5, 12, 20, 40, 100)), draw.choice((0, 10, 30, 60, 200)), draw.choice((16, 17, 24, 64)))
    part = Drawn(draw, True)
    part.begin()
    part.add(draw.randrange(5, 4 * most))
    if draw.random() < 0.5:
        at = draw.randrange(len(part.lines) + 1)
        part.lines[at:at] = part.chain()
    for name in draw.sample([f"{sort}{number}" for sort in "aorsb" for number in range(3)], draw.randrange(4)):
        at = draw.randrange(len(part.lines) + 1)
        part.lines[at:at] = [f"post {name}"]
        at = draw.randrange(at + 1, len(part.lines) + 1)
        part.lines[at:at] = [f"wait {name}"]
    return script_of(sizes, {"t": part.lines})


def given_by(number):
    """Returns the names that a thread hands to the others: of references that stand to the end, and of a local one."""
    return [f"t{number}a", f"t{number}o", f"t{number}s"], f"t{number}l"


def beside(draw, most):
    """Returns a script of several threads, in a room with enough of all that they share, of so many further commands twice in each thread
    at the most."""
    threads, parts = draw.choice((2, 2, 3, 4, 8, MOST_THREADS)[: 4 if most == FEW_COMMANDS else 6]), {}
    most = min(most, 1_000 // threads)
    for number in range(threads):
        (array, objects, string), local = given_by(number)
        kind, first = draw.choice([*BOUNDS]), [f"plain {local}"]
        first += [f"{kind} x 3", f"global {array} x", f"objs x 2 {array}", f"global {objects} x", "string x 7 8 9", f"global {string} x", "drop x"]
        first += [f"post {it}" for it in (array, objects, string, local)]
        others = draw.sample([it for it in range(threads) if it != number], draw.randrange(threads))
        taken = [it for other in others for it in (*given_by(other)[0], given_by(other)[1])]
        part = Drawn(draw, False, [array, objects, string])
        part.begin()
        part.add(draw.randrange(5, most))
        second = Drawn(draw, False, [array, objects, string, *(it for it in taken if not it.endswith("l"))])
        second.add(draw.randrange(5, most))
        foreign = [f"{draw.choice(('type', 'len', 'drop', 'global r0', 'crit r0', 'local r0', 'chars', 'elems b0'))} {it}" for it in taken if it.endswith("l")]
        parts[f"t{number}"] = [*first, *part.lines, *(f"wait {it}" for it in taken), *foreign, *second.lines]
    # A command makes one reference and one object at the most, of up to three elements.
    made = threads + sum(map(len, parts.values()))
    return script_of((made, made, 3 * made, draw.choice((24, 64, 200))), parts)


def drawn(seed, most=MOST_COMMANDS):
    """Returns the script of a seed: the first that isn't too long."""
    draw = random.Random(seed)
    while True:
        text = alone(draw, most) if seed % 2 else beside(draw, most)
        if first_fault(text) is None:
            return text


def changed(text, draw):
    """Returns a text with one change."""
    at, other = draw.randrange(len(text)), draw.randrange(len(text))
    lines = text.splitlines(keepends=True)
    line, place = draw.randrange(len(lines)), draw.randrange(len(lines))
    without = lines[:line] + lines[line + 1 :]
    ways = (
        lambda: text[:at] + text[at + 1 :],
        lambda: text[:at] + bytes([draw.choice(BYTES)]) + text[at + 1 :],
        lambda: text[:at] + bytes([draw.choice(BYTES)]) + text[at:],
        lambda: text[:at] + text[other : other + 1] + text[at + 1 :],
        lambda: b"".join(without),
        lambda: b"".join(without[:place] + [lines[line]] + without[place:]),
        lambda: b"".join(lines[:place] + [lines[line]] + lines[place:]),
        lambda: text + text[at:],
    )
    return draw.choice(ways)()
