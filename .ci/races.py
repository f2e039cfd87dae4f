"""Scripts of two and three threads that race, drawn by chance, for `.ci/soak`, and all that each may print, by `.ci/meant.py`. Beside what
happens to be drawn here a race decides what is printed: who drops, sets or makes first, and whether a collection finds another inside.
Of the same commands are scripts, for `.ci/meaning`, whose threads share nothing.

The first thread makes an array of numbers and one of objects, a global reference to each and a weak one, and posts them. The others wait for
these, and all threads wait for each other. Each has a few commands then, on what was posted and on its own. No `wait` is in vain."""

import random

from language import first_fault, script_of
from machine import BOUNDS

# A script is drawn whose schedules come to no more states.
MOST_STATES = 6_000
# About how many states a command adds, and so many more where others see who is inside. Multiplied they say which scripts are too large.
STEPS = {"drop": 1, "type": 1, "local": 1, "len": 2, "same": 3, "global": 2, "weak": 2, "get": 6, "set": 6, "load": 7, "store": 7, "elems": 8, "release": 5}
STEPS.update({"crit": 4, "cget": 4, "cset": 4, "gc": 4, "gcann": 5})
MORE, MOST_STEPS = 2, 60
# Names that all threads have: a local reference of the first, global ones to an array of numbers and to one of objects, and a weak one.
POSTED = ("a", "g", "h", "w")


class Racing:
    """Commands of one thread that race, drawn by chance. Names of its own are r, a reference, and b, a buffer."""

    def __init__(self, draw):
        """Takes what draws."""
        self.draw = draw

    def any(self):
        """Returns a reference of any kind."""
        return self.draw.choice(("g", "g", "g", "g", "h", "h", "h", "w", "w", "w", "r", "a", "null"))

    def array(self):
        """Returns a reference, mostly to the array of numbers."""
        return self.draw.choice(("g", "g", "g", "g", "w", "w", "r", "a", "h"))

    def index(self):
        """Returns an index, mostly of the first element."""
        return self.draw.choice((0, 0, 0, 1))

    def objects(self):
        """Returns a reference, mostly to the array of objects."""
        return self.draw.choice(("h", "h", "h", "h", "h", "w", "r"))

    # ---- commands, each a list of lines

    def drop(self):
        """Deletes a reference."""
        return [f"drop {self.draw.choice(('g', 'g', 'h', 'h', 'w', 'r', 'a'))}"]

    def element(self):
        """Reads or writes an element of an array of objects."""
        return [self.draw.choice((f"set {self.objects()} {self.index()} {self.any()}", f"get r {self.objects()} {self.index()}"))]

    def number(self):
        """Reads or writes an element of an array of numbers."""
        return [self.draw.choice((f"load {self.array()} {self.index()}", f"store {self.array()} {self.index()} {self.draw.choice((0, 1, 1, 9, 300))}"))]

    def look(self):
        """Looks at a reference or two."""
        return [self.draw.choice((f"type {self.any()}", f"same {self.any()} {self.any()}", f"len {self.any()}"))]

    def refer(self):
        """Makes a reference."""
        return [f"{self.draw.choice(('global', 'global', 'weak', 'local'))} r {self.any()}"]

    def make(self):
        """Makes an object."""
        return [self.draw.choice(("plain r", "int r 1", f"objs r 1 {self.any()}", "string r 7"))]

    def copy(self):
        """Copies an array, changes the copy and copies it back."""
        array = self.array()
        return [f"elems b {array}", f"eput b {self.index()} 1", f"release b {array} {self.draw.choice(('copy', 'commit'))}"]

    def region(self):
        """Reads or writes in a region."""
        return [f"crit v {self.array()}", self.draw.choice((f"cget v {self.index()}", f"cset v {self.index()} 1")), "endcrit copy"]

    def collect(self):
        """Collects, announced or not."""
        return [self.draw.choice(("gc", "gc", "gcann 1", "gcann 2"))]

    def lines(self, count):
        """Returns so many lines by chance, or three."""
        found, ways = [], [self.drop, self.element, self.number, self.look, self.refer] * 3 + [self.make, self.make, self.copy, self.region, self.collect]
        while len(found) < count:
            more = self.draw.choice(ways)()
            found += more if len(found) + len(more) <= max(count, 3) else []
        return found


def start(draw, others):
    """Returns how the first thread begins: it makes what all race for, posts it, and waits for the words of the others."""
    length = draw.choice((1, 1, 1, 2))
    lines = [f"{draw.choice([*BOUNDS])} a {length}", f"objs o {length} {draw.choice(('a', 'null'))}", "global g a", "global h o", f"weak w {draw.choice('ao')}"]
    lines += [f"drop {it}" for it in draw.sample("ao", draw.randrange(3))]
    return [*lines, *(f"post {it}" for it in POSTED), *(f"wait {it}" for it in others)], length


def races_of(draw, threads, is_tight, is_collected):
    """Returns the commands of each thread that race: the first by chance that are not too many, and collect, where one is to."""
    while True:
        races, states = [Racing(draw).lines(draw.choice((1, 2, 2, 3, 4))) for _ in range(threads)], 1
        is_collecting = any(it.startswith("gc") for its in races for it in its)
        for its in races:
            states *= 1 + sum(STEPS.get(it.split()[0], 0) + MORE * (is_tight or is_collecting) for it in its)
        if states <= MOST_STEPS and is_collecting == is_collected and (is_collecting or is_raced(races)):
            return races


def is_raced(races):
    """Returns whether one thread deletes or writes by a reference that another names."""
    changed = [{it.split()[1] for it in its if it.split()[0] in ("drop", "set", "store")} for its in races]
    named = [{word for it in its for word in it.split()[1:]} for its in races]
    return any(own & other & {"g", "h", "w"} for own in changed for other in named if other is not named[changed.index(own)])


def any_script(draw):
    """Returns a script by chance, whatever comes of it."""
    is_tight, is_collected = draw.random() < 0.3, draw.random() < 0.3
    # Three threads that collect, or in a room that is full, come to too many states.
    threads = 2 if is_tight or is_collected else draw.choice((2, 2, 2, 3))
    names = [f"t{it}" for it in range(threads)]
    first, length = start(draw, names[1:])
    starts = [first, *([*(f"wait {it}" for it in POSTED), f"post {name}", *(f"wait {it}" for it in names[1:] if it != name)] for name in names[1:])]
    races = races_of(draw, threads, is_tight, is_collected)
    # A room that has enough, or that has none or one more than the first thread makes.
    more = (0, 1) if is_tight else (sum(map(len, races)),)
    sizes = (3 + draw.choice(more), 2 + draw.choice(more), 2 * length + draw.choice(more), draw.choice((16, 24)))
    return script_of(sizes, {name: its + raced for name, its, raced in zip(names, starts, races)})


def asked(commands):
    """Returns how many slots, objects and words commands ask for."""
    words = [it.split() for it in commands]
    made = [it for it in words if it[0] in (*BOUNDS, "objs", "string", "plain")]
    return sum(it[0] in ("global", "weak") for it in words), len(made), sum(len(it) - 2 if it[0] == "string" else int([*it, 0][2]) for it in made)


def apart(seed):
    """Yields a script of threads that share nothing, in a room that has what they ask for and no more; then the same where a thread waits or
    collects, and in rooms that have one less. Beside each stands whether its threads share nothing."""
    draw, parts = random.Random(seed), {}
    threads = draw.choice((2, 2, 2, 3))
    for number in range(threads):
        # (a name is posted once)
        left_out = ("gc", "post")[: number + 1]
        lines = [it for it in [*start(draw, ())[0], *Racing(draw).lines(4), *Racing(draw).make()] if not it.startswith(left_out)]
        parts[f"t{number}"] = [lines[it] for it in sorted(draw.sample(range(len(lines)), draw.randrange(5 - threads, 8 - threads)))]
    slots, objects, words = asked(sum(parts.values(), []))
    sizes = (max(slots, 1), max(objects, 1), words)
    yield script_of((*sizes, 16), parts), True
    for it in ("wait z", "gc", "gcann 1"):
        yield script_of((*sizes, 16), {**parts, "t0": ["post z", *parts["t0"]], "t1": [*parts["t1"], it]}), False
    less = [script_of((*(size - (it == at) for it, size in enumerate(sizes)), 16), parts) for at, _ in enumerate(sizes)]
    yield from ((it, False) for it in less if first_fault(it) is None)


def raced(seed, meant):
    """Returns the script of a seed with all that it may print: the first of which that can be found, and is more than one text with memory."""
    draw = random.Random(seed)
    while True:
        text = any_script(draw)
        assert first_fault(text) is None, text
        texts = meant.schedules.texts(meant.script(text), MOST_STATES)
        if texts and len(with_memory(texts)) > 1:
            return text, texts


def with_memory(texts):
    """Returns those texts in which no copy found no memory."""
    return {it for it in texts if b" ! E16\n" not in it}


def outside(text, texts, came):
    """Returns what is told of how a script ended, or None, where that is with one of its texts."""
    if (came[0], came[2]) == (0, b"") and came[1] in texts:
        return None
    its = b"--- or\n".join(sorted(texts))
    parts = (b"status %s, %s" % (str(came[0]).encode(), came[2][:400]), b"the script:", text, b"printed:", came[1], b"and may print:", its)
    return b"\n".join(it.rstrip(b"\n") for it in parts).decode(errors="backslashreplace")
