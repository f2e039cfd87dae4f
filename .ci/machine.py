"""What a script prints, as docs/SCRIPTS.md says it, for the scripts beside this file. It is written from that page, with the order of
refusals from the page of .ci/reference, and knows nothing of the program: a room has lists and sets where the program has a row of words,
and its threads take turns.

Of a script of several threads it gives one outcome that the page allows: each thread goes on until it waits for what nobody posted yet,
and then the next one does. Where no race decides, that is the only one."""

from language import parts_of, sizes_of

MOST_FRAMES, MOST_LEVELS = 256, 16
# The kinds of arrays of numbers, with the least and the greatest element.
BOUNDS = {
    "boolean": (0, 1), "byte": (-(2**7), 2**7 - 1), "char": (0, 2**16 - 1), "short": (-(2**15), 2**15 - 1), "int": (-(2**31), 2**31 - 1),
    "long": (-(2**63), 2**63 - 1),
}  # fmt: skip
IN_A_REGION = ("crit", "critstr", "cget", "cset", "endcrit", "post", "wait")
NULL = None


class Refused(Exception):
    """A refusal, by its number, with what is told beside it."""


class Waiting(Exception):
    """A thread waits for a name that nobody posted yet."""


class Object:
    """An object: its kind, and its elements or units, where it has any."""

    def __init__(self, kind, elements=()):
        """Makes an object of a kind, with its elements."""
        self.kind, self.elements = kind, list(elements)


class Reference:
    """A reference that was made. What it names is NULL once it was cleared."""

    def __init__(self, kind, named, owner=None):
        """Makes a reference that stands, to what it names."""
        self.kind, self.named, self.owner, self.stands = kind, named, owner, True


class Buffer:
    """Elements that were copied."""

    def __init__(self, copied):
        """Copies what an array has."""
        self.kind, self.elements = copied.kind, list(copied.elements)


class Room:
    """What the threads of a script share."""

    def __init__(self, sizes):
        """Begins with nothing made."""
        self.sizes, self.used, self.posted = sizes, 0, {}
        # How many objects were made, and how many words they took, whatever became of them.
        self.made = self.words = 0
        self.objects, self.slots, self.locals = [], [], []

    def make(self, kind, elements=()):
        """Makes an object, behind words for its elements."""
        if self.used + len(elements) > self.sizes["words"]:
            raise Refused(10, self.used)
        self.used += len(elements)
        self.words += len(elements)
        if len(self.objects) == self.sizes["objects"]:
            raise Refused(11)
        self.made += 1
        self.objects.append(Object(kind, elements))
        return self.objects[-1]

    def refer(self, kind, named):
        """Makes a global or weak reference."""
        if len(self.slots) == self.sizes["slots"]:
            raise Refused(8)
        self.slots.append(Reference(kind, named))
        return self.slots[-1]

    def collect(self):
        """Clears weak references to what is not reached, and drops it. Returns how many of both, and how many words are used then."""
        left = [it.named for it in self.locals + self.slots if it.kind != "weak"]
        reached = set()
        while left:
            found = left.pop()
            if found not in reached:
                reached.add(found)
                left += [it for it in found.elements if it is not NULL] if found.kind == "objs" else []
        weak = [it for it in self.slots if it.kind == "weak" and it.named is not NULL and it.named not in reached]
        for it in weak:
            it.named = NULL
        dropped = len(self.objects) - len(reached)
        self.objects = [it for it in self.objects if it in reached]
        self.used = sum(len(it.elements) for it in self.objects)
        return len(weak), dropped, self.used

    def summary(self):
        """Returns the last line."""
        kinds = [it.kind for it in self.slots]
        return f"globals {kinds.count('global')} weaks {kinds.count('weak')} live {len(self.objects)} used {self.used}"


class Thread:
    """A thread of a script: what its names stand for, its local references by frames, the levels of its region, and what it printed."""

    def __init__(self, room, part):
        """Begins before the first command."""
        self.room, self.name, self.left = room, part.name, list(part.commands)
        self.names, self.frames, self.levels, self.printed = {}, [[]], [], []

    # ---- references

    def word(self, name):
        """Returns the reference that a word of a command says."""
        if name == "null":
            return NULL
        if name not in self.names:
            raise Refused(2)
        if isinstance(self.names[name], Buffer):
            raise Refused(4)
        return self.names[name]

    def buffer(self, name):
        """Returns the buffer that a word of a command says."""
        if name not in self.names:
            raise Refused(2)
        if not isinstance(self.names[name], Buffer):
            raise Refused(4)
        return self.names[name]

    def check(self, *references):
        """Refuses the first that doesn't stand, and then the first that is another thread's."""
        if not all(it is NULL or it.stands or self.is_foreign(it) for it in references):
            raise Refused(2)
        if any(map(self.is_foreign, references)):
            raise Refused(3)

    def is_foreign(self, it):
        """Returns whether a reference is another thread's local one."""
        return it is not NULL and it.kind == "local" and it.owner is not self

    def named(self, reference):
        """Returns what a reference names, or NULL."""
        self.check(reference)
        return NULL if reference is NULL else reference.named

    def object(self, name):
        """Returns the object that a word of a command names."""
        found = self.named(self.word(name))
        if found is NULL:
            raise Refused(1)
        return found

    def string(self, name):
        """Returns the string that a word names."""
        found = self.object(name)
        if found.kind != "string":
            raise Refused(4)
        return found

    def numbers(self, name):
        """Returns the array of numbers that a word names."""
        found = self.object(name)
        if found.kind not in BOUNDS:
            raise Refused(6 if found.kind == "objs" else 5)
        return found

    def free_places(self):
        """Returns how many local places are free."""
        return self.room.sizes["locals"] - sum(map(len, self.frames))

    def need_place(self):
        """Refuses where no local place is free."""
        if self.free_places() == 0:
            raise Refused(9)

    def refer(self, named):
        """Makes a local reference in the newest frame."""
        self.need_place()
        found = Reference("local", named, self)
        self.frames[-1].append(found)
        self.room.locals.append(found)
        return found

    def end_locals(self, references):
        """Ends local references."""
        for it in references:
            it.stands = False
            self.room.locals.remove(it)

    def sets(self, verb, name, made):
        """Sets a name to a reference that was made, and tells of NULL."""
        self.names[name] = made
        return f"{verb} {name} null" if made is NULL else None

    # ---- commands

    def makes(self, name, kind, elements=()):
        """Makes an object, and a local reference to it for which a name then stands."""
        self.need_place()
        self.names[name] = self.refer(self.room.make(kind, elements))

    def plain(self, name):
        self.makes(name, "plain")

    def objs(self, name, length, initial):
        first = self.word(initial)
        self.check(first)
        self.makes(name, "objs", [self.named(first)] * int(length))

    def string_(self, name, *units):
        self.makes(name, "string", [int(it) for it in units])

    def len(self, name):
        found = self.object(name)
        if found.kind in ("plain", "string"):
            raise Refused(5)
        return f"len {name} {len(found.elements)}"

    def slen(self, name):
        return f"slen {name} {len(self.string(name).elements)}"

    def chars(self, name):
        return " ".join(["chars", name, *map(str, self.string(name).elements)])

    def at(self, found, index):
        """Returns the index of an element, where there is such an element."""
        if int(index) >= len(found.elements):
            raise Refused(7)
        return int(index)

    def array_of_objects(self, found):
        """Refuses what is no array of objects."""
        if found.kind != "objs":
            raise Refused(6 if found.kind in BOUNDS else 5)
        return found

    def get(self, name, array, index):
        found = self.array_of_objects(self.object(array))
        element = found.elements[self.at(found, index)]
        return self.sets("get", name, NULL if element is NULL else self.refer(element))

    def set(self, array, index, value):
        self.check(self.word(array), self.word(value))
        found = self.array_of_objects(self.object(array))
        found.elements[self.at(found, index)] = self.named(self.word(value))

    def load(self, array, index):
        found = self.numbers(array)
        return f"load {array} {index} {found.elements[self.at(found, index)]}"

    def put(self, found, index, value):
        """Writes a number that is one of the kind, where there is such an element."""
        least, greatest = BOUNDS[found.kind]
        if not least <= int(value) <= greatest:
            raise Refused(18)
        found.elements[self.at(found, index)] = int(value)

    def store(self, array, index, value):
        self.put(self.numbers(array), index, value)

    def elems(self, name, array):
        self.names[name] = Buffer(self.numbers(array))

    def eget(self, name, index):
        found = self.buffer(name)
        return f"eget {name} {index} {found.elements[self.at(found, index)]}"

    def eput(self, name, index, value):
        self.put(self.buffer(name), index, value)

    def release(self, name, array, mode):
        copied, _ = self.buffer(name), self.word(array)
        if mode != "abort":
            found = self.object(array)
            if found.kind in ("plain", "string"):
                raise Refused(5)
            if found.kind != copied.kind:
                raise Refused(6)
            if len(found.elements) != len(copied.elements):
                raise Refused(7)
            found.elements[:] = copied.elements
        if mode != "commit":
            del self.names[name]

    def opens(self, name, found):
        """Opens a level of a region, by its name."""
        if len(self.levels) == MOST_LEVELS:
            raise Refused(17)
        self.levels.append((name, found))

    def crit(self, name, array):
        self.opens(name, self.numbers(array))

    def critstr(self, name, string):
        self.opens(name, self.string(string))

    def level(self, name):
        """Returns what the newest level of a name is at."""
        if not self.levels:
            raise Refused(19)
        found = [it for its, it in self.levels if its == name]
        if not found:
            raise Refused(2)
        return found[-1]

    def cget(self, name, index):
        found = self.level(name)
        return f"cget {name} {index} {found.elements[self.at(found, index)]}"

    def cset(self, name, index, value):
        found = self.level(name)
        if found.kind == "string":
            raise Refused(5)
        self.put(found, index, value)

    def endcrit(self, _):
        if not self.levels:
            raise Refused(19)
        self.levels.pop()

    def global_(self, name, old):
        found = self.named(self.word(old))
        return self.sets("global", name, NULL if found is NULL else self.room.refer("global", found))

    def weak(self, name, old):
        found = self.named(self.word(old))
        return self.sets("weak", name, NULL if found is NULL else self.room.refer("weak", found))

    def local(self, name, old):
        found = self.named(self.word(old))
        return self.sets("local", name, NULL if found is NULL else self.refer(found))

    def pop(self, name, result):
        kept = self.word(result)
        if len(self.frames) == 1:
            raise Refused(15)
        found = self.named(kept)
        if found is not NULL and self.free_places() + len(self.frames[-1]) == 0:
            raise Refused(9)
        self.end_locals(self.frames.pop())
        return self.sets("pop", name, NULL if found is NULL else self.refer(found))

    def push(self, capacity):
        if int(capacity) > self.free_places() or len(self.frames) == MOST_FRAMES:
            raise Refused(9)
        self.frames.append([])

    def ensure(self, capacity):
        if int(capacity) > self.free_places():
            raise Refused(9)

    def drop(self, name):
        old = self.word(name)
        self.check(old)
        if old is NULL:
            return
        if old.kind != "local":
            old.stands = False
            self.room.slots.remove(old)
            return
        for frame in (it for it in self.frames if old in it):
            frame.remove(old)
        self.end_locals([old])

    def type(self, name):
        found = self.word(name) if name in self.names else NULL
        stands = found is not NULL and found.stands and not self.is_foreign(found)
        return f"type {name} {('local', 'global', 'weak').index(found.kind) + 1 if stands else 0}"

    def same(self, left, right):
        both = self.word(left), self.word(right)
        self.check(*both)
        return f"same {left} {right} {'true' if self.named(both[0]) is self.named(both[1]) else 'false'}"

    def gc(self, *_):
        inside = [it for it in self.room.threads if it.levels]
        if inside:
            return f"gc busy {len(inside)}"
        return "gc cleared %d dropped %d used %d" % self.room.collect()

    gcann = gc

    def post(self, name):
        found = self.names.get(name, NULL)
        self.room.posted[name] = NULL if isinstance(found, Buffer) else found

    def wait(self, name):
        if name not in self.room.posted:
            raise Waiting
        self.names[name] = self.room.posted[name]

    # ---- runs

    def answer(self, command):
        """Does a command. Returns what it prints, or None."""
        if self.levels and command.verb not in IN_A_REGION:
            raise Refused(19)
        if command.verb in BOUNDS:
            name, length = command.words
            return self.makes(name, command.verb, [0] * int(length))
        verb = {"global": "global_", "string": "string_"}.get(command.verb, command.verb)
        return getattr(self, verb)(*command.words)

    def go_on(self):
        """Does commands until one waits in vain. Returns whether it did any."""
        before = len(self.left)
        while self.left:
            try:
                line = self.answer(self.left[0])
            except Refused as refused:
                line = " ".join([f"{self.left[0].line} ! E{refused.args[0]}", *map(str, refused.args[1:])])
            except Waiting:
                break
            self.printed += [line] if line else []
            self.left.pop(0)
        if before and not self.left:
            self.ends()
        return len(self.left) < before

    def ends(self):
        """Ends the thread's region and its local references."""
        self.levels = []
        for frame in self.frames:
            self.end_locals(frame)


def run_of(text):
    """Returns what `jrefs run` prints of a script, and the room at its end."""
    room = Room(sizes_of(text))
    room.threads = [Thread(room, it) for it in parts_of(text)]
    while any([it.go_on() for it in room.threads]):
        pass
    for it in room.threads:
        if it.left:
            raise ValueError("a thread waits for what nobody posts")
    lines = [line for it in room.threads for line in (f"[{it.name}]", *it.printed)]
    return "".join(f"{line}\n" for line in [*lines, "[end]", room.summary()]).encode(), room


def printed(text):
    """Returns what `jrefs run` prints of a script."""
    return run_of(text)[0]
