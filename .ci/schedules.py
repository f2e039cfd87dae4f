"""What a script of several threads may print, for the scripts beside this file: by the programs of steps of `Together.antt`, which
`.ci/antt.py` runs, over all their schedules or in one order, and rows of its commands. A state is what is shared and each thread's program; equal ones are one.

No call is made again so often that it is E20. A `wait` for a word that a line posts is not in vain while any thread can go on. A step that
no other thread can see is taken at once, before all others: it touches what its thread alone has; looks at what never changes; posts; or
adds to what is made, where all that the script makes has room. Numbers of references and objects then come in another order, of which no
text tells. What collections alone see is unseen where no thread that collects can go on before this one does."""

TOGETHER, DOING, SCHEDULES = "jr_scripts.specs.Together", "jr_world.specs.Doing", "jr_world.specs.Schedules"
TEXT = "jr_scripts.specs.Text"
COLLECTING, MAKING, LOCAL, WITHIN = ("OfRoom", "WithTries"), ("MakeSized", "MakeFilled"), ("Local",), ("Within",)
NOTHING_NOTED = {"standing": 0, "made": 0, "used": 0}
# So many threads are tried as the first; and by chance the row goes on in any thread behind one command of so many.
MOST_FIRST, ONE_OF = 3, 5
POST, WAIT = ("OnName", ("Post",)), ("Make", ("Wait",))
# Who may see a step: the least of them comes first.
NOBODY, COLLECTIONS, ALL = range(3)
SEEN_BY = {"is_foreign_to": NOBODY, "finds_memory": NOBODY, "go_out": COLLECTIONS}


class Endless(int):
    """A number of turns that is the same after each: so a call that is made again stands where it stood."""

    def __sub__(self, _):
        """Returns the number of turns that are left."""
        return self


TURNS = Endless(10**7)


class Luck:
    """Luck that knows whether it was asked for."""

    is_asked = False

    def __bool__(self):
        """Says that there is luck."""
        self.is_asked = True
        return True


class Waits(Exception):
    """A step that waits for a word that is not on the board yet."""


class Row(tuple):
    """References of which it is noted which are read: their numbers, or None for all."""

    def __getitem__(self, at):
        """Returns one, or a piece, which is taken for a change alone."""
        self.reads.update([at] if isinstance(at, int) else [])
        return tuple.__getitem__(self, at)

    def __iter__(self):
        """Goes through all."""
        self.reads.add(None)
        return tuple.__iter__(self)


class World(dict):
    """A world of which it is noted what is read: fields by their names, and references by their numbers."""

    def __init__(self, world):
        """Takes a world that is not read yet."""
        self.reads, row = set(), Row(world["refs"])
        row.reads = self.reads
        super().__init__(world, refs=row)

    def __getitem__(self, label):
        """Returns a field."""
        self.reads.update([] if label in ("refs", "frames") else [label])
        return dict.__getitem__(self, label)


class Numbers:
    """A number for each value, the same for equal ones: functions are equal that have one code over equal values."""

    def __init__(self):
        """Has no value yet."""
        self.kept, self.numbers = {}, {}

    def of(self, value):
        """Returns the number of a value."""
        if id(value) not in self.kept:
            if isinstance(value, tuple):
                shape = (tuple, *map(self.of, value))
            elif isinstance(value, dict):
                shape = (dict, *((label, self.of(value[label])) for label in sorted(value)))
            elif hasattr(value, "__code__"):
                shape = (self.of(value.__code__), *(self.of(it.cell_contents) for it in value.__closure__ or ()))
            else:
                shape = (type(value), value)
            self.kept[id(value)] = (value, self.numbers.setdefault(shape, len(self.numbers)))
        return self.kept[id(value)][1]


class State:
    """What is shared, and each thread's program with its commands from the one on that it is in."""

    def __init__(self, shared, programs, commands):
        """Takes all three."""
        self.shared, self.programs, self.commands = shared, programs, commands

    def key(self, numbers):
        """Returns what equal states have in common."""
        return (numbers.of(self.shared), *map(numbers.of, self.programs))

    def is_collected_beside(self, thread, waits):
        """Returns whether a thread collects that can go on before this one does: those of `waits` need the words of these names."""
        going = {it for it, program in enumerate(self.programs) if it not in (thread, *waits) and program[0] == "steps"}
        for _ in self.programs:
            posted = {x[2] for by in going for x in self.commands[by] if x[0] == "OnName"}
            going |= {it for it, name in waits.items() if name in posted} - {thread}
        return any(x[0] in COLLECTING for it in going for x in self.commands[it])


class Schedules:
    """The schedules of scripts, over definitions of which a few note here what a step does."""

    def __init__(self, definitions):
        """Has these definitions note it from here on."""
        self.run, self.is_in_vain, self.sight, self.commands, self.world = definitions.run, False, ALL, (), None
        notes = {"go_in": self.enters, "noted": self.notes, "as_seen": self.sees, "as_left": self.leaves}
        for it, sight in SEEN_BY.items():
            notes[it] = self.seen_by(sight)
        for module, its in ((DOING, notes), (TOGETHER, {"posts_word": self.seen_by(NOBODY), "hears_word": self.hears, "lines_from": self.begins})):
            for name, around in its.items():
                function, _ = definitions.made(module, name)
                definitions.space[function] = around(definitions.space[function])

    def seen_by(self, sight):
        """Returns what notes that so many see a step."""
        def around(function):
            """Has a function note it."""
            def noted(*arguments):
                """Notes it, and does as before."""
                self.sight = sight
                return function(*arguments)
            return noted
        return around

    def enters(self, go_in):
        """Notes that collections alone see it, where it counts nothing that a script can fill."""
        def noted(*arguments):
            """Notes it, and does as before."""
            self.sight = COLLECTIONS if self.is_roomy else ALL
            return go_in(*arguments)
        return noted

    def notes(self, noted):
        """Counts nothing where no answer comes of it: where nothing can be full, and a raced call is made again."""
        return lambda shared: NOTHING_NOTED if self.is_roomy else noted(shared)

    def hears(self, hears_word):
        """Has a wait wait."""
        def heard(name, thread, _, shared):
            """Hears a word that stands, or waits."""
            stands = any(it[0] == name for it in shared["board"])
            if not stands and name in self.posted and not self.is_in_vain:
                raise Waits(name)
            self.sight = ALL if self.is_in_vain else NOBODY
            return hears_word(name, thread, True, shared)
        return heard

    def begins(self, lines_from):
        """Notes the commands from the one on that a thread begins."""
        def begun(*arguments):
            """Notes them, and begins."""
            self.commands = arguments[-1]
            return lines_from(*arguments)
        return begun

    def sees(self, as_seen):
        """Notes what is read."""
        def seen(*arguments):
            """Shows a world that notes it."""
            self.world = World(as_seen(*arguments))
            return self.world
        return seen

    def leaves(self, as_left):
        """Notes who sees what was read and changed."""
        def left(thread, shared, world):
            """Notes it, and leaves the world."""
            world = {**world, "refs": shared["refs"]} if dict.__getitem__(world, "refs").__class__ is Row else {**world}
            is_own = self.is_own(thread, shared, world) or self.is_roomy and self.is_added(shared, world)
            self.sight = ALL if not is_own else NOBODY if world["refs"] is shared["refs"] and world["objects"] is shared["objects"] else COLLECTIONS
            if self.sight == COLLECTIONS and shared["roles"][thread] == WITHIN:
                self.sight = NOBODY
            return as_left(thread, shared, world)
        return left

    def is_own(self, thread, shared, world):
        """Returns whether a thread read and changed its frames and its own local references alone."""
        own = [it == ("Some", thread) for it in shared["owners"]]
        is_read = all(isinstance(it, int) and own[it] for it in self.world.reads)
        refs, before = world["refs"], shared["refs"]
        is_changed = refs is before or all(it is old or mine for it, old, mine in zip(refs, before, own))
        is_made = all(it[1]["kind"] == LOCAL for it in refs[len(before):])
        return is_read and is_changed and is_made and world["objects"] is shared["objects"] and world["used"] == shared["used"]

    def is_added(self, shared, world):
        """Returns whether objects, references or words were added, and nothing else done to them."""
        grown = [len(world[it]) - len(shared[it]) for it in ("objects", "refs")] + [world["used"] - shared["used"]]
        return any(it > 0 for it in grown) and all(world[it][: len(shared[it])] == shared[it] for it in ("objects", "refs")) and grown[2] >= 0

    def first(self, script, is_hasty=True):
        """Returns the state before the first step of a script. Without haste no step that makes something is unseen."""
        commands = [it for part in script["threads"] for it in part["commands"]]
        self.posted = {it[2] for it in commands if it[0] == "OnName"}
        making = [it for it in commands if it[:2] == ("Make", ("Plain",)) or it[0] in (*MAKING, "MakeText")]
        sizes = [0 if it[1] == ("Plain",) else it[3] if it[0] in MAKING else len(it[2]) for it in making]
        refs, config = sum(it[0] == "MakeFrom" and it[1][0] in ("Global", "Weak") for it in commands), script["config"]
        self.is_roomy = is_hasty and refs <= config["slots"] and len(sizes) <= config["objects"] and sum(sizes) <= config["words"]
        machine = self.run(TOGETHER, "first_machine", TURNS, script)
        programs, commands = [], []
        for it, _ in enumerate(script["threads"]):
            programs.append(machine["programs"](it))
            commands.append(self.commands)
        return State(machine["shared"], tuple(programs), tuple(commands))

    def stepped(self, state, thread, luck):
        """Returns the state behind a step of a thread."""
        self.sight, self.commands, programs, commands = ALL, state.commands[thread], list(state.programs), list(state.commands)
        machine = {"programs": programs.__getitem__, "shared": state.shared}
        machine = self.run(SCHEDULES, "stepped", machine, thread, luck, programs[thread])
        programs[thread] = machine["programs"](thread)
        commands[thread] = self.commands
        if self.is_roomy and not state.shared["board"] and not any(it[0] in COLLECTING for it in state.commands[thread][:1]):
            self.sight = min(self.sight, COLLECTIONS)
        return State(machine["shared"], tuple(programs), tuple(commands))

    def steps(self, state, thread):
        """Returns the states behind the next step of a thread, with luck and without, and who sees it."""
        luck = Luck()
        found = [(self.stepped(state, thread, luck), self.sight)]
        if luck.is_asked:
            found.append((self.stepped(state, thread, False), self.sight))
        return [it for it, _ in found], max(sight for _, sight in found)

    def nexts(self, state):
        """Returns the states behind the steps that may be next."""
        found, waits = {}, {}
        for thread in (it for it, program in enumerate(state.programs) if program[0] == "steps"):
            try:
                found[thread] = self.steps(state, thread)
            except Waits as it:
                waits[thread] = it.args[0]
            if thread in found and found[thread][1] == NOBODY:
                return found[thread][0]
        for thread, (its, sight) in found.items():
            if sight == COLLECTIONS and not state.is_collected_beside(thread, waits):
                return its
        self.is_in_vain = not found
        found.update({it: self.steps(state, it) for it in waits if not found})
        self.is_in_vain = False
        return [it for its, _ in found.values() for it in its]

    def text(self, script, state):
        """Returns what a script prints whose threads have all ended."""
        world = self.run(DOING, "as_seen", 0, state.shared)
        lines = tuple(it[1][1] for it in state.programs)
        return bytes(self.run(TEXT, "text_of_parts", script["threads"], lines) + self.run(TEXT, "ending", self.run(TOGETHER, "summary_of", world)))

    def texts(self, script, most, is_hasty=True):
        """Returns all that a script may print, or None where its schedules come to more states than these."""
        found, known, todo, numbers = set(), set(), [self.first(script, is_hasty)], Numbers()
        while todo and len(known) <= most:
            state = todo.pop()
            key = state.key(numbers)
            if key not in known:
                known.add(key)
                nexts = self.nexts(state)
                found.update([] if nexts else [self.text(script, state)])
                todo += nexts
        return None if todo else found

    def text_in_order(self, script):
        """Returns what a script prints whose threads take turns, each until it waits or ends."""
        state, thread, idle = self.first(script), 0, 0
        while idle < len(state.programs):
            try:
                if state.programs[thread][0] == "ended":
                    raise Waits
                state, idle = self.stepped(state, thread, True), 0
            except Waits:
                thread, idle = (thread + 1) % len(state.programs), idle + 1
        return self.text(script, state)


def the_same(going, _):
    """Chooses the thread of the last command, or else the next one that can go on."""
    return going[0]


def speaking(going, left):
    """Chooses a thread that posts or waits, where one does."""
    return next((it for it in going if left[it][0][:2] in (POST, WAIT)), going[0])


def row_from(thread, commands, chosen):
    """Returns a row of the commands of each thread up to where all wait, by what chooses among the threads that can go on."""
    left, posted, row = [list(it) for it in commands], set(), []
    while True:
        cycle = [*range(thread, len(left)), *range(thread)]
        going = [it for it in cycle if left[it] and (left[it][0][:2] != WAIT or left[it][0][2] in posted)]
        if not going:
            return tuple(row)
        thread = chosen(going, left)
        command = left[thread].pop(0)
        posted.update([command[2]] if command[:2] == POST else [])
        row.append((thread, command))


def commands_of(script):
    """Returns the commands of each thread of a script."""
    return [it["commands"] for it in script["threads"]]


def rows_of(script):
    """Returns some rows of all commands of a script: none where a thread waits in vain."""
    commands = commands_of(script)
    ways = [(first, chosen) for chosen in (speaking, the_same) for first in range(min(len(commands), MOST_FIRST))]
    rows = dict.fromkeys(row_from(first, commands, chosen) for first, chosen in ways)
    return [it for it in rows if len(it) == sum(map(len, commands))]


def in_turns(script, draw):
    """Returns a script with a row by chance in which its commands must stand: a thread that goes on behind another waits for what that posts,
    and at the end all hear of the last."""
    row = row_from(0, commands_of(script), lambda going, _: draw.choice(going) if draw.randrange(ONE_OF) == 0 else going[0])
    parts, before = [[] for _ in script["threads"]], row[0][0]
    for number, (thread, *command) in enumerate([*row, *((it,) for it, _ in enumerate(parts))]):
        if thread != before:
            name = tuple(b"turn%d" % number)
            parts[before].append((*POST, name))
            parts[thread].append((*WAIT, name))
        parts[thread] += command
        before = thread
    return {**script, "threads": tuple({**it, "commands": tuple(part)} for it, part in zip(script["threads"], parts))}
