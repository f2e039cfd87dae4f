"""Runs definitions of specs/, for the scripts beside this file. Each that is asked for becomes a function of Python, equation by equation,
and so do those that it names. Types are passed over. A number is an int, a boolean a bool, a list or a tuple a tuple, a map a dict; a
constructor's value is a tuple of its name and its arguments, and a record a dict of its fields, by their labels. A record of claims is
whether all of them hold. A function that is a value takes one argument at a time.

Of the kit's library the words that definitions use stand here by hand (`LIBRARY`)."""

import re
import sys
import threading
from concurrent.futures import ThreadPoolExecutor
from functools import cache
from itertools import groupby

from rattle import blanked, items_of, text_of
from reading import Specs

NAME = r'[^\s(){}.;,"]+'
TOKEN = re.compile(rf'"[^"]*"|(?<=\))(?:\.{NAME})+|{NAME}(?:\.{NAME})*|[(){{}}.;,]')
FIXITY = re.compile(r"^\s*infix([lr]?) (\d+) (.*)$", re.M)
ENDS = ("", "=", "←", "then", "else", "in", ")", "}", ";", ",")
OPERATORS = {
    "||": (30, "l"), "&&": (35, "l"), "==": (40, ""), "≡": (40, ""), "≤": (40, ""), "++": (65, "r"), "+": (65, "l"), "-": (65, "l"), "-ℤ": (65, "l"), "∷": (67, "r"), "*": (70, "l"), "^": (75, "r"),
}  # fmt: skip
LIBRARY = {
    "zero": 0, "true": True, "false": False, "tt": (), "[]": (), "empty": {}, "w8": 8, "w16": 16, "w32": 32, "w64": 64,
    "suc": lambda n: n + 1, "◌+◌": lambda m, n: m + n, "◌-◌": lambda m, n: max(m - n, 0), "◌*◌": lambda m, n: m * n, "◌^◌": lambda m, n: m**n,
    "◌==◌": lambda m, n: m == n, "◌≡◌": lambda m, n: m == n, "◌≤◌": lambda m, n: m <= n, "nat_eq": lambda m, n: m == n, "nat_lt": lambda m, n: m < n, "nat_le": lambda m, n: m <= n, "not": lambda b: not b,
    "pos": lambda n: n, "negsuc": lambda n: -1 - n, "neg_ℤ": lambda k: -k, "◌-ℤ◌": lambda k, l: k - l,
    "int_eq": lambda k, l: k == l, "int_le": lambda k, l: k <= l, "unsigned_abs": abs, "int_rem_euclid": lambda k, l: k % abs(l) if l else max(k, 0),
    "decimal": lambda n: tuple(b"%d" % n), "signed_decimal": lambda k: tuple(b"%d" % k), "codes": tuple, "bytes_eq": lambda xs, ys: xs == ys,
    "◌∷◌": lambda x, xs: (x, *xs), "◌++◌": lambda xs, ys: xs + ys, "length": len, "replicate": lambda n, x: (x,) * n,
    "drop": lambda n, xs: xs[n:], "take": lambda n, xs: xs[:n], "refl": (), "slice_index": lambda xs, n: xs[n] if n < len(xs) else 0,
    "slice_index_or": lambda xs, n, x: xs[n] if n < len(xs) else x, "slice_set": lambda xs, n, x: (*xs[:n], x, *xs[n + 1 :]) if n < len(xs) else xs,
    "map": lambda f, xs: tuple(map(f, xs)), "filter": lambda p, xs: tuple(filter(p, xs)), "flat_map": lambda f, xs: tuple(y for x in xs for y in f(x)),
    "list_any": lambda p, xs: any(map(p, xs)), "list_all": lambda p, xs: all(map(p, xs)), "AllByRecursion": lambda p, xs: all([p(x) for x in xs]), "sum_by": lambda f, xs: sum(map(f, xs)),
    "find": lambda p, xs: next((("Some", x) for x in xs if p(x)), ("None",)), "join_with_byte": lambda c, xs: tuple(bytes([c]).join(map(bytes, xs))),
    "is_some": lambda o: o[0] == "Some", "option_map": lambda f, o: ("Some", f(o[1])) if o[0] == "Some" else o,
    "option_map_or": lambda f, o, x: f(o[1]) if o[0] == "Some" else x, "get": lambda m, k: ("Some", m[k]) if k in m else ("None",),
    "insert": lambda m, k, x: {**m, k: x},
}  # fmt: skip
# Words of the library that are no functions of Python, since not all of their arguments need be asked for.
CHOICES = {"cond": "({1} if {0} else {2})", "◌&&◌": "({0} and {1})", "◌||◌": "({0} or {1})"}
# Of a word of the library in a pattern: when a value has its form, and the parts of one that has.
SHAPES = {
    "zero": ("{} == 0",), "suc": ("{} > 0", "{} - 1"), "true": ("{}",), "false": ("not {}",), "[]": ("not {}",), "◌∷◌": ("{}", "{}[0]", "{}[1:]"),
}  # fmt: skip
CONSTRUCTORS = ("None", "Some", "Ok", "Err")
# In a constant of the sources: a path to a variant, and what else may stand there, which Python reads as Rust does.
VARIANT = re.compile(r"(?:[A-Za-z_]\w*::)+([A-Z]\w*[a-z]\w*)(\(?)")
PLAIN = re.compile(r"(?:[\d_,\s()\[\]+*-]|<<)*")


def split(test, items):
    """Returns what stands between the elements that pass a test."""
    pieces = [[]]
    for it in items:
        if test(it):
            pieces.append([])
        else:
            pieces[-1].append(it)
    return tuple(map(tuple, pieces))


LIBRARY["slice_split"] = split


class Again(tuple):
    """The arguments of a call that is the last that a function does."""


def looped(function):
    """Returns a function whose last call of itself is a turn of a loop."""
    def run(*arguments):
        """Calls the function until it returns a value."""
        while True:
            value = function(*arguments)
            if not isinstance(value, Again):
                return value
            arguments = value
    return run


def as_a_set(function):
    """Returns a function whose last argument loses what it has twice. It keeps what it returned last."""
    last = []

    def run(*arguments):
        """Calls the function, unless it was just called so."""
        arguments = (*arguments[:-1], tuple(dict.fromkeys(arguments[-1])))
        if not last or last[0] != arguments:
            last[:] = [arguments, function(*arguments)]
        return last[1]
    return run


def call_of(function, count, values):
    """Returns a call of a function of so many arguments as an expression of Python. With fewer it is a function of those that lack."""
    rest = [f"_{it}" for it in range(len(values), count)]
    called = f"({''.join(f'lambda {it}: ' for it in rest)}{function}({', '.join([*values[:count], *rest])}))"
    return called + "".join(f"({it})" for it in values[count:])


def parts_of(term):
    """Returns what a term calls, with the arguments."""
    given = []
    while term[0] == "call":
        term, given = term[1], [*term[2], *given]
    return term, given


def key(label):
    """Returns the key of a field as an expression of Python."""
    return label if label.isdigit() else repr(label)


def constant(module, name):
    """Returns the value of a constant of the sources: a number, or a list of variants."""
    crate, _, path = module.partition(".specs.declared.")
    text = text_of(f"crates/{crate}/src/{path.replace('.', '/')}.rt")
    item = next(it for it in items_of(blanked(text)) if it.kind == "const" and it.name == name)
    value = text[item.named : item.stop].partition("=")[2].strip(" ;")
    if not PLAIN.fullmatch(VARIANT.sub(r"\2", value)):
        raise SyntaxError(f"the constant {name} has a value that is not read here: {value}")
    found = eval(VARIANT.sub(lambda it: f"made('{it[1]}'{', ' if it[2] else ')'}", value), {"made": lambda *its: its})
    return tuple(found) if isinstance(found, list) else found


class Reader:
    """Reads the terms of some lines. A term is a tuple of its sort and its parts."""

    def __init__(self, lines, operators):
        """Finds the words of the lines, each with its column where it is the first of its line and may begin a statement."""
        self.words, self.at, self.begun, self.column, self.operators = [], 0, 0, -1, operators
        for line in lines:
            self.words += [(it[0], None if number or it[0] in ")}" else it.start()) for number, it in enumerate(TOKEN.finditer(line))]

    def peek(self):
        """Returns the next word of the statement, or '' at its end."""
        word, column = self.words[self.at] if self.at < len(self.words) else ("", None)
        return "" if column is not None and column <= self.column and self.at != self.begun else word

    def take(self, wanted=""):
        """Returns the next word, which is this one if one is given, and goes on behind it."""
        word = self.peek()
        if not word or wanted not in ("", word):
            raise SyntaxError(f"'{wanted or 'a word'}' expected behind '{' '.join(it for it, _ in self.words[: self.at])}'")
        self.at += 1
        return word

    def term(self, least=0):
        """Reads a term whose operators bind as tightly as this at the least."""
        left = self.operand()
        while self.operators.get(self.peek(), (-1,))[0] >= least:
            operator = self.take()
            level, side = self.operators[operator]
            left = ("call", ("name", f"◌{operator}◌"), [left, self.term(level + (side != "r"))])
        return left

    def operand(self):
        """Reads a term that is no operator's."""
        if self.peek() in ("λ", "let", "do", "if"):
            return {"λ": self.function, "let": self.binding, "do": self.block, "if": self.choice}[self.take()]()
        head, given = self.atom(), []
        while self.peek() not in ENDS and self.peek() not in self.operators:
            given.append(self.operand() if self.peek() in ("λ", "let", "do") else self.atom())
        return ("call", head, given) if given else head

    def atom(self):
        """Reads a term without arguments."""
        word = self.take()
        if word == "record":
            return self.record()
        if word[0] == '"' and (not word.isascii() or "\\" in word):
            raise SyntaxError(f"{word} has a sign that is not read here")
        if word != "(":
            value = tuple(word[1:-1].encode()) if word[0] == '"' else int(word) if word.isdigit() else None
            head, *labels = word.split(".")
            return ("value", repr(value)) if value is not None else ("field", ("name", head), labels) if labels else ("name", head)
        parts = [self.term()]
        while self.peek() == ",":
            self.take()
            parts.append(self.term())
        self.take(")")
        found = ("tuple", parts) if len(parts) > 1 else parts[0]
        return ("field", found, self.take().split(".")[1:]) if self.peek()[:1] == "." != self.peek() else found

    def record(self):
        """Reads a record, or one that is another but for some fields."""
        base, fields = None if self.peek() == "{" else self.atom(), {}
        self.take("{")
        while self.peek() != "}":
            label, _ = self.take(), self.take("=")
            fields[label] = self.term()
            if self.peek() == ";":
                self.take()
        self.take("}")
        return ("record", base, fields)

    def function(self):
        """Reads what stands behind a λ."""
        names = []
        while self.peek() != ".":
            names.append(self.take())
        self.take(".")
        return ("function", names, self.term())

    def binding(self):
        """Reads what stands behind `let`."""
        name, _, value, _ = self.take(), self.take("="), self.term(), self.take("in")
        return ("call", ("function", [name], self.term()), [value])

    def choice(self):
        """Reads what stands behind `if`."""
        test, _, one, _ = self.term(), self.take("then"), self.term(5), self.take("else")
        return ("call", ("name", "cond"), [test, one, self.term(5)])

    def block(self):
        """Reads the statements behind `do`: those of one column."""
        before, column, statements = (self.column, self.begun), self.words[self.at][1], []
        while self.at < len(self.words) and self.words[self.at][1] == column:
            self.column, self.begun = column, self.at
            is_named = self.words[self.at + 1 : self.at + 2] == [("←", None)]
            name, _ = (self.take(), self.take()) if is_named else ("", "")
            statements.append((name, self.term()))
        self.column, self.begun = before
        found = statements.pop()[1]
        for name, term in reversed(statements):
            found = ("call", ("name", "◌>>=◌" if name else "◌>>◌"), [term, ("function", [name], found) if name else found])
        return found


class File:
    """A file of specs/: its definitions by name, and for each the block that it stands in: its number, and its parameters."""

    def __init__(self, module, text=None):
        """Reads a file, or this text of it."""
        specs = Specs(f"crates/{module.replace('.', '/')}.antt", text).read()
        self.module, self.scope, self.lines, self.blocks = module, specs.scope, {it.name[1]: it.lines for it in specs.definitions}, {}
        self.constructors = {name for (_, name), _ in specs.constructors()}
        self.operators = {it.strip("◌"): (int(level), side) for side, level, names in FIXITY.findall(specs.text) for it in names.split()}
        for number, (around, its) in enumerate(groupby(specs.definitions, lambda it: it.around)):
            named = [name for names in re.findall(r"\(([^:()]+) :", around) for name in names.split()]
            self.blocks.update({it.name[1]: (number, named) for it in its})

    def equations(self, name):
        """Returns the lines of each equation of a definition: one for a record of claims."""
        if " record " in self.lines[name][0]:
            head, *fields = "\n".join(self.lines[name]).split("\n  pub ")
            values = [value for names in re.findall(r"\(([^()]*) :", head) for value in names.split()]
            claims = "".join(f"({it.partition(' : ')[2]}) ∷ " for it in fields)
            return [[f"{' '.join([name, *values])} = AllByRecursion (λ it. it) ({claims}[])"]]
        found = []
        for line in self.lines[name]:
            if not line.startswith((" ", "}", ")")):
                found.append([])
            found[-1].append(line)
        return found[1:]


class Equation:
    """An equation of a definition: its patterns and its term, and the variables that these have."""

    def __init__(self, definitions, file, own, lines):
        """Reads the lines of an equation."""
        self.definitions, self.file, self.own = definitions, file, own
        self.known, self.tests, self.parts = set(file.blocks[own][1]), [], []
        reader = Reader(lines, definitions.operators)
        self.patterns = parts_of(reader.term())[1]
        reader.take("=")
        self.left, self.term = " ".join(it for it, _ in reader.words[: reader.at - 1]), reader.term()
        if reader.at < len(reader.words):
            raise SyntaxError(f"the equation '{self.left}' ends before '{reader.words[reader.at][0]}'")

    def written(self, arguments, number):
        """Returns the lines of Python that try the equation on these arguments."""
        own = [f"{it}_" for it in self.file.blocks[self.own][1]]
        for pattern, value in zip(self.patterns, arguments[len(own) :]):
            self.match(pattern, value)
        head, given = parts_of(self.term)
        is_last = head == ("name", self.own) and len(own) + len(given) == len(arguments)
        found = f"Again(({', '.join([*own, *map(self.value, given)])},))" if is_last else self.value(self.term)
        return [f"    if {' and '.join(self.tests) or True}:", *(f"        {it}" for it in [*self.parts, f"used.add({number})", f"return {found}"])]

    def variant(self, term):
        """Returns the name of the constructor that a term is, or None."""
        head, labels = (term[1], term[2]) if term[0] == "field" else (term, [])
        if head[0] != "name" or head[1] in self.known:
            return None
        if labels:
            return labels[0] if self.file.scope.modules.get(head[1], "").endswith(".TheVariants") else None
        module, name = self.file.scope.meaning(head[1]) or ("", "")
        if ".specs.declared." in module:
            return None if head[1].isupper() else head[1]
        return head[1] if head[1] in CONSTRUCTORS or module and {name, head[1]} & self.definitions.file(module).constructors else None

    def match(self, pattern, value):
        """Asks that a value fits a pattern, and has the pattern's variables be its parts."""
        head, given = parts_of(pattern)
        if head[0] == "tuple":
            given, tests, parts = head[1], [], [f"{value}[{it}]" for it in range(len(head[1]))]
        elif self.variant(head):
            tests, parts = [f"{value}[0] == {self.variant(head)!r}"], [f"{value}[{it}]" for it, _ in enumerate(given, 1)]
        elif head[1] in SHAPES:
            test, *parts = (it.format(value) for it in SHAPES[head[1]])
            tests = [test]
        elif given or head[1][0].isupper():
            raise LookupError(f"'{head[1]}' in '{self.left}' is no constructor that is known here")
        else:
            tests, parts = [], []
            self.known |= {head[1]}
            self.parts.append(f"{head[1]}_ = {value}")
        self.tests += tests
        for it, part in zip(given, parts):
            self.match(it, part)

    def value(self, term):
        """Returns a term as an expression of Python."""
        sort, *parts = term
        if sort == "value":
            return parts[0]
        if sort == "tuple":
            return f"({', '.join(map(self.value, parts[0]))},)"
        if sort == "record":
            base = [f"**{self.value(parts[0])}"] if parts[0] else []
            return f"{{{', '.join([*base, *(f'{key(label)}: {self.value(it)}' for label, it in parts[1].items())])}}}"
        if sort == "field" and not self.variant(term):
            return self.value(parts[0]) + "".join(f"[{key(it)}]" for it in parts[1])
        if sort == "function":
            before, self.known = self.known, self.known | set(parts[0])
            found, self.known = self.value(parts[1]), before
            return f"({''.join(f'lambda {it}_: ' for it in parts[0])}{found})"
        head, given = parts_of(term)
        return self.call(head, [self.value(it) for it in given])

    def call(self, head, values):
        """Returns a call as an expression of Python: of a constructor, of what a word means, of a variable or another term."""
        if self.variant(head):
            return f"({', '.join([repr(self.variant(head)), *values])},)"
        if head[0] == "name" and head[1] not in self.known:
            return self.meant(head[1], values)
        function = f"{head[1]}_" if head[0] == "name" else self.value(head)
        return function + "".join(f"({it})" for it in values)

    def meant(self, word, values):
        """Returns a call of a definition, of a constant of the sources or of a word of the library."""
        module, name = self.file.scope.meaning(word.strip("◌")) or ("", word)
        if ".specs.declared." in module:
            return repr(constant(module, name))
        if not module and word in CHOICES:
            return CHOICES[word].format(*values)
        if module == self.file.module and self.file.blocks[name][0] == self.file.blocks[self.own][0]:
            values = [*(f"{it}_" for it in self.file.blocks[name][1]), *values]
        return call_of(*self.definitions.made(module, name), values)


class Definitions:
    """The definitions as functions, each made when it is first asked for."""

    def __init__(self, changed=None, as_sets=(), kept=()):
        """Takes texts in the place of files, by their modules; the names of definitions whose lists are asked for their elements alone: these
        lose what they have twice, so that they do not grow without bound; and of those whose values are kept, since they are asked again."""
        self.changed, self.files, self.operators, self.around = changed or {}, {}, dict(OPERATORS), {**dict.fromkeys(as_sets, as_a_set), **dict.fromkeys(kept, cache)}
        self.functions, self.equations, self.used = {}, [], set()
        self.space = {"used": self.used, "Again": Again}

    def file(self, module):
        """Returns a file."""
        if module not in self.files:
            self.files[module] = File(module, self.changed.get(module))
            self.operators.update(self.files[module].operators)
        return self.files[module]

    def made(self, module, name):
        """Returns the name of the function of Python that a definition or a word of the library is, and how many arguments it takes."""
        if (module, name) not in self.functions:
            function = f"f{len(self.functions)}"
            if module:
                self.make(function, self.file(module), name)
            elif name not in LIBRARY:
                raise LookupError(f"'{name}' is a word neither of specs/ nor of the library as it stands here")
            else:
                self.space[function] = LIBRARY[name] if callable(LIBRARY[name]) else lambda: LIBRARY[name]
                self.functions[module, name] = (function, getattr(getattr(self.space[function], "__code__", None), "co_argcount", 1))
        return self.functions[module, name]

    def make(self, function, file, name):
        """Makes the function of a definition."""
        equations = [Equation(self, file, name, it) for it in file.equations(name)]
        arguments = [*(f"{it}_" for it in file.blocks[name][1]), *(f"_{it}" for it in range(len(equations[0].patterns)))]
        self.functions[file.module, name] = (function, len(arguments))
        lines = [f"def {function}({', '.join(arguments)}):"]
        for it in equations:
            self.equations.append((file.module, it.left))
            lines += it.written(arguments, len(self.equations) - 1)
        exec("\n".join([*lines, f"    raise ValueError('no equation of {name} fits')"]), self.space)
        is_looped = any("return Again(" in it for it in lines)
        for around in [*([looped] if is_looped else []), *([self.around[name]] if name in self.around else [])]:
            self.space[function] = around(self.space[function])

    def run(self, module, name, *arguments):
        """Returns what a definition is of these arguments."""
        return self.space[self.made(module, name)[0]](*arguments)

    def come_to(self, module):
        """Returns the equations of a file to which something has come."""
        return {left for number, (of, left) in enumerate(self.equations) if of == module and number in self.used}

    def unused(self, module):
        """Returns the equations of a file, of definitions that were made, to which nothing has come."""
        return [left for number, (of, left) in enumerate(self.equations) if of == module and number not in self.used]


def deeply(function, *arguments):
    """Returns what a function returns whose calls go deep."""
    sys.setrecursionlimit(10**6)
    threading.stack_size(2**28)
    with ThreadPoolExecutor(1) as pool:
        return pool.submit(function, *arguments).result()
