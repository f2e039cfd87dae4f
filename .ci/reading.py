"""Reads the definitions of specs/, the items of src/ with their clauses, and which names each of them says, for the scripts beside this file.

A *name* is a pair of a module and a word: (`jr_rule.specs.Knowing`, `Took`) for a definition, and for a Rust type the module that the prover gives it: (`jr_rule.specs.declared.known`, `Known`). Names of the kit's libraries are left out."""

import os
import re
from dataclasses import dataclass, field

from rattle import CLAUSE, blanked, crates, files_of, items_of, text_of

IMPORT = re.compile(r"^\s*(?:ghost )?use (?:Rattle\.)?([\w.@?]+?)(?:\.\{([^}]*)\}| as (\w+));?$", re.M)
DEFINED = re.compile(r"(?:pub )?(?:abbrev|unfoldable|record|data) (?:pub )?(\S+)(?: |$)")
PROVED = re.compile(r"(?:pub )?([^\s({]+) :(?: |$)")
COMMENT = re.compile(r"(?:^|(?<=\s))--.*$", re.M)
LABEL = re.compile(r"(?<=[{;])\s*[\w']+\s*=(?=\s)")
PROJECTION = re.compile(r"(?<=\))(?:\.[\w']+)+")
WORD = re.compile(r"[^\s(){}\[\];,.λ∥]+(?:\.[^\s(){}\[\];,.∥]+)*")
TYPED = re.compile(r"[({]\s*((?:[\w'-]+ )+):|^\s+(?:pub )?([\w'-]+) :|\blet ([\w'-]+)|([\w']+) ←", re.M)
LAMBDA = re.compile(r"λ ((?:\([^)]*\)|[^.(])*)\.")
PUBLIC_FIELD = re.compile(r"\bpub ([^,{;\n]*)")
NAMED_TYPE = re.compile(r"=\s*([^;]+)")
NAMED = re.compile(r"^pub type (\w+)[^=;]*=\s*([^;]+);", re.M)
HELD_TYPE = re.compile(r"[(:<] ?([A-Z]\w*)")
BOUND = re.compile(r"\b([A-Z]\w*)\s*:\s*([A-Z]\w*)")
MEMBER = re.compile(r"(?<![\w.])([A-Z]\w*)\.([A-Za-z]\w*)")
# A trait, and the one that it asks for.
ABOVE = re.compile(r"^(?:pub )?trait (\w+)(?:<[^{]*?>)?: (\w+)", re.M)
# Traits whose members count for nothing beside the trait itself: what they are in a room is a claim of its own.
TOLD_APART = ("Steps",)
# Traits whose impls are an embedder's: what those say counts where the embedder says it, and not for a function that is handed any impl.
OF_EMBEDDERS = ("NativeCode", "HandedOn", "OwnedCode")
# Data that calls are values of: what reads them does so by cases, of which a call needs those of its own value.
CASES = (("jr_model.specs.Programs", "Program"), ("jr_model.specs.Programs", "Ending"), ("jr_model.specs.AllCalls", "CallOf"))


@dataclass
class Part:
    """A part of a definition: its type, an equation, or the head or a constructor of data in CASES. How many lines it has, the names that its left side says, the words that mean something, in their order, each with the name that it means, and these names."""
    length: int
    left: set
    words: list
    says: set


@dataclass
class Definition:
    """A definition, or a proof, of specs/: its lines without comments, the names that it says, and its parts."""
    name: tuple
    file: str
    number: int
    is_proof: bool
    around: str
    lines: list = field(default_factory=list)
    says: set = field(default_factory=set)
    parts: list = field(default_factory=list)

    def row_of(self, constructor):
        """Returns the words of the equation for a constructor."""
        return next((it.words for it in self.parts if constructor in it.left), [])


@dataclass(eq=False)
class Entry:
    """A function, a type or a ghost member of src/: the file, and from where to where its head stands there; the trait, the type (by the name that the file gives it, where it gives one: `pub type Name = Type;`) or `Trait for Type` that it stands in; its clauses; the names that they say; and the words of its signature or its public fields that may be Rust types, each with the crate that it is of."""
    file: str
    place: tuple
    crate: str
    module: str
    kind: str
    name: str
    is_public: bool
    inside: str
    in_trait: bool
    clauses: list
    says: set
    types: set


@dataclass
class Clause:
    """A clause of a function: `requires` or `ensures`, its own name, which may be empty, from where to where it stands in its file, the words of it that mean something, in their order, each with the name that it means, and the members of traits that it says through a type parameter (`E.word_of`), each as the trait and its name."""
    kind: str
    name: str
    place: tuple
    words: list
    members: set


def target_of(path, word):
    """Returns the name that a word of an imported module has: a variant's or a field's is its type's, and None where the module is none of a crate here."""
    parts = path.split(".")
    if len(parts) < 3 or parts[1] not in ("specs", "proofs") or not os.path.isdir(f"crates/{parts[0]}"):
        return None
    if parts[1:3] == ["specs", "declared"]:
        if "TheConstants" in parts:
            return ".".join(parts[:parts.index("TheConstants")]), word
        parts = parts[:-1] if parts[-1].startswith("The") and parts[-2][0].isupper() else parts
        return ".".join(parts[:-1]), parts[-1]
    if not os.path.exists(f"crates/{'/'.join(parts)}.antt"):
        return ".".join(parts[:-1]), parts[-1]
    return path, word


def bound_words(text):
    """Returns the words that a text binds: with a type, as a field, by `let` or by `λ`."""
    bound = {word for found in TYPED.findall(text) for words in found for word in words.split()}
    for parameters in LAMBDA.findall(text):
        bound.update(re.findall(r"[\w'-]+", re.sub(r":[^)]*\)", ")", parameters)))
    return bound


class Scope:
    """What words mean: by themselves, and behind the name of a module; and the traits of type parameters."""

    def __init__(self, text, above=None):
        """Takes in the imports of a text, beside what words mean above it."""
        self.words = dict(above.words) if above else {}
        self.modules = dict(above.modules) if above else {}
        self.traits = dict(above.traits) if above else {}
        for path, words, module in IMPORT.findall(text):
            if module:
                self.modules[module] = path
            for word, _, renamed in (it.strip().partition(" as ") for it in words.split(",")):
                if target_of(path, word):
                    self.define(renamed or word, target_of(path, word))

    def define(self, word, name):
        """Has a word, or the parts of an operator, mean a name."""
        for piece in filter(None, word.split("◌")):
            self.words[piece] = name

    def meaning(self, word):
        """Returns the name that a word means, or None."""
        head, _, rest = word.partition(".")
        if head == "Rattle":
            path = re.match(r"Rattle\.(\w+\.(?:specs|proofs)(?:\.[A-Z]\w*)+?)\.(\w+)$", word)
            return target_of(*path.groups()) if path else None
        if head in self.modules and rest:
            return target_of(self.modules[head], rest.partition(".")[0])
        return self.words.get(head)

    def words_said(self, text, hidden=()):
        """Returns the words of a text that mean something, in their order, each with the name that it means, where these words hide what they mean elsewhere."""
        words = WORD.findall(LABEL.sub(" ", PROJECTION.sub("", text)))
        words += [">>=", ">>"] if "do" in words else []
        said = ((it, self.meaning(it)) for it in words if it.partition(".")[0] not in hidden)
        return [(word, name) for word, name in said if name]

    def says(self, text, hidden=()):
        """Returns the names that a text says, where these words hide what they mean elsewhere."""
        return {name for _, name in self.words_said(text, hidden)}


class Specs:
    """A file of specs/ or proofs/: its definitions, and its scope."""

    def __init__(self, path, text=None):
        """Takes in the text of a file, or this one in its place."""
        self.path, self.module = path, path[len("crates/"):-len(".antt")].replace("/", ".")
        self.text = text_of(path) if text is None else text
        self.code = IMPORT.sub(lambda it: "\n" * it[0].count("\n"), self.text)
        self.scope, self.definitions = Scope(self.text), []

    def read(self):
        """Finds the definitions: each begins at the margin, of the file or of a block `module _`, and ends before the next one or a comment there, but goes on where an equation of it follows that."""
        current, margin, around = None, 0, ""
        for number, line in enumerate(self.code.split("\n"), 1):
            code, indent = COMMENT.sub("", line).rstrip(), len(line) - len(line.lstrip())
            if code and indent == 0:
                margin, around = (2, code) if code.startswith("module _") else (0, "")
            elif around and not around.endswith(" where"):
                around += "\n" + code
                continue
            if indent <= margin and line.strip().startswith(("--", "infix", "pub mod", "module _")):
                current = None
                continue
            if not code:
                continue
            begun = (DEFINED.match(code, margin) or PROVED.match(code, margin)) if indent == margin else None
            if begun:
                current = Definition((self.module, begun[1]), self.path, number, begun.re is PROVED, around)
                self.definitions.append(current)
                self.scope.define(begun[1], current.name)
            elif not current and indent == margin and self.definitions and code[margin:].startswith(self.definitions[-1].name[1] + " "):
                # (an equation behind a comment of its own)
                current = self.definitions[-1]
            if current:
                current.lines.append(code[margin:])
        for name, _ in self.constructors():
            self.scope.define(name[1], name)
        for it in self.definitions:
            it.says = self.said_by(it)
        return self

    def constructors(self):
        """Yields the constructors' names, each with its data's."""
        for it in self.definitions:
            for line in it.lines[1:] if "data " in it.lines[0] else ():
                if re.match(r"  \S", line):
                    yield (self.module, line.split()[0]), it.name

    def said_by(self, definition):
        """Returns the names that a definition says, part by part, each with the words that its left side binds."""
        own, chunks, is_cases = definition.name[1], [], definition.name in CASES
        for line in definition.lines:
            if not chunks or line.split(" ")[0] == own or is_cases and re.match(r"  \S", line):
                chunks.append([])
            chunks[-1].append(line)
        around = self.scope.words_said(definition.around)
        for lines in chunks:
            text = "\n".join(lines)
            is_equation = text.split(" ")[0] == own and not text.startswith(f"{own} :")
            left = re.split(r"\s=(?:\s|$)", text)[0] if is_equation else text.split()[0] if is_cases and definition.parts else ""
            hidden = bound_words(text).union(re.findall(r"(?<![\w.'])[a-z][\w']*(?![\w.'])", left))
            words = around + self.scope.words_said(text, hidden - {own})
            definition.parts.append(Part(len(lines), self.scope.says(left), words, {name for _, name in words}))
        return set().union(*(it.says for it in definition.parts)) - {definition.name}


class Source:
    """A file of src/: its entries, without those of tests."""

    def __init__(self, path):
        """Takes in the text of a file."""
        parts = path[len("crates/"):-len(".rt")].split("/")
        self.path, self.crate, self.module = path, parts[0], ".".join(parts[2:])
        self.code = blanked(text_of(path))
        self.entries, self.crates = [], {}
        self.named = {" ".join(of.split()): name for name, of in NAMED.findall(self.code)}

    def read(self):
        """Finds the entries."""
        self.block(items_of(self.code), Scope(""), "", False)
        return self

    def block(self, items, above, inside, in_trait):
        """Reads the items of the file, an impl or a trait."""
        found = [it for it in items if not it.is_test]
        scope = Scope("\n".join(self.code[it.start:it.stop] for it in found if it.kind == "ghost use"), above)
        for it in found:
            text = self.code[it.start:it.braces[-1][0] if it.braces and it.kind != "use" else it.stop]
            if it.kind == "use":
                crate, _, words = re.sub(r".*\buse ", "", text).partition("::")
                self.crates.update({word: self.crate if crate == "crate" else crate for word in re.findall(r"\b[A-Z]\w*", words)})
            elif it.kind in ("fn", "ghost", "struct", "enum", "trait") or it.kind == "type" and not inside:
                self.entries.append(self.entry(it, scope, inside, in_trait))
            if it.kind in ("impl", "trait"):
                scope.traits = {**scope.traits, **dict(BOUND.findall(text))} if it.kind == "impl" else {"Self": it.name}
                self.block(it.items, scope, self.owner(text) if it.kind == "impl" else it.name, it.kind == "trait")
                scope.traits = {}

    def owner(self, head):
        """Returns the type of the head of an impl, by the name that the file gives it, or `Trait for Type`."""
        plain = re.sub(r"<[^<>]*(?:<[^<>]*>[^<>]*)*>", "", head).partition("where")[0]
        of = " ".join(re.sub(r"^impl(?:<[^<>]*>)?", "", head).split())
        return self.named.get(of, " ".join(plain.split()[1:]))

    def clauses(self, item, scope, signature):
        """Returns the clauses of an item, with what they say."""
        bound, traits = set(re.findall(r"(\w+):", signature)), {**scope.traits, **dict(BOUND.findall(signature))}
        clauses, before = [], item.start
        for start, close, is_said in item.braces:
            if is_said and item.kind in ("fn", "ghost"):
                text, word = self.code[start:close], CLAUSE.search(self.code, before, start)
                words = scope.words_said(text, bound_words(text) | bound)
                members = {(traits[it], member) for it, member in MEMBER.findall(text) if it in traits}
                clauses.append(Clause(word[1] if word else "", word[2] or "" if word else "", (start, close), words, members))
            before = close
        return clauses

    def entry(self, item, scope, inside, in_trait):
        """Returns a function, a type or a ghost member."""
        signature = self.code[item.start:item.first] if item.kind == "fn" else ""
        clauses = self.clauses(item, scope, signature)
        said = {name for it in clauses for _, name in it.words}
        held = {"struct": PUBLIC_FIELD, "enum": HELD_TYPE, "type": NAMED_TYPE}.get(item.kind)
        text = " ".join(held.findall(self.code, item.named, item.stop)) if held else f"{inside} {signature}" if signature else ""
        types = {(self.crates.get(it, self.crate), it) for it in re.findall(r"\b[A-Z]\w*", text)}
        place = (item.start, item.first if item.kind == "fn" else item.stop)
        return Entry(self.path, place, self.crate, self.module, item.kind, item.name, item.is_public, inside, in_trait, clauses, said, types)


def said_in(path):
    """Returns all names that a file of src/, specs/ or proofs/ says anywhere."""
    if path.endswith(".rt"):
        code = Source(path).code
        return Scope(code).says(IMPORT.sub("", code))
    file = Specs(path)
    return file.scope.says(COMMENT.sub("", file.code))


class Shown:
    """What the root of a crate shows to others: modules, and words of other modules."""

    def __init__(self, crate):
        """Reads the root of a crate."""
        root = f"crates/{crate}/src/lib.rt"
        text = text_of(root) if os.path.exists(root) else ""
        self.crate = crate
        self.modules = set(re.findall(r"^pub mod (\w+);", text, re.M))
        self.words = {(module, it) for module, words in re.findall(r"^pub use (\w+)::\{?([^;}]*)\}?;", text, re.M) for it in re.findall(r"\w+", words)}

    def has(self, item):
        """Tells whether others can name an item that stands in no other."""
        # (a module within a module that is shown hands its public items on to that; C knows a function by its name, which begins with its library's)
        is_shown = item.module.partition(".")[0] in self.modules or (item.module, item.name) in self.words
        return item.is_public and (is_shown or item.kind == "fn" and item.name.startswith(f"{self.crate}_"))


def public_items(crate, items):
    """Returns those of a crate's items that others can name. All of an impl of a trait is, where both the trait and the type are shown or another crate's, but no invariant of a model."""
    shown = Shown(crate)
    own = {it.name: it for it in items if it.kind in ("struct", "enum", "trait", "type")}

    def is_public(item):
        """Tells whether others can name an item of an impl or a trait."""
        around = item.inside.split(" for ")
        is_member = item.is_public or item.in_trait or len(around) == 2 and (around[0], item.name) != ("Model", "invariant")
        return is_member and all(word not in own or shown.has(own[word]) for word in around)

    return [it for it in items if (is_public(it) if it.inside else shown.has(it))]


class Repository:
    """The definitions of specs/ by name, the items of src/, and what each name says: a definition what its text says, a type what its model says, or else the types of its public fields."""

    def __init__(self):
        """Reads all crates."""
        self.definitions, self.said, self.items, self.public, self.types, self.constructors = {}, {}, [], [], {}, {}
        self.above = dict(it for crate in crates() for path in files_of(crate, "src", ".rt") for it in ABOVE.findall(text_of(path)))
        for crate in crates():
            for file in (Specs(it).read() for it in files_of(crate, "specs", ".antt")):
                self.definitions.update({it.name: it for it in file.definitions})
                self.constructors.update(file.constructors())
            items = [it for path in files_of(crate, "src", ".rt") for it in Source(path).read().entries]
            self.items += items
            self.public += public_items(crate, items)
            self.types.update({(crate, it.name): (f"{crate}.specs.declared.{it.module}", it.name) for it in items if it.kind in ("struct", "enum", "type")})
        self.read_types()
        self.cases = {name: data for name, data in self.constructors.items() if data in CASES}
        self.parts = {name: [Part(0, set(), [], says)] for name, says in [*self.said.items(), *((it, {data}) for it, data in self.constructors.items())]}
        self.parts.update({name: it.parts for name, it in self.definitions.items() if not it.is_proof})

    def says(self, item, clause="", impls=()):
        """Returns the names that an item says, or its clauses of this name alone with its signature. A member of a trait that it says through a type parameter counts as what the trait says of it and its impls do: those for these types, where the trait has some of them, else all."""
        chosen = [it for it in item.clauses if not clause or it.name == clause]
        own = {name for it in chosen for _, name in it.words}
        others = {name for it in item.clauses for _, name in it.words}
        found = item.says if not clause else own | (item.says - others)
        for trait, member in set().union(*(it.members for it in chosen)):
            trait = self.having(trait, member)
            if trait not in TOLD_APART:
                found = found | self.member(trait, member, impls)
        return found

    def having(self, trait, member):
        """Returns the trait that has a member: this one, or the one that it asks for."""
        while trait in self.above and not any(it.in_trait and (it.inside, it.kind, it.name) == (trait, "ghost", member) for it in self.items):
            trait = self.above[trait]
        return trait

    def member(self, trait, member, impls):
        """Returns the names that a member of a trait stands for."""
        of = [it for it in self.items if it.kind == "ghost" and it.name == member]
        in_impls = [it for it in of if it.inside.startswith(f"{trait} for ")]
        chosen = [it for it in in_impls if it.inside in impls] or ([] if trait in OF_EMBEDDERS else in_impls)
        return set().union(*(it.says for it in chosen), *(it.says for it in of if it.in_trait and it.inside == trait))

    def read_types(self):
        """Adds to what items say the types of their signatures and fields: of the crate that the source names, or of the lowest one, where that has them from below."""
        lowest = {word: name for (_, word), name in reversed(self.types.items())}
        for it in self.items:
            for crate, word in it.types:
                name = self.types.get((crate, word)) or (lowest.get(word) if crate in crates() and crate != it.crate else None)
                it.says |= {name} if name else set()
            if it.kind in ("struct", "enum", "type"):
                self.said[self.types[it.crate, it.name]] = it.says
        for it in self.items:
            trait, _, of = it.inside.partition(" for ")
            if trait == "Model" and it.name == "Value":
                self.said[self.types[it.crate, of]] = set()
        for it in self.items:
            trait, _, of = it.inside.partition(" for ")
            if trait == "Model" and it.name in ("Value", "view"):
                self.said[self.types[it.crate, of]] |= it.says

    def reach(self, names, any_of=CASES):
        """Returns the names that one comes to from these, without proofs, each with how many of its lines count. What is for a constructor of CASES counts where something says that, or it is of these data, or nothing says any of its data."""
        found, waiting, new = {}, [], set(names)
        while new:
            found.update(dict.fromkeys(new, 0))
            parts, waiting, new = waiting + [(it, part) for it in new for part in self.parts.get(it, ())], [], set()
            for name, part in parts:
                if all(it in found or self.cases[it] in any_of for it in part.left & self.cases.keys()):
                    found[name] += part.length
                    new |= part.says
                else:
                    waiting.append((name, part))
            new -= found.keys()
        unsaid = {it for it in CASES if it in found} - {self.cases.get(it) for it in found} - {*any_of}
        if unsaid:
            return self.reach(names, unsaid.union(any_of))
        return {it: lines for it, lines in found.items() if it not in self.constructors and (lines or it not in self.definitions)}
