"""Tries .ci/check-habits: what it finds on pages and in sources."""

import unittest

from shared import repository, script

PAGE = """# A page

`Taken` and `place` are here, and `src/place.rt`, `place.rt`, `jr_word/src`, `..lace.rt` and `../crates.txt`; `Gone` and `src/gone.rt` are not.
A word of a clause: `Taken x gone_too ≡ y`. A plain word in it is not looked up: `Taken x gone`.

```rust
`FencedGone`
```
"""
SOURCE = """//! A place.

/// A call.
pub fn place(it: Taken) {
    one();
    it.push(1);
}

pub struct Taken {}

#[cfg(test)]
mod tests {
    fn tried() {
        it.push(1);
    }
}
"""
FILES = {"crates.txt": "jr_word:\njr_env: jr_word\n", "README.md": PAGE, "crates/jr_word/src/place.rt": SOURCE, "crates/jr_word/src/owner.rt": "fn own(it: Vec<u8>) {}\n"}


# A repository in which much is wrong.
WRONG = {
    "crates.txt": "jr_word:\njr_env: jr_word\n", "HANDLES": "Handles allowed: none.\n", "README.md": "a" * 12_289, ".ci/run": "true\n",
    "crates/jr_word/src/lib.rt": "pub fn one() {}\n", "crates/jr_env/src/lib.rt": "#![tactic(auto)]\npub fn two() {}\n",
    "crates/jr_env/must-fail/it.edit": "", ".ci/edits/jr_none/src/lib.rt.edit": "", "crates/jr_word/README.md": "# A word\n", "crates/jr_word/out/it": "",
    "crates/jr_rule/src/row.rt": "struct Row {\n    pub table: Table,\n}\n// .peek\nlet found = table.peek(0);\n", "crates/jr_rule/src/over.rt": "use atomic_table::Table;\n",
    "crates/jr_word/specs/One.antt": "abbrev pub same : Type 0\nsame = Unit\n", "crates/jr_word/specs/Two.antt": "-- two\nabbrev pub same : Type 0\nsame = Unit\n",
}
FOUND = {
    "basics": ("HANDLES: must be", "docs/DECISIONS.md: missing", "docs/ARCHITECTURE.md: missing", ".ci/run: does not call .ci/prove", "crates/jr_word/out/it: is not"),
    "edits": (".ci/edits/jr_none/src/lib.rt.edit: crates.txt has no", "crates/jr_env/must-fail/it.edit: is to be a line", "crates/jr_word/src/lib.rt: lacks the line", "crates/jr_word: 1 public", "crates/jr_env: 1 public", "crates/jr_env/must-fail: an edit"),
    "table": ("crates/jr_rule/src/row.rt:2: the field", "crates/jr_rule/src/row.rt:5: an operation that takes no seat", "crates/jr_rule/src/over.rt:1: names `Table`"),
    "pages": ("README.md: 12289 bytes", "crates/jr_word/README.md: 1 lines", "crates/jr_word/README.md: has not", "crates/jr_env/README.md: missing"),
}


class Habits(unittest.TestCase):
    """Findings in a small repository."""

    def setUp(self):
        self.habits, self.paths = script("check-habits"), [*FILES]

    def found(self, by, *words):
        """Returns what a part of the script finds in the repository."""
        with repository(FILES):
            return [*by(*words)]

    def test_names_in_backticks_that_are_not_there(self):
        found = self.found(self.habits.names, self.paths)
        self.assertEqual([it.partition("`")[2].partition("`")[0] for it in found], ["Gone", "src/gone.rt", "gone_too"])
        self.assertEqual({it.split(":")[1] for it in found}, {"3", "4"})

    def test_pages_with_long_sentences(self):
        with repository({"A.md": "# A\n\n" + "word " * 31 + "end.\n", "B.md": "# B\n\n| " + "x" * 700 + " |\n\n" + "`y y y` " * 20 + "end.\n", "C.md": "# C\n\n" + "y" * 601 + "\n"}):
            found = {path: [*self.habits.sentences(path)] for path in ("A.md", "B.md", "C.md")}
        self.assertEqual(found, {"A.md": ["A.md: a tenth of its sentences have 32 words and more (30 at the most)"], "B.md": [], "C.md": ["C.md: a line has 601 bytes (600 at the most): break it at its sentences, or make a list of it"]})

    def test_long_lines_of_proofs(self):
        path = "crates/jr_word/proofs/One.antt"
        with repository({path: "-- " + "→" * 117 + "\n-- " + "→" * 118 + "\nuse One.{" + "a, " * 40 + "a}\n"}):
            found = [*self.habits.long_lines(path)]
        self.assertEqual([it.partition(" (")[0] for it in found], [f"{path}:2: a line has 121 characters", f"{path}:3: a line has 131 characters"])

    def test_long_lines_of_sources(self):
        path = "crates/jr_word/src/one.rt"
        with repository({path: "/// " + "a" * 196 + "\n/// " + "a" * 197 + '\n    b"' + "a" * 200 + '",\n'}):
            found = [*self.habits.long_lines(path)]
        self.assertEqual([it.partition(" (")[0] for it in found], [f"{path}:2: a line has 201 characters"])

    def test_functions_that_take_memory(self):
        found = self.found(self.habits.takers, self.paths)
        self.assertEqual(len(found), 1)
        self.assertTrue(found[0].startswith("crates/jr_word/src/place.rt:4: place takes memory ('.push(')"))

    def test_long_bodies(self):
        self.habits.MOST_LINES_OF_A_BODY = 1
        self.assertEqual(self.found(self.habits.long_bodies, self.paths[2]), ["crates/jr_word/src/place.rt:4: the body of place has 2 lines (1 at the most)"])

    def test_functions_with_many_parameters(self):
        eight = "pub fn eight<'a, T: Fn(u8, u8) -> u8, const N: usize>(\n    a: T,\n    (b, c): (u8, u8),\n    d: [u8; N],\n" + "".join(f"    {it}: &'a u8,\n" for it in "efghi") + ") -> (u8, u8)\n    requires { a }\n{}\n"
        method = "trait One {\n    fn seven(&self, a: A<B, C>, c: u8, d: u8, e: u8, f: u8, g: u8) -> (u8, u8);\n    fn none() {}\n}\n"
        path = "crates/jr_word/src/one.rt"
        with repository({path: method + eight}):
            found = [*self.habits.many_parameters(path)]
        self.assertEqual(found, [f"{path}:5: eight has 8 parameters (7 at the most): make a struct of those that go together"])

    def test_what_has_no_sentence(self):
        self.assertEqual(self.found(self.habits.without_sentence, self.paths[2]), ["crates/jr_word/src/place.rt:9: lacks a sentence (`///`): pub struct Taken {}"])

    def test_what_the_scripts_cannot_read(self):
        files = {"crates.txt": "", "crates/jr_word/src/lib.rt": "fn one() {}\n\nmacro! {}\n"}
        with repository(files):
            found = [*self.habits.unread_parts("crates/jr_word/src/lib.rt")]
        self.assertEqual(found, ["crates/jr_word/src/lib.rt:3: .ci/rattle.py can't read on from here: macro! {}"])

    def test_links_that_lead_nowhere(self):
        pages = {"README.md": "# One\n\n[a](#one) [b](#two) [c](two.md) [d](https://example.org) `[e](gone)` <a id=\"three\"></a> [f](#three)\n"}
        with repository(pages):
            found = [*self.habits.links([*pages])]
        self.assertEqual([it.split(": ")[1] for it in found], ["a link to 'two' of README.md, which has no such heading", "a link to two.md, which is no file here"])

    def test_the_page_of_calls_is_looked_at_where_it_was_made_and_not_linked_to(self):
        pages = {"README.md": "# One\n\n[a](docs/REFERENCE.md) `docs/REFERENCE.md`\n", "docs/REFERENCE.md": "# Calls\n\n[a](#calls) `gone_now`\n"}
        with repository(pages):
            paths = self.habits.files()
            self.assertEqual(sorted(paths), sorted(pages))
            self.assertEqual([*self.habits.links(paths)], ["README.md:3: a link to docs/REFERENCE.md, which is no file here"])
            self.assertEqual([*self.habits.names(paths)], ["docs/REFERENCE.md:3: `gone_now` is the name of nothing here"])

    def test_what_is_wrong_in_many_places(self):
        with repository(WRONG):
            for part, wanted in FOUND.items():
                found = [*getattr(self.habits, part)([*WRONG])]
                self.assertEqual(len(found), len(wanted), found)
                for told, begins in zip(sorted(found), sorted(wanted)):
                    self.assertTrue(told.startswith(begins), told)
            self.assertEqual(len([*self.habits.without_head("crates/jr_word/specs/One.antt"), *self.habits.without_head("crates/jr_word/specs/Two.antt")]), 1)

    def test_definitions_that_are_doubled_or_of_no_use(self):
        with repository(WRONG):
            found = self.habits.Repository()
            definitions = [*found.definitions.values()]
            self.assertEqual(len([*self.habits.doubled(definitions)]), 1)
            self.assertEqual(len([*self.habits.unreached(found, definitions)]), 2)

    def test_folders_with_too_many_files(self):
        many = [f"{folder}/{number}" for folder, last in (("proofs", 41), ("specs", 40)) for number in range(last)]
        self.assertEqual([*self.habits.folders(many)], ["proofs: 41 files (40 at the most)"])

    def test_labels_of_papers(self):
        with repository({"page.md": f"by T{5}\nby rule\n"}):
            self.assertEqual([it.split(":")[1] for it in self.habits.labels("page.md")], ["1"])
