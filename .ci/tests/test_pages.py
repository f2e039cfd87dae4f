"""Tries what makes pages: what sources and definitions say, and the pages of a small repository."""

import os
import unittest
from unittest import mock

from shared import CI, repository, script

from layers import layers
from pages import anchor
from rattle import libraries
from reading import Repository, Specs

SPECS = """-- what is
-- believed

-- a pair
pub record Pair : Type 0 where
  pub one : ℕ

-- one and the other of it
abbrev pub same : Pair → Pair → Type 0
same a b = a ≡ b
abbrev pub held : Pair → Type 0
held a = same a a

pub same_self : (a : Pair) → same a a
same_self a = refl
"""
SOURCE = """//! Calls.

ghost use Rattle.jr_word.specs.Words.{held, same};

/// A kind of words.
pub struct Kind { pub code: u8 }

/// What is asked of a kind.
pub trait Asks {
    ghost Asked: { held };
}

impl Asks for Kind {
    ghost Asked: { same };
}

/// Gives a kind.
///
/// # Errors
///
/// E2 where there is none.
///
/// Nothing has changed then.
pub fn kind_of<A: Asks>(code: u8) -> Result<Kind, Fault>
    requires asked { A.Asked code }
    ensures held { held result }
{
    Ok(Kind { code })
}
"""
FAULTS = """/// A fault.
pub enum Fault {
    /// A handle is malformed.
    ///
    /// Nothing can be done.
    #[error("E2")]
    Malformed,
}
"""
FILES = {
    "crates.txt": "jr_word:\n",
    "crates/jr_word/specs/Lib.antt": "pub mod Words\n",
    "crates/jr_word/specs/Words.antt": SPECS,
    "crates/jr_word/src/lib.rt": "#![tactic(auto)]\npub mod kind;\npub mod fault;\n",
    "crates/jr_word/src/kind.rt": SOURCE,
    "crates/jr_word/src/fault.rt": FAULTS,
    "docs/DEFINITIONS.md": "By hand: `Words.antt` (`held`, `gone`).\n",
}
CALL = """
    /// Deletes a reference.
    ///
    /// # Errors
    ///
    /// %sE2 where there is none.
    ///
    /// Nothing has changed then.
    ///
    /// # Operations
    ///
    /// %s.
    pub fn delete(&mut self) -> Result<(), Fault>
        ensures call { held result }
    {
        Ok(())
    }
"""
BARRED = "E13 where a thread is collecting at the entry, or has announced that it will; "
STAYS = {
    "crates.txt": "jr_word:\njr_env: jr_word\n",
    "crates/jr_env/src/lib.rt": "#![tactic(auto)]\npub mod env;\npub mod stay;\n",
    "crates/jr_env/src/env.rt": f"//! Env.\n\n/// An env.\npub struct Env {{}}\n\nimpl Env {{{CALL % (BARRED, 'Three')}}}\n",
    "crates/jr_env/src/stay.rt": f"//! Stay.\n\n/// A stay.\npub struct Stay {{}}\n\nimpl Stay {{{CALL % ('', 'One')}}}\n",
}
PROGRAMS = """-- programs
pub data Ending : Type 0 where
  types : Ending
  pops : ℕ → Ending
abbrev pub typing : ℕ
typing = 1
abbrev pub popping : ℕ → ℕ
popping n = n
abbrev pub ended : Ending → ℕ
ended types = typing
ended (pops n) = popping n
"""
READING = "ghost use Rattle.jr_model.specs.Programs.{ended, types};\npub trait NativeCall {\n    ghost request: { types };\n}\n"
CALLS = {
    "crates.txt": "jr_model:\n",
    "crates/jr_model/specs/Programs.antt": PROGRAMS,
    "crates/jr_model/src/lib.rt": "pub mod calls;\n",
    "crates/jr_model/src/calls.rt": READING + "".join(f"pub fn c{it}<C: NativeCall>(c: C)\n    ensures {{ ended {said} }}\n{{\n}}\n" for it, said in enumerate(("types", "(C.request c)", "c"))),
}
WORDS = "jr_word.specs.Words"


class Sources(unittest.TestCase):
    """What definitions and items say."""

    def setUp(self):
        with repository(FILES):
            self.repository = Repository()
        self.entries = {(it.inside, it.name): it for it in self.repository.items}

    def test_definitions_say_what_they_name(self):
        definitions = {name[1]: it for name, it in self.repository.definitions.items()}
        self.assertEqual([*definitions], ["Pair", "same", "held", "same_self"])
        self.assertEqual([len(it.lines) for it in definitions.values()], [2, 2, 2, 2])
        self.assertEqual(definitions["held"].says, {(WORDS, "Pair"), (WORDS, "same")})
        self.assertTrue(definitions["same_self"].is_proof)

    def test_definitions_go_on_over_lines(self):
        text = "-- what is\n\nmodule _ (a : Pair)\n    (b : same a a) where\n  -- a way\n  pub data Way : Pair → Type 0 where\n    left : (c : Pair)\n        → Way c\n    right : Way a\n"
        with repository({**FILES, "crates/jr_word/specs/Ways.antt": "use Rattle.jr_word.specs.Words.{Pair, same}\n" + text}):
            file = Specs("crates/jr_word/specs/Ways.antt").read()
        self.assertEqual([(it.name[1], len(it.lines)) for it in file.definitions], [("Way", 4)])
        self.assertEqual(file.definitions[0].says, {(WORDS, "Pair"), (WORDS, "same")})
        self.assertEqual([word for (_, word), _ in file.constructors()], ["left", "right"])

    def test_items_have_their_clauses(self):
        call = self.entries["", "kind_of"]
        self.assertEqual([(it.kind, it.name) for it in call.clauses], [("requires", "asked"), ("ensures", "held")])
        self.assertEqual(call.clauses[0].members, {("Asks", "Asked")})
        self.assertIn(("Asks for Kind", "Asked"), self.entries)

    def test_members_of_traits_count_as_what_impls_say(self):
        call = self.entries["", "kind_of"]
        self.assertIn((WORDS, "held"), self.repository.says(call))
        self.assertIn((WORDS, "same"), self.repository.says(call, "asked"))

    def test_what_is_reached_leaves_proofs_out(self):
        reached = self.repository.reach({(WORDS, "held"), (WORDS, "same_self")})
        self.assertEqual(reached, {(WORDS, "held"): 2, (WORDS, "same"): 2, (WORDS, "Pair"): 2})

    def test_what_is_public(self):
        self.assertEqual(sorted(it.name for it in self.repository.public if it.kind in ("fn", "struct", "trait")), ["Asks", "Kind", "kind_of"])


class Pages(unittest.TestCase):
    """The pages of a small repository."""

    def test_definitions(self):
        with repository(FILES):
            comments = script("definitions").Comments(Repository())
            self.assertEqual([*comments.lost()], ["docs/DEFINITIONS.md:1: Words.antt has no definition `gone`"])
            of_file, of_name = [*comments.told_of("Words.antt")], [*comments.told_of("held")]
        self.assertEqual(of_file, ["crates/jr_word/specs/Words.antt: what is believed", "  Pair: a pair", "  same, held: one and the other of it"])
        self.assertEqual(of_name, ["crates/jr_word/specs/Words.antt:11: one and the other of it", "    abbrev pub held : Pair → Type 0", "    held a = same a a"])

    def test_reference_of_a_call(self):
        with repository(FILES):
            reference = script("reference")
            page = reference.Page(Repository())
            call = page.calls["jr_word", "", "kind_of"]
            lines = [*page.call(call)]
            page.look_at(call, page.said(call))
        self.assertEqual(lines[1:4], ["### `kind_of`", "", "`<A: Asks>(code: u8) -> Result<Kind, Fault>`"])
        self.assertIn("- **Refused** E2: there is none.", lines)
        self.assertIn("- **Asks**: asked: `A.Asked code`.", lines)
        self.assertEqual(page.faults, ["crates/jr_word/src/kind.rt: the `///` of kind_of says E2 under `# Errors`, and the contract nothing"])

    def test_reference_of_a_trait(self):
        job = "crates/jr_word/src/job.rt"
        text = "//! Jobs.\n\n/// A job.\npub trait Job {\n    /// What it answers.\n    type Answer: Drop;\n\n    /// How often it is done.\n    const TIMES: usize = 2;\n\n    /// Who does it.\n    const WHO: u8;\n}\n"
        with repository({**FILES, "crates/jr_word/src/lib.rt": FILES["crates/jr_word/src/lib.rt"] + "pub mod job;\n", job: text}):
            lines = [*script("reference").Page(Repository()).type_of("type jr_word Job")]
        self.assertEqual(lines[-3:], ["- `type Answer: Drop`: What it answers.", "- `const TIMES: usize = 2`: How often it is done.", "- `const WHO: u8`: Who does it."])

    def test_reference_of_a_call_in_a_stay(self):
        with repository({**FILES, **STAYS}):
            page = script("reference").Page(Repository())
            env, stay = (page.calls["jr_env", it, "delete"] for it in ("Env", "Stay"))
            self.assertEqual((page.outside(env), page.outside(stay)), (None, env))
            lines = [*page.calls_of([stay], False)]
        self.assertEqual(lines[1:], ["| Call of an env | Refused in a stay | Clauses of [jr_env/stay](../crates/jr_env/src/stay.rt), beside `call` |", "|---|---|---|", "| [`Env::delete`](#envdelete) | E2 |  |"])

    def test_a_call_in_a_stay_that_says_other_refusals_is_told_by_itself(self):
        other = {**STAYS, "crates/jr_env/src/stay.rt": STAYS["crates/jr_env/src/stay.rt"].replace("E2 where there is none", "E4 where there is none")}
        with repository({**FILES, **other}):
            page = script("reference").Page(Repository())
            self.assertEqual(page.outside(page.calls["jr_env", "Stay", "delete"]), None)

    def test_reference_by_names_alone(self):
        with repository({**FILES, **STAYS}):
            page = script("reference").Page(Repository())
            lines = [*page.names(["type jr_env Stay", "jr_env Stay: delete", "jr_word: kind_of"])]
        self.assertEqual(lines[3:], ["| [jr_env/stay](../crates/jr_env/src/stay.rt) | struct `Stay`, `Stay::delete` |", "| [jr_word/kind](../crates/jr_word/src/kind.rt) | `kind_of` |"])
        self.assertIn("crates/jr_word/src/kind.rt: the `///` of kind_of says E2 under `# Errors`, and the contract nothing", page.faults)

    def test_refusals_have_their_rows(self):
        table = {"docs/EMBEDDING.md": "| E2 | `Malformed` | a word | let it go |\n"}
        for files, faults in ((table, []), ({}, ["docs/EMBEDDING.md: its table of refusals has no row of E2, `Malformed`"])):
            with repository({**FILES, **files}):
                page = script("reference").Page(Repository())
                self.assertEqual([*page.refusals("faults")], ["", "E2 `Malformed`. ([jr_word/fault](../crates/jr_word/src/fault.rt))"])
                self.assertEqual(page.faults, faults)

    def test_plan_of_the_reference(self):
        plan = "# Reference\n(refusals)\n\n## Calls\nabout\n(calls by the names of JNI)\nlaws: one two\njr_word: kind_of\n\n## (left out)\nwhy\njr_word: Kind.of part (a part)\n"
        with repository({**FILES, ".ci/reference.txt": plan}):
            head, (chapter,), left_out = script("reference").planned()
        self.assertEqual((head, left_out), ("# Reference\n(refusals)\n", {("jr_word", "Kind", "of"), ("jr_word", "", "part")}))
        self.assertEqual((chapter.heading, chapter.about, chapter.is_by_name, chapter.laws, chapter.places), ("Calls", "about", True, ["one", "two"], ["jr_word: kind_of"]))

    def test_a_line_of_the_plan_names_types_and_calls(self):
        places_of = script("reference").places_of
        self.assertEqual(places_of("type jr_word Kind Part: of *"), ["type jr_word Kind", "type jr_word Part", "jr_word Part: of *"])
        self.assertEqual(places_of("type jr_word Kind"), ["type jr_word Kind"])
        self.assertEqual(places_of("jr_word Kind: of"), ["jr_word Kind: of"])

    def test_what_one_must_believe(self):
        with repository(FILES):
            trusted, repo = script("trusted"), Repository()
            names = repo.reach(trusted.claimed(repo, ("jr_word kind_of:held",)))
            self.assertEqual(trusted.sums(repo, names)[:3], (3, 6, 1))
            claims = trusted.each_function(repo, "jr_word", lambda it: True)
            rows = trusted.table(repo, [*claims, *claims], "Call", "Where")[2:]
            self.assertEqual(rows, ["| `kind_of` | [kind](../crates/jr_word/src/kind.rt) | 3 | 6 | 1 | 2 |", "| `kind_of` | kind | 3 | 6 | 1 | 2 |"])
            self.assertIn("6 lines (`kind_of`) to 6 (`kind_of`), and in the middle 6.", trusted.span(repo, claims))
            wanted = ["  crates/jr_word/specs/Words.antt: Pair 2, same 2, held 2", "  Rust types of jr_word: Fault, Kind"]
            self.assertEqual([*trusted.listed(repo, claims[0][2])], wanted)

    def test_calls_of_a_stay_are_counted_beside_those_of_an_env(self):
        with repository({**FILES, **STAYS}):
            trusted, repo = script("trusted"), Repository()
            claims = trusted.each_function(repo, "jr_env", lambda it: True)
            self.assertEqual([it[0] for it in trusted.beside_stays(claims)], ["`Env::delete`"])
            self.assertEqual(trusted.in_stays(repo, claims), "Each other call of a `Stay` rests on 0 to 0 lines more than the call of an env of its name. `.ci/trusted` lists them too.")

    def test_a_call_counts_of_what_reads_programs_what_its_own_needs(self):
        with repository(CALLS):
            by_cases, all_of = (script("trusted").each_function(Repository(), "jr_model", lambda it: True, (), it) for it in (True, False))
        one, any_call, any_program = ({name[1]: lines for name, lines in names.items()} for _, _, names in by_cases)
        self.assertEqual(one, {"ended": 2, "Ending": 2, "typing": 2})
        self.assertEqual(any_call, {"ended": 3, "Ending": 3, "typing": 2, "popping": 2})
        self.assertEqual((any_program, by_cases[1:]), (any_call, all_of[1:]))

    def test_links(self):
        self.assertEqual(anchor("By `law`, and call"), "by-law-and-call")


class Layers(unittest.TestCase):
    """The picture of the layers."""

    def setUp(self):
        before = os.getcwd()
        os.chdir(f"{CI}/..")
        self.addCleanup(os.chdir, before)
        self.named = libraries()

    def layers_of(self, **changed):
        """Returns the picture where some crates stand on other libraries."""
        with mock.patch("layers.libraries", lambda: {**self.named, **changed}):
            return layers()

    def test_each_crate_stands_once_and_on_no_higher_layer(self):
        boxes = [it.split() for it in self.layers_of().replace("└─", "├─").replace("╔═", "├─").split("├─")]
        layer_of = {crate: [at for at, words in enumerate(boxes) if crate in words] for crate in self.named}
        self.assertEqual([it for it, found in layer_of.items() if len(found) != 1], [])
        for crate, below in self.named.items():
            self.assertEqual([it for it in below if it in layer_of and layer_of[it] < layer_of[crate]], [], crate)

    def test_a_crate_that_is_new_comes_in_by_what_stands_on_it(self):
        text = self.layers_of(jr_new=["jr_word"], jr_gate=[*self.named["jr_gate"], "jr_new"])
        self.assertIn("jr_new", text.partition("\n  the gate")[2].partition("\n  the waist")[0])

    def test_layers_that_crates_txt_has_not_are_told(self):
        for changed in ({"jr_gate": ["jr_rule"]}, {"jrefs": [], "jr_model": ["jrefs"]}):
            with self.assertRaises(SystemExit):
                self.layers_of(**changed)
