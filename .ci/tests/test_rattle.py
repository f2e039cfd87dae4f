"""Tries the parser of Rattle: items, their clauses and bodies, and the prover's names of functions."""

import json
import unittest

from shared import repository

import rattle

# The prover's name for a function `call` of an impl with this head, in src/place.rt.
HEADS = {
    "impl Env": "place::Env",
    "impl<'a> Line<'a>": "place::Line",
    "impl<S: Steps> Env<S>": "place::Env",
    "impl<'a, S: Steps> Region<'a, S>": "place::Region",
    "impl Steps for Plain": "place::PlainSteps",
    "impl<C: Cells<P>, P: Copy> Steps for StepsOver<C, P>": "place::StepsOverSteps",
    "impl<S: Steps> Board<S> for Notes<'_, ()>": "place::NotesUnitBoard",
    "impl<Q: Site, const LAST: u32> Board<RoomSteps<'_, LAST>> for Notes<'_, Told<Q>>": "place::NotesToldBoardRoomSteps",
    "impl<'r, const LAST: u32> Cells<&'r Room<LAST>> for RoomCells<'r>": "place::RoomCellsCellsRefRoom",
    "impl<const LAST: u32> Cells<()> for PlainCells<LAST>": "place::PlainCellsCellsUnit",
    "impl<S: Steps, N: NativeCaller<S>> NativeInterface<S> for N": "place::AnyNativeInterface",
    "impl<const LAST: u32> StepsOver<PlainCells<LAST>, ()>": "place::StepsOver+PlainCells+LAST+unit",
    "impl From<Reason> for Trouble": "place::TroubleFromReason",
    "impl fmt::Display for Trouble": "place::TroubleDisplay",
    "impl Number for i64": "place::I64Number",
    "impl Words for Vec<u64>": "place::VecU64Words",
    "pub trait Cells<P>": "place::Cells",
    "pub trait NativeInterface<S: Steps>: NativeCaller<S>": "place::NativeInterface",
}
# Those that are told where the prover's names are not at hand.
PLAIN = ("impl Env", "impl<'a> Line<'a>", "impl Steps for Plain", "impl From<Reason> for Trouble", "impl fmt::Display for Trouble", "impl Number for i64", "pub trait Cells<P>")
TEXT = """//! A file with { a brace in a comment.

/// A call.
#[tactic(auto)]
pub(crate) const fn call<'a>(it: &'a [u8; 2]) -> u8
    requires { it.now ≡ x }
    ensures named { result ≡ Err E }
    ensures* { other }
{
    let text = "}";
    fn inner() -> u8 { 1 }
    1
}

pub struct Pair { pub one: u8, two: u8 }

impl Model for Pair {
    ghost Value: { ℕ };
}

mod within {
    pub fn call();
    pub fn held() { }
}

#[cfg(test)]
mod tests {
    fn tried() { }
}
"""


def crate(text, path="src/place.rt"):
    """Returns the files of a repository with one crate, of one file."""
    return {"crates.txt": "low:\n", f"crates/low/{path}": text}


class Items(unittest.TestCase):
    """Items of a file."""

    def setUp(self):
        self.code = rattle.blanked(TEXT)
        self.items = rattle.items_of(self.code)

    def test_each_item_has_its_kind_and_name(self):
        wanted = [("fn", "call"), ("struct", "Pair"), ("impl", "Model"), ("mod", "within"), ("mod", "tests")]
        self.assertEqual([(it.kind, it.name) for it in self.items], wanted)
        self.assertEqual([it.is_public for it in self.items], [False, True, False, False, False])
        self.assertEqual([it.is_test for it in self.items], [False] * 4 + [True])

    def test_a_clause_is_no_body(self):
        call = self.items[0]
        self.assertEqual([is_said for *_, is_said in call.braces], [True, True, True, False])
        self.assertTrue(self.code[slice(*call.body)].startswith("{\n    let text"))
        self.assertEqual(TEXT[call.stop - 7:call.stop], "    1\n}")

    def test_an_impl_and_a_module_have_items(self):
        self.assertEqual([it.kind for it in self.items[2].items], ["ghost"])
        self.assertEqual([(it.name, bool(it.body)) for it in self.items[3].items], [("call", False), ("held", True)])

    def test_functions_are_found_with_what_they_stand_in(self):
        ways = [[it.name for it in way] for way in rattle.ways_to(self.items)]
        self.assertEqual(ways, [["call"], ["within", "call"], ["within", "held"], ["tests", "tried"]])

    def test_all_is_read(self):
        self.assertIsNone(rattle.unread(self.code, self.items))
        for text in ("fn one() {}\nmacro! {}\nfn two() {}\n", "impl One {\n    fn one() {}\n    macro! {}\n}\n"):
            self.assertEqual(rattle.unread(text, rattle.items_of(text)), text.index("macro"))


class Names(unittest.TestCase):
    """The prover's names of functions."""

    def test_a_method_has_the_name_that_the_prover_gives_it(self):
        known = [f"low::{name}::call" for name in HEADS.values()]
        for head, name in HEADS.items():
            with self.subTest(head), repository(crate(f"{head} {{\n    fn call() {{ 1 }}\n}}\n")):
                self.assertEqual([*rattle.Functions("low", known).places], [f"low::{name}::call"])

    def test_a_plain_name_is_told_where_the_prover_has_none_yet(self):
        for head, name in HEADS.items():
            with self.subTest(head), repository(crate(f"{head} {{\n    fn call() {{ 1 }}\n}}\n")):
                self.assertEqual([*rattle.Functions("low").places], [f"low::{name}::call"] if head in PLAIN and "<P>" not in head else [])

    def test_a_types_own_method_stands_in_the_module_of_the_type(self):
        with repository(crate("impl<S: Steps> Env<S> {\n    fn call() { 1 }\n}\n")):
            self.assertEqual([*rattle.Functions("low", ["low::env::Env::call"]).places], ["low::env::Env::call"])
            self.assertEqual([*rattle.Functions("low", ["low::env::EnvSteps::call"]).places], [])
        declared = {"crates/low/src/env.rt": "mod held {\n    pub struct Env { at: u8 }\n}\n"}
        with repository({**crate("impl Env {\n    fn call() { 1 }\n}\nimpl Steps for Env {\n    fn call() { 1 }\n}\n"), **declared}):
            self.assertEqual([*rattle.Functions("low").places], ["low::env::held::Env::call", "low::place::EnvSteps::call"])

    def test_a_function_the_prover_lacks_has_no_name(self):
        with repository(crate("fn one() { 1 }\nfn two() { 2 }\n", "src/lib.rt")):
            known = rattle.Functions("low", ["low::one", "low::other::two"])
            self.assertEqual(([*known.places], known.at("src/lib.rt", 20, 21)[0]), (["low::one"], None))

    def test_tests_are_left_out(self):
        root = "#[cfg(test)]\nmod words;\nfn one() { 1 }\n#[cfg(test)]\nmod tests {\n    fn two() { 2 }\n}\n"
        with repository({**crate(root, "src/lib.rt"), "crates/low/src/words.rt": "fn three() { 3 }\n"}):
            self.assertEqual([*rattle.Functions("low").places], ["low::one"])

    def test_names_are_those_of_the_library_and_of_kept_checks(self):
        kept = "crates/low/out/incremental/kit/Rattle-low-proofs.place.PlainSteps.go.Statement.oantt"
        built = {"crates/low/out/rlib/low.rlib/toolchain/mir.json": json.dumps([["low::one", {}]]) + "\n", kept: ""}
        with repository({**crate(""), **built}):
            self.assertEqual(rattle.known_to_the_prover("low"), {"low::one", "low::place::PlainSteps::go"})

    def test_a_place_in_a_body_leads_to_its_function(self):
        with repository(crate(TEXT)):
            known = rattle.Functions("low")
            self.assertEqual(known.at("src/place.rt", TEXT.index("    1\n}"), TEXT.index("    1\n}") + 5)[0], "low::place::call")
            self.assertEqual(known.at("src/place.rt", TEXT.index("named"), TEXT.index("named") + 5), (None, ()))
            file, way = known.places["low::place::call"]
            self.assertEqual(file.lines(way[0].start, way[0].stop), (4, 13))


class Crates(unittest.TestCase):
    """The list of crates."""

    def test_libraries_of_crates(self):
        with repository({"crates.txt": "# a comment\nlow: arrayvec\nmiddle may_wait=3: low\nhigh: middle  # a word\n"}):
            listed = rattle.libraries()
            self.assertEqual(listed, {"low": ["arrayvec"], "middle": ["low"], "high": ["middle"]})
            self.assertEqual(rattle.reached("high", listed), ["middle", "low"])
