"""Tries .ci/must-fail: that it comes to an end, tells of each edit once and as what the prover said of it, and hands the prover what it says. In the place of a check it has one that answers canned lines."""

import contextlib
import io
import os
import re
import subprocess
import sys
import unittest
from unittest import mock

from shared import repository, script

import rattle
from edits import edits_of, wrong_with

# More checks than any of the cases needs.
MOST_CHECKS = 12
# The functions of the crate that is tried, each of which answers a number, and a definition.
FUNCTIONS = ("one", "two", "three")
TEXT = "".join(f"fn {name}() -> u8 {{\n    {at}\n}}\n" for at, name in enumerate(FUNCTIONS, 10))
FILES = {"crates.txt": "low:\n", "crates/low/src/lib.rt": TEXT, "crates/low/specs/Word.antt": "bits = 16\n", ".ci/landing": "5 kit\n"}
# What the prover says of an edited function: that a goal of it is open, that all is proved, or that what it calls is not. (None stands for one that the compiler cannot read.)
REFUSED, PROVED, CALLS = "`search` did not prove the clause", "no holes", "no proof: it calls `low::one`"


def edit(function, number):
    """Returns the file of an edit, and the text of the edit, named after the function and the number that it puts there."""
    old = f"    {10 + FUNCTIONS.index(function)}" if function in FUNCTIONS else "bits = 16"
    file, new = ("src/lib.rt", f"    {number}") if function in FUNCTIONS else ("specs/Word.antt", f"bits = {number}")
    return f".ci/edits/low/{file}.edit", f"edit: {function}_{number}\nold: {old}\nnew: {new}\n"


def with_edits(*edits):
    """Returns the files of the repository with those of these edits, each of which has its edits one behind the other."""
    found = dict(FILES)
    for path, text in edits:
        found[path] = f"{found[path]}\n{text}" if path in found else text
    return found


def named(function):
    """Returns an edit of a definition that names the function whose proof it makes fail."""
    path, text = edit("Word", 3)
    return path, text.replace("\n", f"\nproof: {function}\n", 1)


class StandIn:
    """What stands in the place of the prover: the names that it does not know, those that it lacks whatever is left open, what it says of each edit, by its name, once or each time that it is asked, and how many edits it takes at once."""

    def __init__(self, unknown=(), lacks=(), says=None, most=64):
        """Begins with nothing asked."""
        self.unknown, self.lacks, self.says, self.most, self.left_open, self.sizes = unknown, lacks, says or {}, most, [], []

    def said_of(self, edit):
        """Returns what is said of an edit: of several answers the next one."""
        said = self.says.get(edit.label.partition("/")[2], REFUSED)
        return said if not isinstance(said, list) else said.pop(0) if len(said) > 1 else said[0]

    def checked(self, known, listed, edits, kept, unknown=frozenset()):
        """Answers as a check of these edits does."""
        self.sizes.append(len(edits))
        assert len(self.sizes) <= MOST_CHECKS, "it comes to no end"
        for edit in edits:
            edit.place = edit.home
        if len(edits) > self.most:
            return 137, "killed\n", 0.0
        edited = {edit.tried() for edit in edits}
        self.left_open.append(set() if None in edited else set(known.places) - edited - unknown)
        missing = {it for it in edited | self.left_open[-1] if it in {f"low::{name}" for name in self.unknown}} | {f"low::{name}" for name in self.lacks}
        lines = [f"error: the crate has no function `{it}`" for it in sorted(missing)]
        said = {edit: self.said_of(edit) for edit in edits}
        unread = [edit for edit, it in said.items() if it is None]
        lines += [f"src/lib.rt:{edit.place[1] if edit.function else 1}:9: error: expected an expression" for edit in unread]
        if not unread and not missing:
            lines += [f"fn {edit.tried() or 'low::one'}: {it}" for edit, it in said.items()] + ["only=asked"]
        return int(bool(missing or unread)), "\n".join(lines) + "\n", 0.0


def trials(module, stand_in, is_anew=True, is_proved=True):
    """Returns the trials of a module, with what stands in for the prover."""
    module.checked, module.STORE, module.ran = stand_in.checked, os.path.abspath("store"), lambda folder, *words: (0 if is_proved else 1, "")
    return module.Trials(rattle.libraries(), False, is_proved, is_anew)


def tried(edits, more=(), is_proved=True, **prover):
    """Returns what is told of the edits of a crate, and the stand-in."""
    stand_in, printed = StandIn(**prover), io.StringIO()
    with repository(with_edits(*(edit(*it) for it in edits), *more)), contextlib.redirect_stdout(printed):
        module = script("must-fail")
        for crate, its in module.chosen(["low"], rattle.libraries()).items():
            trials(module, stand_in, is_proved=is_proved).try_crate(crate, [*map(module.Edit, its)])
    told = re.findall(r"^low/(\w+): (.*)", printed.getvalue(), re.M)
    wanted = sorted(re.findall(r"^edit: (\w+)$", "".join(text for _, text in [*(edit(*it) for it in edits), *more]), re.M))
    assert sorted(name for name, _ in told) == wanted, f"not told once each: {told}"
    return dict(told), stand_in


class Checks(unittest.TestCase):
    """Edits in checks that answer canned lines."""

    def refused(self, told):
        """Looks that all edits are refused."""
        self.assertEqual(set(told.values()), {"refused"}, told)

    def test_edits_of_several_functions_and_several_of_one_are_one_check(self):
        told, prover = tried([("one", 1), ("one", 2), ("two", 3)])
        self.refused(told)
        self.assertEqual((prover.sizes, prover.left_open), ([3], [{"low::three"}]))

    def test_a_name_that_no_edit_is_of_is_left_open_once(self):
        told, prover = tried([("one", 1), ("two", 2)], unknown=("three",))
        self.refused(told)
        self.assertEqual(prover.sizes, [2, 2])
        self.assertNotIn("low::three", prover.left_open[-1])

    def test_an_edit_of_an_unknown_name_is_a_check_of_the_whole_crate(self):
        told, prover = tried([("one", 1), ("two", 2), ("two", 3)], unknown=("one",))
        self.refused(told)
        self.assertEqual((prover.sizes[0], sorted(prover.sizes[1:])), (3, [1, 2]))

    def test_a_name_that_is_never_known_is_told(self):
        told, prover = tried([("one", 1), ("two", 2)], lacks=("nowhere",))
        self.assertTrue(all("the check did not come to an end" in it for it in told.values()), told)
        self.assertFalse(prover.left_open[-1])

    def test_an_edit_that_is_still_proved_is_told(self):
        told, _ = tried([("one", 1), ("two", 2), ("three", 3)], says={"two_2": PROVED})
        self.assertTrue(told.pop("two_2").startswith("NOT REFUSED: all is still proved"))
        self.refused(told)

    def test_an_edit_that_is_not_read_costs_one_check(self):
        told, prover = tried([("one", 1), ("two", 2), ("three", 3)], says={"two_2": None})
        self.assertIn("the compiler cannot read it", told.pop("two_2"))
        self.refused(told)
        self.assertEqual(prover.sizes, [3, 2])

    def test_what_calls_an_edited_function_is_tried_once_more(self):
        told, prover = tried([("one", 1), ("two", 2)], says={"two_2": [CALLS, REFUSED]})
        self.refused(told)
        self.assertEqual(prover.sizes, [2, 1])

    def test_a_check_without_an_end_is_halved(self):
        told, prover = tried([("one", 1), ("two", 2), ("three", 3)], most=1)
        self.refused(told)
        self.assertEqual(prover.sizes, [3, 1, 2, 1, 1])

    def test_an_edit_of_two_functions_is_a_check_of_the_whole_crate(self):
        told, prover = tried([("Word", 3)], [(".ci/edits/low/src/lib.rt.edit", "edit: both\nold:     10\nnew:     4\nold:     11\nnew:     5\n")])
        self.refused(told)
        self.assertEqual(prover.sizes, [1, 1])

    def test_a_lone_check_without_an_end_is_told(self):
        told, _ = tried([("one", 1)], most=0)
        self.assertIn("the check did not come to an end: killed", told["one_1"])

    def test_an_edit_of_a_definition_is_a_check_of_the_whole_crate(self):
        told, prover = tried([("one", 1), ("Word", 3)])
        self.refused(told)
        self.assertEqual(sorted(prover.sizes), [1, 1])
        self.assertIn(set(), prover.left_open)

    def test_an_edit_of_a_definition_is_a_check_of_the_proof_that_it_names(self):
        told, prover = tried([], [named("two")])
        self.refused(told)
        self.assertEqual((prover.sizes, prover.left_open), ([1], [{"low::one", "low::three"}]))

    def test_a_proof_that_no_function_has_is_a_check_of_the_whole_crate(self):
        told, prover = tried([], [named("four")], unknown=("four",))
        self.refused(told)
        self.assertEqual(prover.left_open[-1], set())

    def test_a_crate_that_is_not_proved_is_told(self):
        told, prover = tried([("one", 1)], is_proved=False)
        self.assertEqual((told, prover.sizes), ({"one_1": "NOT REFUSED: the crate itself is not proved"}, []))


class Written(unittest.TestCase):
    """Edits as they are written."""

    def wrong(self, texts, more=()):
        """Returns what is wrong with the edits of files of the crate, without where it stands."""
        with repository({**FILES, **{f".ci/edits/low/{path}.edit": text for path, text in texts.items()}, **dict(more)}):
            return [it.partition(": ")[2] for it in wrong_with(edits_of("low"))]

    def test_what_an_edit_says(self):
        text = "edit: one\nproof: two\nold:   10\nnew:\nfile: specs/Word.antt\nold: 16\nnew:  8\n\nedit: two\nold: a\nnew: b: c\n"
        with repository({**FILES, ".ci/edits/low/src/lib.rt.edit": text, "crates/low/must-fail/three.edit": "file: src/lib.rt\nold: a\nnew: b\n"}):
            first, second, third = edits_of("low")
            self.assertEqual(edits_of("low", with_rt=False), [first, second])
        self.assertEqual(first, ("low", ".ci/edits/low/src/lib.rt.edit:1", "one", "two", [("src/lib.rt", "  10", ""), ("specs/Word.antt", "16", " 8")]))
        self.assertEqual(second, ("low", ".ci/edits/low/src/lib.rt.edit:9", "two", "", [("src/lib.rt", "a", "b: c")]))
        self.assertEqual(third, ("low", "crates/low/must-fail/three.edit", "three", "", [("src/lib.rt", "a", "b")]))

    def test_a_name_that_stands_twice_is_told(self):
        path, text = edit("one", 1)
        told = f"an edit of this name stands in {path}:1 too: one_1"
        self.assertEqual(self.wrong({"src/lib.rt": f"{text}\n{text}"}), [told])
        self.assertEqual(self.wrong({"src/lib.rt": text, "specs/Word.antt": edit("Word", 3)[1].replace("Word_3", "one_1")})[0][:45], told[:45])
        self.assertEqual(self.wrong({"src/lib.rt": text}, {"crates/low/must-fail/one_1.edit": "file: src/lib.rt\nold:     10\nnew:     1\n"}), [told])

    def test_an_old_text_that_does_not_stand_once_is_told(self):
        for old, told in (("u16", "0 times"), ("u8", "3 times")):
            self.assertIn(told, "".join(self.wrong({"src/lib.rt": f"edit: it\nold: {old}\nnew: b\n"})))
        self.assertIn("0 times in crates/low/src/two.rt", "".join(self.wrong({"src/two.rt": "edit: it\nold: a\nnew: b\n"})))
        self.assertEqual(self.wrong({"src/lib.rt": "edit: it\nold: one()\nnew: two()\nold: fn one\nnew: fn two\n"}), ["it: two of its 'old:' texts overlap in crates/low/src/lib.rt"])

    def test_a_part_that_is_missing_or_too_much_is_told(self):
        whole = "edit: it\nproof: one\nold: 10\nnew: 1\n"
        self.assertEqual(self.wrong({"src/lib.rt": whole}), [])
        lines = whole.splitlines(keepends=True)
        texts = ["".join(lines[:at] + lines[at + 1 :]) for at in (0, 2, 3)] + ["", whole + "old: 11\n", whole + "what: 11\n", "edit: it\n" + whole, whole.replace("old: ", "old:"), whole.replace("old: 10", "old: "), whole + "new:old: 11\nnew: 2\n"]
        for text in texts:
            with self.subTest(text):
                self.assertEqual([it[:34] for it in self.wrong({"src/lib.rt": text})], ["is to be a line 'edit: NAME', one "])


class Verdicts(unittest.TestCase):
    """What a check's lines say of an edit alone."""

    def verdict(self, said, status=1, function="one"):
        """Returns why an edit of a function in the first three lines is not refused, or None."""
        with repository(with_edits(edit(function, 1))):
            module, known = script("must-fail"), rattle.Functions("low")
            it = module.Edit(*edits_of("low"))
            it.find_function(known)
            it.place = it.home
            return module.why_not_refused(it, status, said)

    def test_a_goal_in_its_own_lines(self):
        self.assertIsNone(self.verdict("note: src/lib.rt:2:5: it is not proved that\nonly=1\n"))
        self.assertEqual(self.verdict("note: src/lib.rt:5:5: it is not proved that\nonly=1\n"), "all is still proved")

    def test_an_answer_of_its_own_folder(self):
        self.assertIsNone(self.verdict("proofs/one/Answers.antt:3:4: error: `shows`: it has another type\nonly=1\n"))
        self.assertEqual(self.verdict("proofs/two/Answers.antt:3:4: error: `shows`: it has another type\nonly=1\n"), "all is still proved")

    def test_an_answer_of_a_function_that_calls_itself(self):
        self.assertIsNone(self.verdict("proofs/+one/Answers.antt:3:4: error: `shows`: it has another type\nonly=1\n"))
        self.assertEqual(self.verdict("proofs/+two/Answers.antt:3:4: error: `shows`: it has another type\nonly=1\n"), "all is still proved")

    def test_missing_names_tell_nothing(self):
        self.assertIn("only names that a proof cites", self.verdict("proofs/one/Answers.antt:3:4: error: `shows`: `x` is not in scope\nonly=1\n"))

    def test_any_goal_of_the_crate_counts_for_an_edit_of_a_definition(self):
        self.assertIsNone(self.verdict("proofs/two/Answers.antt:3:4: error: `shows`: it has another type\n", function="Word"))
        self.assertEqual(self.verdict("holes=0\n", 0, "Word"), "all is still proved")

    def test_a_lemma_or_the_named_proof_counts_for_an_edit_that_names_one(self):
        with repository(with_edits(named("two"))):
            module = script("must-fail")
            verdict = lambda said: module.why_not_refused(module.Edit(*edits_of("low")), 1, said)
            self.assertIsNone(verdict("proofs/Lemmas.antt:3:4: error: `shows`: it has another type\nonly=1\n"))
            self.assertIsNone(verdict(f"fn low::two: {REFUSED}\nonly=1\n"))
            self.assertEqual(verdict(f"fn low::one: {REFUSED}\nonly=1\n"), "all is still proved")


class Kept(unittest.TestCase):
    """What a run leaves to later ones, and what a landing owes."""

    def test_a_refused_edit_is_found_until_something_changes(self):
        with repository(with_edits(edit("one", 1))), contextlib.redirect_stdout(io.StringIO()):
            module, prover = script("must-fail"), StandIn()
            tried = lambda is_anew=False: trials(module, prover, is_anew=is_anew).try_crate("low", [*map(module.Edit, edits_of("low"))][:1])
            for checks in (1, 1):
                tried()
                self.assertEqual(len(prover.sizes), checks)
            tried(is_anew=True)
            with open(edit("one", 1)[0], "a", encoding="utf-8") as file:
                file.write("\n" + edit("one", 2)[1])
            tried()
            self.assertEqual(len(prover.sizes), 2)
            with open("crates/low/specs/Word.antt", "a", encoding="utf-8") as file:
                file.write("-- a word more\n")
            tried()
            self.assertEqual(len(prover.sizes), 3)

    def test_copies_are_tried_with_nothing_changed(self):
        edits = [edit("one", 1), edit("one", 2), edit("two", 3)]
        for says, sums in ((PROVED, (1, 0)), (REFUSED, (0, 1))):
            with repository(with_edits(*edits)), contextlib.redirect_stdout(io.StringIO()):
                module = script("must-fail")
                its = trials(module, StandIn(says={"one_2": says}))
                its.try_copies("low", [*map(module.Edit, edits_of("low"))])
                self.assertEqual((its.refused, its.failed), sums)

    def test_a_landing_owes_what_it_touches_and_a_turn(self):
        listed = {name: below for name, below in zip("abcde", ([], ["a"], [], [], []))}
        with repository(FILES):
            module = script("must-fail")
            module.said_by = lambda *words: ["kit"]
            module.touched = lambda: {"a"}
            self.assertEqual(module.owed([*listed], listed), ["a", "b"])
            module.touched = lambda: {"e"}
            self.assertEqual(module.owed([*listed], listed), ["b", "e"])
            module.touched = lambda: None
            self.assertEqual(module.owed([*listed], listed), [*listed])


    def test_what_no_run_came_to_for_long_is_removed(self):
        with repository({"store/old": "", "store/new": ""}):
            module = script("must-fail")
            module.STORE = os.path.abspath("store")
            os.utime("store/old", (0, 0))
            module.drop_stale()
            self.assertEqual(os.listdir("store"), ["new"])

    def test_a_library_is_built_behind_its_text_and_those_below(self):
        files = {"crates/low/src/lib.rt": "", "crates/high/src/lib.rt": ""}
        listed = {"low": [], "high": ["low"]}
        with repository(files):
            module = script("must-fail")
            self.assertFalse(module.is_built("high", listed))
            for at, crate in ((10**10, "low"), (10**10 + 1, "high")):
                os.makedirs(module.rlib(crate))
                os.utime(module.rlib(crate), (at, at))
            self.assertTrue(module.is_built("high", listed))
            with open("crates/low/out/rlib/stamp", "w", encoding="utf-8"):
                self.assertFalse(module.is_built("high", listed))
            os.remove("crates/low/out/rlib/stamp")
            os.utime(module.rlib("low"), (10**10 + 2, 10**10 + 2))
            self.assertFalse(module.is_built("high", listed))

    def test_what_a_landing_touches(self):
        def git(*words):
            """Runs git, as somebody."""
            who = ["-c", "user.name=one", "-c", "user.email=one", "-c", "commit.gpgsign=false"]
            subprocess.run(["git", *who, *words], check=True, stdout=subprocess.DEVNULL, stderr=subprocess.DEVNULL)

        def write(path, text):
            """Writes a file and commits it."""
            with open(path, "w", encoding="utf-8") as file:
                file.write(text)
            git("add", "-A")
            git("commit", "-qm", path)

        with repository({**with_edits(edit("one", 1)), "crates/high/src/lib.rt": ""}):
            module = script("must-fail")
            self.assertIsNone(module.touched())
            git("init", "-q")
            write("crates.txt", "low:\nhigh: low\n")
            write(".ci/landing", "6 kit\n")
            self.assertEqual(module.touched(), set())
            write("crates/high/src/lib.rt", "fn four() {}\n")
            write(".ci/edits/low/src/lib.rt.edit", "")
            write("README.md", "")
            self.assertEqual(module.touched(), {"high", "low"})
            write(".ci/landing", "7 other\n")
            self.assertIsNone(module.touched())


class Words(unittest.TestCase):
    """The words that the script is called with."""

    def ended(self, *words, owed=("low",)):
        """Returns the status of the script, called with these words, and what it prints."""
        printed = io.StringIO()
        with repository(with_edits(edit("one", 1), edit("two", 2))) as room, contextlib.redirect_stdout(printed):
            module, prover = script("must-fail"), StandIn(says={"two_2": PROVED})
            trials(module, prover)
            module.__file__, module.owed = f"{room}/.ci/must-fail", lambda crates, listed: [it for it in crates if it in owed]
            with mock.patch.object(sys, "argv", ["must-fail", *words]):
                return module.main(), printed.getvalue()

    def test_all_edits_or_those_that_are_owed(self):
        for words, owed in ((("--all", "--proved"), ()), (("--proved",), ("low",)), (("low",), ())):
            status, said = self.ended(*words, owed=owed)
            self.assertEqual((status, "1 edits refused, 1 not" in said), (1, True), said)

    def test_nothing_that_is_owed(self):
        status, said = self.ended("--proved", owed=())
        self.assertEqual((status, "2 edits of crates that the landing does not touch" in said), (1, True))

    def test_one_edit_with_what_the_prover_says(self):
        status, said = self.ended("low", "one_1")
        self.assertEqual((status, f"fn low::one: {REFUSED}" in said, "1 edits refused, 0 not" in said), (0, True, True))

    def test_edits_by_their_names(self):
        status, said = self.ended("low", "one_1", "two_2")
        self.assertEqual((status, REFUSED in said, "1 edits refused, 1 not" in said), (1, False, True))
        self.assertEqual(self.ended("low", "one_1", "two_3"), (1, "low has no edit two_3\n"))

    def test_copies_and_words_that_there_are_not(self):
        self.assertIn("0 functions proved in a copy, 0 not", self.ended("--copies", "--all")[1])
        self.assertEqual(self.ended("--no-such")[0], 2)


class Copies(unittest.TestCase):
    """What the prover is handed: a copy of the crate with the edits."""

    def test_the_prover_is_handed_the_edits_and_open_proofs(self):
        edits = [edit("one", 1), edit("one", 2), edit("two", 3)]
        with repository({**with_edits(*edits), "kept/word": "kept", "crates/low/proofs/one/Answers.antt": "use Rattle.low.proofs.one.Goal\n"}):
            module, known, handed = script("must-fail"), rattle.Functions("low"), {}

            def timed(room, *words):
                """Keeps what the prover is handed."""
                paths = [f"{at}/{name}" for at, _, names in os.walk(room) for name in names]
                handed.update({os.path.relpath(it, room): rattle.text_of(it) for it in paths})
                return 0, " ".join(words), 0.0

            module.timed, its = timed, [*map(module.Edit, edits_of("low"))]
            for it in its:
                it.find_function(known)
            ((batch,), (_, said, _)) = module.batches(its), module.checked(known, rattle.libraries(), its, "kept")
            self.assertEqual([it.tried() for it in batch], ["low::one", "low::one_edit1", "low::two"])
            self.assertEqual(re.findall(r"--only (\S+)", said), ["low::one", "low::one_edit1", "low::two"])
        text = handed["src/lib.rt"].split("\n")
        self.assertEqual(text[:9], [*"fn one() -> u8 {|    1|}|fn two() -> u8 {|    3|}|fn three() -> u8 {|    12|}".split("|")])
        self.assertEqual(text[-4:], ["fn one_edit1() -> u8 {", "    2", "}", ""])
        self.assertEqual(handed["proofs/one_edit1/Answers.antt"], "use Rattle.low.proofs.one_edit1.Goal\n")
        self.assertIn("three_spec = ?", handed["proofs/three/Proof.antt"])
        self.assertEqual((handed["kept/word"], [it.place for it in its]), ("kept", [["src/lib.rt", 1, 3], ("src/lib.rt", 11, 13), ["src/lib.rt", 4, 6]]))

    def test_a_body_that_is_left_open_keeps_its_places(self):
        with repository({**FILES, "crates/low/src/lib.rt": "fn one() -> u8 {\n    let it = 11;\n    it\n}\n"}):
            module = script("must-fail")
            file, way = rattle.Functions("low").places["low::one"]
            module.leave_open("crates/low", "low", "low::one", file.path, way[-1].body)
            self.assertEqual(rattle.text_of("crates/low/src/lib.rt"), "fn one() -> u8 {\n loop {}        \n      \n}\n")

    def test_a_copy_of_a_method_stands_in_an_impl_with_its_imports(self):
        text = "use core::one;\nimpl It {\n    ghost use Rattle.low.specs.It.{it};\n\n    fn one() { 1 }\n}\n"
        pair = "edit: it\nold: { 1 }\nnew: { 2 }\nold: use core::one\nnew: use core::two\n"
        with repository({**FILES, "crates/low/src/lib.rt": text, ".ci/edits/low/src/lib.rt.edit": pair}):
            module, known = script("must-fail"), rattle.Functions("low")
            it = module.Edit(*edits_of("low"))
            it.find_function(known)
            it.copy = 1
            self.assertEqual((it.function, it.source.copied("crates/low", it)), ("low::It::one", ("src/lib.rt", 8, 11)))
            self.assertEqual(rattle.text_of("crates/low/src/lib.rt"), f"{text}\nimpl It {{\nghost use Rattle.low.specs.It.{{it}};\n    fn one_edit1() {{ 2 }}\n}}\n")

    def test_what_can_be_copied(self):
        bodies = {"fn one() { 1 }": True, "fn one() { one() }": False, "impl It {\n fn one() { 1 }\n}": True, "impl Go for It {\n fn one() { 1 }\n}": False, "impl It {\n fn one() { self.one() }\n}": False}
        for text, can_copy in bodies.items():
            with self.subTest(text), repository({**FILES, "crates/low/src/lib.rt": f"{text}\n"}):
                module = script("must-fail")
                (name, (file, way)), = rattle.Functions("low").places.items()
                self.assertEqual(module.Source(file, way, name).can_copy(), can_copy)
