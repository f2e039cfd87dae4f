"""Tries the running of definitions: on definitions of its own, and that kept scripts tell what is planted in those of a script's meaning."""

import os
import unittest

from shared import CI, planted, repository, script
from antt import Definitions, constant
from cases import cases
from machine import printed
from meant import APART, AS_SETS, CALLS, IN_NO_ROW, KEPT, ONE_ROW, SHARE_NOTHING, SWEEPS, WORLD, Meant
from races import apart
from schedules import DOING, TOGETHER

SMALL = """-- Of no use.
use Rattle.std.specs.Prelude.{ℕ, zero, suc, Bool, cond, List, [], ◌∷◌, ◌+◌, ◌*◌, map, sum_by}

infixl 20 ◌>>=◌
abbrev pub ◌>>=◌ : (ℕ → ℕ × ℕ) → (ℕ → ℕ → ℕ × ℕ) → ℕ → ℕ × ℕ
(first >>= next) n = next (first n).0 (first n).1

module _ (k : ℕ) where
  abbrev pub plus : ℕ → ℕ
  plus n = n + 2 * k

  -- adds k twice to each
  abbrev pub all_plus : List ℕ → List ℕ
  all_plus ns = map plus ns

-- counts by a loop
abbrev pub down : ℕ → ℕ → ℕ
down zero n = n
down (suc m) n = down m (n + 1)

abbrev pub step : ℕ → ℕ → ℕ × ℕ
step m n = (m, n + m)

abbrev pub steps : ℕ → ℕ → ℕ × ℕ
steps m = do
  a ← step m
  b ← step (a
    + 1)
  λ n. let c = n * 2 in
    (b, c)

pub record Both : Type 0 where
  pub left : ℕ
  pub right : List ℕ

abbrev pub both : List ℕ → Both
both (m ∷ n ∷ ns) = record (both (n ∷ ns)) { left = m }
both ns = record {
  left = 0;
  right = ns;
}

-- claims
pub record Are (least k : ℕ) (ns : List ℕ) : Type 0 where
  pub are : AllByRecursion (λ n. n ≡ k)
      ns
  pub is_least : least ≤ k

abbrev pub lost : ℕ → ℕ
lost zero = 7
lost n = (both (n ∷ 3 ∷ [])).left + sum_by (λ m. m + n) (both (3 ∷ [])).right
"""
# What is planted in the definitions: a kept script that tells it, what takes the place of what, and in which file, where it is not that of the commands.
PLANTED = {
    "E18 comes after E7": (
        "scripts/arrays/what_is_refused_at_objects",
        "    word ← decided (word_of_number k x)\n    makes_nothing (calls_on h ",
        "    calls_on h (get_array_region k i 1)\n    word ← decided (word_of_number k x)\n    makes_nothing (calls_on h ",
    ),
    "a cleared weak reference has type 0": (
        "scripts/collections/a_weak_reference_is_cleared",
        "type_in (Some r) = kind_number r.kind",
        "type_in (Some r) = cond (is_some r.object) (kind_number r.kind) 0",
        WORLD,
    ),
    "a pop keeps nothing": ("scripts/frames/results_of_pops", "atom (new_local c o)", "atom (new_local c None)", DOING),
    "a pop drops nothing": (
        "scripts/frames/results_of_pops",
        "ns ← atom (ask (λ w. newest_frame w.frames))\n  given_up_in_steps ns",
        "ns ← atom (ask (λ w. newest_frame w.frames))\n  given_up_in_steps []",
        DOING,
    ),
    "a weak reference takes no slot": (
        "scripts/collections/all_slots_weak",
        "in_row s = refs_of Global (as_seen 0 s) + refs_of Weak (as_seen 0 s)",
        "in_row s = refs_of Global (as_seen 0 s)",
        DOING,
    ),
    "an element of objects is the first": (
        "scripts/arrays/elements_of_objects",
        "element_read o i >>= (λ v. program_steps next (set_known known one (named_by v)) o)",
        "element_read o 0 >>= (λ v. program_steps next (set_known known one (named_by v)) o)",
        DOING,
    ),
    "an object needs no local place": (
        "scripts/references/sixteen_local_places",
        "  atom (room_for c 1)\n  reserved c from",
        "  reserved c from",
        DOING,
    ),
    "a collection keeps what a weak reference names": (
        "scripts/collections/a_weak_reference_is_cleared",
        "rooted (Some r) = cond (same_kind Weak r.kind) [] (listed r.object)",
        "rooted (Some r) = listed r.object",
        SWEEPS,
    ),
    "three elements lead no further": ("scripts/collections/what_a_long_row_names_is_reached", "reached_by w (length w.objects)", "reached_by w 3", SWEEPS),
    "a fourth element is not looked at": (
        "scripts/collections/what_a_long_row_names_is_reached",
        "(λ word. listed (named_by word)) x.words)",
        "(λ word. listed (named_by word)) (take 3 x.words))",
        SWEEPS,
    ),
    "an array's kind comes after E17": (
        "scripts/regions/a_kind_before_a_seventeenth_level",
        "(not (is_primitive k), WrongElement) ∷ (nat_le LEVELS levels, Size) ∷ []",
        "(nat_le LEVELS levels, Size) ∷ (not (is_primitive k), WrongElement) ∷ []",
        CALLS,
    ),
    "an array comes before what it is to name": (
        "scripts/arrays/both_references_of_a_set",
        "= names_both (wants one (looks (λ k n.\n    tests (element_tests i k n) (refl, (refl, (refl, tt))) (ends (writes_to i other)))))",
        "= names one (wants one (names other (looks (λ k n.\n    tests (element_tests i k n) (refl, (refl, (refl, tt))) (ends (writes_to i other))))))",
        CALLS,
    ),
    "a post hands on NULL": ("scripts/threads/an_element_is_handed_over", "s.board ++ (n, w) ∷ []", "s.board ++ (n, 0) ∷ []"),
    "an array's name comes before its buffer's": (
        "scripts/copies/names_of_a_release",
        "    b ← decided (buffer_in (binding names n))\n    h ← the_named r\n",
        "    h ← the_named r\n    b ← decided (buffer_in (binding names n))\n",
    ),
}  # fmt: skip
# What is planted in `OneRow.antt`, in the same form: by it a kept script prints another text, or stands in a row and must not, or in none.
PLANTED_IN_ROWS = {
    "who posts tells nothing": (
        "examples/handing",
        "is_told_by = cond (k.is_known_to t) (and_name n k.is_told_by) k.is_told_by;",
        "is_told_by = k.is_told_by;",
    ),
    "who posts tells what it does not know": (
        "scripts/rows/what_a_third_thread_does_not_hear",
        "is_told_by = cond (k.is_known_to t) (and_name n k.is_told_by) k.is_told_by;",
        "is_told_by = and_name n k.is_told_by;",
    ),
    "a wait tells all": ("scripts/rows/what_a_third_thread_does_not_hear", "(k.is_told_by n && u == t) ||", "k.is_told_by n ||"),
    "all know of a step": ("examples/threads", "is_known_to = λ u. u == t; is_told_by", "is_known_to = λ u. true; is_told_by"),
    "who knew of the step before knows of the next": (
        "scripts/threads/a_shared_reference",
        "is_known_to = λ u. u == t; is_told_by",
        "is_known_to = λ u. u == t || k.is_known_to u; is_told_by",
    ),
    "a wait tells who waits what nobody told": ("scripts/threads/regions_at_once", "(k.is_told_by n && u == t) ||", "u == t ||"),
    "a collection may come beside an end": (
        "scripts/rows/a_collection_is_refused_beside_an_end",
        "k.is_known_to t && each_hears threads (news_of t k) xs",
        "k.is_known_to t",
    ),
    "a collection may come beside a step": (
        "scripts/threads/regions_at_once",
        "k.is_known_to t && each_hears threads (news_of t k) xs",
        "each_hears threads (news_of t k) xs",
    ),
    "who hears of a collection knows of it at the end": ("examples/held", "hears t k (x ∷ xs) = k.is_known_to t || hears", "hears t k (x ∷ xs) = hears"),
    "an element of a buffer is shared": ("scripts/rows/a_buffer_is_its_threads_own", "on_name_at.Get n i) = apart", "on_name_at.Get n i) = acts"),
    "an element is put for all": ("scripts/rows/a_buffer_is_its_threads_own", "put_at.Put n i x) = apart", "put_at.Put n i x) = acts"),
    "an abort is shared": ("scripts/rows/a_buffer_is_its_threads_own", "(commands.Release v n r Abort) = apart", "(commands.Release v n r Abort) = acts"),
    "lines have other numbers": ("examples/held", "printed p.line x answer", "printed (p.line + 1) x answer"),
    "a thread's line has no number": (
        "scripts/threads/a_local_reference_is_of_its_own_thread_alone",
        "first_stand (line + 1 + length p.commands) ps t",
        "first_stand (line + length p.commands) ps t",
    ),
    "the first thread takes all steps": ("scripts/threads/a_local_reference_is_of_its_own_thread_alone", "run_alone t true", "run_alone 0 true"),
}  # fmt: skip
# What is planted in `Apart.antt`: what takes the place of what.
PLANTED_APART = {
    "a wait is for itself": ("is_for_itself (waits n) = false", "is_for_itself (waits n) = true"),
    "a collection is for itself": ("is_for_itself collects = false", "is_for_itself collects = true"),
    "no other command is for itself": ("is_for_itself _ = true", "is_for_itself _ = false"),
    "a weak reference asks for no slot": ("make_from.Weak n r) = 1", "make_from.Weak n r) = 0"),
    "each command asks for a slot": ("slots_wanted _ = 0", "slots_wanted _ = 1"),
    "a string asks for no object": ("objects_wanted (commands.MakeText v n units) = 1", "objects_wanted (commands.MakeText v n units) = 0"),
    "objects ask for no words": ("words_wanted (commands.MakeFilled v n len r) = len", "words_wanted (commands.MakeFilled v n len r) = 0"),
    "a string asks for no words": ("MakeText v n units) = length units", "MakeText v n units) = 0"),
    "slots are objects": ("in_all slots_wanted s.threads ≤ s.config.slots", "in_all slots_wanted s.threads ≤ s.config.objects"),
    "all words but one fit": ("in_all words_wanted s.threads ≤", "in_all words_wanted s.threads + 1 ≤"),
    "lines begin one early": ("line = line + 1; text", "line = line; text"),
    "a thread's line has no number": ("courses_alone (line + 1 + length", "courses_alone (line + length"),
    "another thread takes the steps": ("map (λ x. (0, x))", "map (λ x. (1, x))"),
    "words are told for objects": ("live = sum_by (λ w. (summary_of_course w).live)", "live = sum_by (λ w. (summary_of_course w).used)"),
    "no summary is told": ("ending (summary_of_all ws)", "ending (summary_of_all [])"),
}


class SmallDefinitions(unittest.TestCase):
    """Definitions of no use."""

    def setUp(self):
        self.definitions = Definitions({"a.specs.B": SMALL})

    def said(self, name, *arguments):
        """Returns what a definition is of these arguments."""
        return self.definitions.run("a.specs.B", name, *arguments)

    def test_a_definition_of_a_block_takes_its_parameters(self):
        self.assertEqual(self.said("all_plus", 5, (1, 2)), (11, 12))

    def test_a_call_that_is_the_last_is_a_loop(self):
        self.assertEqual(self.said("down", 100_000, 1), 100_001)

    def test_statements_follow_one_another(self):
        self.assertEqual(self.said("steps", 3)(10), (4, 34))

    def test_a_record_may_be_another_but_for_a_field(self):
        self.assertEqual(self.said("both", (4, 5, 6)), {"left": 4, "right": (6,)})

    def test_a_record_of_claims_is_whether_they_hold(self):
        self.assertEqual([self.said("Are", *it) for it in ((1, 1, (1, 1)), (2, 1, (1, 1)), (1, 1, (1, 2)))], [True, False, False])

    def test_what_is_no_word_that_is_known_is_refused(self):
        for equation in ("f Never = 0", "f n = never n"):
            with self.assertRaises(LookupError):
                Definitions({"a.specs.B": f"abbrev pub f : ℕ → ℕ\n{equation}\n"}).run("a.specs.B", "f", 0)

    def test_a_text_that_would_be_read_wrongly_is_refused(self):
        head = "use Rattle.std.specs.Prelude.{codes}\n\nabbrev pub f : ℕ → List ℕ\n"
        self.assertEqual(Definitions({"a.specs.B": f'{head}f n = codes "ab"\n'}).run("a.specs.B", "f", 0), (97, 98))
        for text in ("a\\n", "é"):
            with self.assertRaises(SyntaxError):
                Definitions({"a.specs.B": f'{head}f n = codes "{text}"\n'}).run("a.specs.B", "f", 0)

    def test_a_constant_that_would_be_read_wrongly_is_refused(self):
        for value, read in {"65_536": 65_536, "1 << 4": 16, "[Verb::Make(Make::Plain), Verb::Last]": (("Make", ("Plain",)), ("Last",))}.items():
            with repository({"crates/a/src/b.rt": f"pub const N: u64 = {value};\n"}):
                self.assertEqual(constant("a.specs.declared.b", "N"), read)
        for value in ("7 / 2", "-7 % 3", "b'a'", "u32::MAX", "OTHER"):
            with repository({"crates/a/src/b.rt": f"pub const N: u64 = {value};\n"}), self.assertRaises(SyntaxError):
                constant("a.specs.declared.b", "N")

    def test_equations_that_nothing_came_to_are_told(self):
        self.assertEqual(self.said("lost", 2), 2 + 5)
        self.assertEqual(self.definitions.unused("a.specs.B"), ["lost zero"])


class Scripts(unittest.TestCase):
    """What kept scripts tell of the definitions of a script's meaning."""

    def setUp(self):
        os.chdir(f"{CI}/..")

    def test_kept_scripts_tell_what_is_planted(self):
        kept, whole = {it.name: it for it in cases()}, Meant()
        for what, (name, old, new, *of) in PLANTED.items():
            self.assertEqual(whole.printed(kept[name].text), kept[name].output, what)
            self.assertNotEqual(planted(*of or [TOGETHER], old, new).printed(kept[name].text), kept[name].output, what)

    def test_kept_scripts_tell_what_is_planted_in_rows(self):
        kept, whole = {it.name: it for it in cases()}, Meant()
        for what, (name, old, new) in PLANTED_IN_ROWS.items():
            said = whole.in_rows(kept[name].text)
            self.assertEqual(said, set() if name in IN_NO_ROW else {kept[name].output}, what)
            self.assertNotEqual(planted(ONE_ROW, old, new).in_rows(kept[name].text), said, what)

    def test_drawn_scripts_tell_what_is_planted_of_threads_that_share_nothing(self):
        beside = script("meaning").beside
        drawn = [(it, printed(it), is_so) for seed in range(1, 8) for it, is_so in apart(seed)]

        def told(meant):
            """Returns what is told of the first of the drawn scripts of which something is told."""
            return next((told for it, wanted, is_so in drawn for told in beside(meant, "drawn", it, wanted, {wanted}, meant.alone(it), is_so)), None)

        self.assertIsNone(told(Meant()))
        for what, its in PLANTED_APART.items():
            self.assertIsNotNone(told(planted(APART, *its)), what)

    def test_kept_scripts_tell_whether_threads_share_nothing(self):
        meant = Meant()
        said = {it.name: meant.alone(it.text) for it in cases() if it.text.count(b"\nthread ") > 1 and not it.fault}
        self.assertEqual({name for name, its in said.items() if its}, SHARE_NOTHING)

    def test_a_name_is_posted_once_and_before_each_wait(self):
        meant = Meant()
        script = meant.script(b"vm threads 2 slots 1 objects 1 words 1 locals 16\nthread a\npost x\nthread b\nwait x\n")
        post, wait = ((number, it["commands"][0]) for number, it in enumerate(script["threads"]))
        said = [meant.is_ordered(script, it) for it in ((post, wait), (post, wait, wait), (wait, post), (post, post))]
        self.assertEqual(said, [True, True, False, False])

    def test_a_collection_must_be_heard_of_announced_or_not(self):
        text, heard = b"vm threads 2 slots 1 objects 1 words 1 locals 16\nthread a\n%sthread b\n%s\n%s", (b"wait x\n", b"post x\n")
        for verb in (b"gc", b"gcann 1"):
            self.assertEqual(Meant().in_rows(text % (b"", verb, b"")), set())
            self.assertEqual(len(Meant().in_rows(text % (heard[0], verb, heard[1]))), 1)

    def test_names_of_kept_scripts_in_no_row_stand(self):
        self.assertEqual(IN_NO_ROW - {it.name for it in cases() if it.text.count(b"\nthread ") > 1 and not it.fault}, set())

    def test_definitions_that_are_run_otherwise_stand(self):
        definitions = Meant().definitions
        lines = {**definitions.file(SWEEPS).lines, **definitions.file(WORLD).lines, **definitions.file("jr_syntax.specs.Faults").lines, **definitions.file("jr_syntax.specs.Command").lines}
        self.assertEqual({*AS_SETS, *KEPT} - {*lines}, set())

    def test_what_no_kept_text_can_show(self):
        self.assertEqual(Meant().fault(b"a" * 65_537), b"script fault at line 1: too long\n")
        text = b"vm threads 1 slots 1 objects 1 words 1 locals 16\nthread a\nint a 1\nelems b a\nelems b a\neget b 0\nwait c\n"
        said = Meant().printed(text, (False,))
        self.assertEqual(said, b"[a]\n4 ! E16\neget b 0 0\n7 ! E20\n[end]\nglobals 0 weaks 0 live 1 used 1\n")

    def test_all_schedules_of_the_scripts_of_the_page_have_its_texts(self):
        head, end = "vm threads 2 slots 1 objects 1 words 1 locals 16\nthread a\n", "[end]\nglobals"
        for script, said in {
            "objs l 1 null\nglobal g l\npost g\ndrop g\nset l 0 l\nthread b\nwait g\nget n g 0\n": {"get n null\n", "10 ! E2\n", ""},
            "plain p\nthread b\nplain p\n": {"3 ! E11\n", "5 ! E11\n"},
            "plain p\npost x\nthread b\nwait x\ngc\n": {f"gc {it} used 0\n" for it in ("cleared 0 dropped 0", "cleared 0 dropped 1")} | {"gc busy 1\n"},
        }.items():
            texts = {it.decode().replace("[a]\n", "").replace("[b]\n", "").partition(end)[0] for it in Meant().texts((head + script).encode())}
            self.assertEqual(texts, said)

    def test_threads_take_turns_over_one_world(self):
        ended = b"vm threads 2 slots 1 objects 1 words 0 locals 16\nthread a\nplain x\npost x\nthread b\nwait x\ngc\n"
        self.assertEqual(Meant().printed(ended), b"[a]\n[b]\ngc cleared 0 dropped 1 used 0\n[end]\nglobals 0 weaks 0 live 0 used 0\n")
        a, b = b"int x 1\npost x\nwait y\ncrit v x\npost z\nwait u\n", b"wait x\ngc\ntype x\nlen x\npost y\nwait z\ngc\npost u\n"
        standing = b"vm threads 2 slots 1 objects 1 words 1 locals 16\nthread a\n" + a + b"thread b\n" + b
        said = b"[a]\n[b]\ngc cleared 0 dropped 0 used 1\ntype x 0\n13 ! E3\ngc busy 1\n[end]\nglobals 0 weaks 0 live 1 used 1\n"
        self.assertEqual(Meant().printed(standing), said)
