"""Tries .ci/header: what it makes of sources, and what it tells. Where a compiler of C is there, it has the header of the repository compiled alone, and calls with NULL made."""

import shutil
import subprocess
import tempfile
import unittest

from shared import CI, repository, script

FAULT = """pub enum Fault {
    Range,
    Raced(u32, u32),
    NotFresh,
}
impl Fault {
    pub fn number(self) -> u8
    {
        match self {
            Fault::Range => 7,
            Fault::Raced(_, _) => 12,
            Fault::NotFresh => 21,
        }
    }

    pub fn meaning(self) -> &'static str {
        match self {
            Fault::Range => "an index doesn't fit",
            Fault::Raced(_, _) => "another thread was there",
            Fault::NotFresh => "the pass had an env already",
        }
    }
}
"""
HANDLE = "impl RefKind {\n    pub fn code(self) -> u64\n    {\n        match self {\n            RefKind::Local => 1,\n        }\n    }\n\n    pub fn other(self) -> u64 {\n        match self {\n            RefKind::Local => 64,\n        }\n    }\n}\n"
CONFIG = "impl Config {\n    /// The most threads of a room.\n    pub const MOST_THREADS: u32 = 1_064;\n}\n"
ENV = """pub trait NativeInterface<S: Steps>: NativeCaller<S> {
    /// Looks.
    ///
    /// # Errors
    ///
    /// E2 where it does not stand; E7 where it lies outside.
    ///
    /// Nothing has changed then.
    fn look(&mut self, array: Handle) -> Result<u32, Fault>;
}
"""
ROOMS = """/// An answer.
#[repr(C)]
#[derive(Clone, Copy)]
pub struct Reply {
    /// What it answers.
    pub value: u64,
    pub fault: u32,
}

/// An env's handle.
#[repr(C)]
pub struct EnvHandle {
    pub(crate) at: *mut u8,
    alloc: Global,
    ghost value: { EnvPlace },
}

/// Looks at an array.
///
/// # Errors
///
/// E21 where no env stands behind the handle; else those of `NativeInterface::look`.
#[unsafe(no_mangle)]
pub extern "C" fn luthrady_look(alloc: Global, env: &mut EnvHandle, array: u64, elements: &mut [i8]) -> Reply
    ensures { Replied env.old env.new result }
{
    of_number(make(env, Look(Handle(array))))
}
"""
BATCHES = "impl Operation {\n    fn of(number: u32) -> Option<Self> {\n        match number {\n            1 => Some(Operation::Look),\n            _ => None,\n        }\n    }\n}\n"
KIND = "impl Kind {\n    pub fn code(self) -> u64\n    {\n        match self {\n            Kind::Plain => 1,\n        }\n    }\n}\n"
TELLING = "fn number_of(explanation: Explanation) -> u32 {\n    match explanation {\n        Explanation::Gone => 6,\n        Explanation::Standing { .. } => 7,\n    }\n}\n"
COPIES = "fn mode_of(number: u32) -> Option<Mode> {\n    match number {\n        2 => Some(Mode::Abort),\n        _ => None,\n    }\n}\n"
FILES = {
    "crates/jr_word/src/fault.rt": FAULT,
    "crates/jr_word/src/kind.rt": KIND,
    "crates/jr_word/src/handle.rt": HANDLE,
    "crates/jr_word/src/config.rt": CONFIG,
    "crates/jr_env/src/native_interface.rt": ENV,
    "crates/luthrady/src/rooms.rt": ROOMS,
    "crates/luthrady/src/batches.rt": BATCHES,
    "crates/luthrady/src/telling.rt": TELLING,
    "crates/luthrady/src/copies.rt": COPIES,
    "crates/luthrady/VERSION": "3.4.5\n",
    "crates/luthrady/include/owed.txt": "/* What is owed. */\n",
}
DECLARED = "struct luthrady_reply luthrady_look(struct luthrady_env *env, uint64_t array, int8_t *elements, size_t count);"

# Stubs of two exports, which tell whether they were called, and calls of them with what is NULL and what isn't.
CALLS = """#include "luthrady.h"
static int made;
struct luthrady_reply (luthrady_collect)(struct luthrady_env *env, struct luthrady_counts *out)
{
    struct luthrady_reply reply = {1, 0, 0, 0};
    made += env != NULL && out != NULL;
    return reply;
}
struct luthrady_reply (luthrady_set_int_array_region)(struct luthrady_env *env, uint64_t array, uint32_t start, const int32_t *elements, size_t count)
{
    struct luthrady_reply reply = {array + start + (count ? elements[0] : 0) + count, 0, 0, 0};
    made += env != NULL;
    return reply;
}
int main(void)
{
    struct luthrady_env env = {NULL};
    struct luthrady_counts counts;
    if (luthrady_collect(NULL, &counts).fault != LUTHRADY_FAULT_NOT_FRESH) return 1;
    if (luthrady_collect(&env, NULL).fault != LUTHRADY_FAULT_NOT_FRESH) return 2;
    if (luthrady_set_int_array_region(NULL, 0, 0, (const int32_t[]){1, 2}, 2).fault != LUTHRADY_FAULT_NOT_FRESH) return 3;
    if (luthrady_set_int_array_region(&env, 0, 0, NULL, 2).fault != LUTHRADY_FAULT_NOT_FRESH) return 8;
    if (made) return 4;
    if (luthrady_collect(&env, &counts).fault) return 5;
    if (luthrady_set_int_array_region(&env, 100, 10, (const int32_t[]){5, 6}, 2).value != 117) return 6;
    if (luthrady_set_int_array_region(&env, 100, 10, NULL, 0).value != 110) return 9;
    return made == 3 ? 0 : 7;
}
"""


class Made(unittest.TestCase):
    """What is made of small sources."""

    def setUp(self):
        self.header = script("header")

    def texts(self, path=None, old="", new=""):
        """Returns the two texts, where one file has something else in the place of what stands once in it."""
        files = dict(FILES)
        if path:
            self.assertEqual(files[path].count(old), 1)
            files[path] = files[path].replace(old, new)
        with repository(files):
            return self.header.made()

    def test_a_function_stands_in_both(self):
        texts = self.texts()
        self.assertIn(DECLARED, texts[self.header.HEADER])
        self.assertIn("pub fn luthrady_look(env: *mut EnvHandle, array: u64, elements: *mut i8, count: usize) -> Reply;", texts[self.header.RUST])

    def test_refusals_come_of_the_call_that_is_named(self):
        said = " ".join(self.texts()[self.header.HEADER].split())
        self.assertIn("Refused: E21 where no env stands behind the handle; E13 where a thread is collecting at the entry, or has announced that it will; E2 where it does not stand; E7 where it lies outside. Nothing has changed then. */", said)

    def test_what_is_no_byte_is_no_field(self):
        self.assertIn("struct luthrady_env {\n    void *at;\n};", self.texts()[self.header.HEADER])

    def test_names_texts_bounds_and_version(self):
        text = self.texts()[self.header.HEADER]
        for part in ("LUTHRADY_FAULT_RACED = 12", 'case 12: return "another thread was there";', "#define LUTHRADY_MOST_THREADS 1064u", "LUTHRADY_REF_LOCAL = 1\n", "LUTHRADY_KIND_PLAIN = 1\n", "LUTHRADY_WORD_STANDING = 7\n", "LUTHRADY_LOOK = 1\n", "LUTHRADY_MODE_ABORT = 2\n", '#define LUTHRADY_VERSION "3.4.5"', "#define LUTHRADY_VERSION_PATCH 5"):
            self.assertIn(part, text)

    def test_each_change_of_a_source_changes_what_is_made(self):
        rooms, before = "crates/luthrady/src/rooms.rt", self.texts()
        for path, old, new in (
            (rooms, "array: u64", "array: u32"),
            (rooms, "elements: &mut [i8]", "elements: &[i8]"),
            (rooms, "Looks at an array.", "Looks."),
            (rooms, "    pub fault: u32,\n", "    pub fault: u32,\n    pub told: u32,\n"),
            (rooms, "luthrady_look", "luthrady_see"),
            ("crates/jr_env/src/native_interface.rt", "E7 where it lies outside", "E6 where it lies outside"),
        ):
            self.assertNotEqual(self.texts(path, old, new)[self.header.HEADER], before[self.header.HEADER], new)
        for path, old, new in (("crates/jr_word/src/fault.rt", "=> 12", "=> 11"), ("crates/luthrady/VERSION", "3", "4"), ("crates/jr_word/src/config.rt", "1_064", "65")):
            after = self.texts(path, old, new)
            self.assertTrue(all(after[it] != before[it] for it in before), new)

    def test_a_crate_of_another_version_is_told(self):
        first, second = self.header.CARGO
        for other in (second, self.header.PROGRAM):
            files = {first: '[package]\nversion = "3.4.5"\n', second: '[package]\nversion = "3.4.5"\n', self.header.PROGRAM: '.version("3.4.5")\n'}
            with repository({**FILES, **files, other: files[other].replace("5", "6")}):
                self.assertEqual([*self.header.other_versions()], [f"{other} has another version than {self.header.VERSION}"])

    def test_what_has_no_form_is_told(self):
        for old, new in (("array: u64", "array: Option<u64>"), ("`NativeInterface::look`", "`NativeInterface::gone`")):
            with self.assertRaises(self.header.Unfit):
                self.texts("crates/luthrady/src/rooms.rt", old, new)


class Compiled(unittest.TestCase):
    """The header of the repository, in C and C++."""

    def compiled(self, compiler, ending, text, *words):
        """Compiles a text that reads the header, and returns the path of what is made."""
        path = f"{self.room}/program.{ending}"
        with open(path, "w", encoding="utf-8") as file:
            file.write(text)
        command = [compiler, "-Wall", "-Wextra", "-Werror", "-pedantic", f"-I{CI}/../crates/luthrady/include", *words, path, "-o", f"{self.room}/program"]
        ended = subprocess.run(command, stdout=subprocess.PIPE, stderr=subprocess.STDOUT, check=False)
        self.assertEqual(ended.returncode, 0, ended.stdout.decode())
        return f"{self.room}/program"

    def setUp(self):
        folder = tempfile.TemporaryDirectory(prefix="header-")
        self.addCleanup(folder.cleanup)
        self.room = folder.name

    @unittest.skipUnless(shutil.which("cc"), "no compiler of C")
    def test_the_header_stands_alone_in_c(self):
        for standard in ("c99", "c11"):
            self.compiled("cc", "c", '#include "luthrady.h"\n#include "luthrady.h"\n', f"-std={standard}", "-fsyntax-only")

    @unittest.skipUnless(shutil.which("c++"), "no compiler of C++")
    def test_the_header_stands_alone_in_cpp(self):
        self.compiled("c++", "cc", '#include "luthrady.h"\n#include "luthrady.h"\n', "-std=c++11", "-fsyntax-only")

    @unittest.skipUnless(shutil.which("cc"), "no compiler of C")
    def test_a_pointer_that_is_null_is_refused_before_the_call(self):
        program = self.compiled("cc", "c", CALLS, "-std=c99")
        self.assertEqual(subprocess.run([program], check=False).returncode, 0)
