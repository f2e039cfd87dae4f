"""The built program, as each of two compilers built it, for the scripts beside this file that run it on many texts: by a process for each
text, in one process, or as a program that yields between its atomic steps."""

import os
import select
import shutil
import struct
import subprocess
from concurrent.futures import ThreadPoolExecutor

from preloaded import compiled, linked
from rattle import kit

PROGRAMS = ("crates/jrefs/out/jrefs", "crates/jrefs/out/jrefs.by-rattle")
# How long a run may take.
SECONDS = 120

# A compiler that keeps the program that it is handed, and goes no further.
KEEPING = """#!/bin/sh
if [ -f module.bc ] && [ "$(wc -c < module.bc)" -gt 1000000 ]; then
    cp module.bc "{folder}/module.bc"
    exit 1
fi
exec "{kit}/toolchain/bin/clang" "$@"
"""


def built():
    """Returns the paths of the programs that are there, and tells where none is."""
    found = [it for it in PROGRAMS if os.path.isfile(it)]
    if not found:
        print(f"there is no {PROGRAMS[0]}: rt ci builds it, and so does rt run in crates/jrefs")
    return found


def ended(program, word, text, variables=()):
    """Runs the program on a text, with these variables of the environment beside those that stand, and returns its status, or that it came
    to no end, its output and its standard error."""
    how = {"env": {**os.environ, **dict(variables)}, "timeout": SECONDS, "check": False}
    try:
        ran = subprocess.run([program, word], input=text, stdout=subprocess.PIPE, stderr=subprocess.PIPE, **how)
    except subprocess.TimeoutExpired:
        return f"none in {SECONDS} seconds", b"", b""
    return ran.returncode, ran.stdout, ran.stderr


def wrong(program, asked):
    """Runs the program on texts, each beside a name, the word that it is handed with, and how that is to end. Returns what is told of each
    that ends otherwise."""

    def told(it):
        """Returns what is told of one text, or None."""
        name, word, text, wanted = it
        came = ended(program, word, text)
        return None if came == wanted else f"FAILED  {os.path.basename(program)} {word}: {name}: {str(came)[:400]}, and not {str(wanted)[:400]}"

    with ThreadPoolExecutor() as pool:
        return [it for it in pool.map(told, asked) if it]


class Handed:
    """A program that runs many scripts in one process, which is started at the first: a library before the C library has its `main` run again
    and again, and stands for the calls by which it reads its input, writes and ends."""

    def __init__(self, program, library, variables=()):
        """Begins with no process. It has these variables of the environment, of which one may name a further library."""
        self.program, self.variables, self.process = program, dict(variables), None
        self.variables["LD_PRELOAD"] = ":".join([library, *filter(None, [self.variables.get("LD_PRELOAD")])])

    def part(self, length):
        """Returns so many bytes of what the process writes, or fewer, where it has ended or comes to no end."""
        found = b""
        while len(found) < length and select.select([self.process.stdout], [], [], SECONDS)[0]:
            more = os.read(self.process.stdout.fileno(), length - len(found))
            if not more:
                break
            found += more
        return found

    def number(self):
        """Returns a number that the process writes."""
        (found,) = struct.unpack("i", self.part(4))
        return found

    def ended(self, text):
        """Runs a script. Returns its status, its output and its standard error."""
        if not self.process:
            how = {"stdin": subprocess.PIPE, "stdout": subprocess.PIPE, "env": {**os.environ, **self.variables}}
            self.process = subprocess.Popen([self.program, "run"], **how)
        try:
            self.process.stdin.write(struct.pack("I", len(text)) + text)
            self.process.stdin.flush()
            return self.number(), self.part(self.number()), self.part(self.number())
        except (OSError, struct.error):
            self.process.kill()
            status, self.process = self.process.wait(), None
            return f"none, and the process ended with {status}", b"", b""

    def end(self):
        """Ends the process, where one was started."""
        if self.process:
            self.process.communicate()
            self.process = None


def handing(folder):
    """Returns the path of the library, compiled in a folder."""
    return compiled(folder, "handing")


def linked_kit(folder):
    """Makes a kit in a folder, whose files are the kit's but for that compiler. Returns the path of its rt."""
    os.makedirs(f"{folder}/kit/bin")
    os.makedirs(f"{folder}/kit/toolchain/bin")
    for there in ("", "bin/", "toolchain/", "toolchain/bin/"):
        for name in os.listdir(f"{kit()}/{there}"):
            if not os.path.exists(f"{folder}/kit/{there}{name}"):
                os.symlink(f"{kit()}/{there}{name}", f"{folder}/kit/{there}{name}")
    for name in ("rt", "rtlib.py"):
        os.remove(f"{folder}/kit/bin/{name}")
        shutil.copy(f"{kit()}/bin/{name}", f"{folder}/kit/bin/{name}")
    clang = f"{folder}/kit/toolchain/bin/clang"
    os.remove(clang)
    with open(clang, "w", encoding="utf-8") as file:
        file.write(KEEPING.format(folder=folder, kit=kit()))
    os.chmod(clang, 0o755)
    return f"{folder}/kit/bin/rt"


class Yielding:
    """A program that yields between atomic steps at random, in a folder. It is built from the sources, with the checks of `rt try`, and nothing
    of it is proved; it takes two or three minutes. Before each atomic step it calls a function, as ThreadSanitizer has it, and that
    function gives up the thread's turn now and then."""

    said = ""

    def __init__(self, folder):
        """Builds the program in a folder."""
        words = [linked_kit(folder), "try", "--steps", "1", "--", "run"]
        said = subprocess.run(words, cwd="crates/jrefs", stdin=subprocess.DEVNULL, capture_output=True, check=False)
        if not os.path.isfile(f"{folder}/module.bc"):
            raise OSError(f"rt try handed no program to its compiler: {said.stderr.decode()[-900:]}")
        words = ["-target", "x86_64-unknown-linux-gnu", "-O1", "-fPIE", "-w", "-c", "-x", "ir", "-fsanitize=thread"]
        words += ["-mllvm", "-tsan-instrument-memory-accesses=0", "-mllvm", "-tsan-instrument-func-entry-exit=0"]
        made = f"{folder}/jrefs.o"
        subprocess.run([f"{kit()}/toolchain/bin/clang", *words, "-o", made, f"{folder}/module.bc"], check=True)
        self.program = linked(f"{folder}/jrefs.that-yields", [made, compiled(folder, "yielding", ("-c", "-fPIE", "-w"), "o")])

    def variables(self, number):
        """Returns what the environment has to say so that it is drawn from a number when a thread yields."""
        return {"STRAYS": str(number)}
