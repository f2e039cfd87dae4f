"""Libraries that the built program is started with before the C library, for the scripts beside this file that refuse it something, or interrupt
its threads."""

import os
import struct
import subprocess
from typing import NamedTuple

from rattle import kit

TOP = os.path.dirname(os.path.dirname(os.path.abspath(__file__)))
PROGRAM = f"{TOP}/crates/jrefs/out/jrefs"
OUT_OF_MEMORY = (3, b"", b"out of memory\n")


class Ended(NamedTuple):
    """How a command ended, what the library told, and the numbers that it kept."""

    came: tuple
    told: bytes
    kept: tuple


def compiled(folder, name, words=("-shared", "-fPIC", "-nostdlib"), ending="so"):
    """Compiles a library of .ci/c, or what these words make of it, by the kit's clang, and returns its path."""
    path = f"{folder}/{name}.{ending}"
    subprocess.run([f"{kit()}/toolchain/bin/clang", "-O1", *words, "-o", path, f"{TOP}/.ci/c/{name}.c"], check=True)
    return path


def linked(path, objects):
    """Links a program of object files by the kit, as `rt ci` does, and returns its path."""
    words = [f"{kit()}/bin/rattle-link", "--target", "x86_64-unknown-linux-gnu", "--toolchain", f"{kit()}/toolchain", "-o", path]
    libraries = [f"{kit()}/c/libos_c.a", f"{kit()}/c/liblibc_c.a"]
    subprocess.run([*words, *objects, *libraries], check=True, stderr=subprocess.DEVNULL)
    return path


def ended(words, given, library=None, number=0):
    """Runs a command, with a library that refuses the thing of that number. It tells by bytes to the stream TOLD, and may keep three numbers
    in the file KEPT, which are there however the command ends."""
    taken, told = os.pipe()
    kept = os.memfd_create("kept")
    os.ftruncate(kept, 24)
    refusing = {"LD_PRELOAD": library, "REFUSED": str(number), "TOLD": str(told), "KEPT": str(kept)} if library else {}
    how = {"env": {**os.environ, **refusing}, "pass_fds": [told, kept], "timeout": 60}
    ran = subprocess.run(words, input=given, stdout=subprocess.PIPE, stderr=subprocess.PIPE, **how)
    numbers = struct.unpack("3q", os.pread(kept, 24, 0))
    os.close(told)
    os.close(kept)
    with open(taken, "rb") as file:
        return Ended((ran.returncode, ran.stdout, ran.stderr), file.read(), numbers)


def tests_of(crate):
    """Returns the path of a crate's tests."""
    return f"{TOP}/crates/{crate}/out/{crate}_tests"


def are_built(paths):
    """Returns whether these executables are there, and tells where one is not."""
    lacking = [it for it in paths if not os.path.isfile(it)]
    if lacking:
        print(f"there is no {lacking[0]}: rt ci builds it")
    return not lacking


class Straying:
    """A library that interrupts each thread that the program starts at random times, between any two instructions, and lets others run then. So
    threads meet within their calls, on however few processors."""

    said = ", interrupted"

    def __init__(self, folder):
        """Compiles the library in a folder."""
        self.path = compiled(folder, "interrupting")

    def variables(self, number):
        """Returns what the environment has to say so that a program's threads are interrupted, at times drawn from a number."""
        return {"LD_PRELOAD": self.path, "STRAYS": str(number)}
