"""The Java development kit that JAVA_HOME names, or that `java` on the path belongs to, and what is built with it."""

import os
import shutil
import subprocess
import sys
from copy import copy

HERE = os.path.dirname(os.path.abspath(__file__))
OUT = os.path.join(HERE, "..", "out", "hotspot")


class Kit:
    """A kit, with what it built for one program: NAME.c and the Java class CLASS."""

    def __init__(self, class_name):
        java = shutil.which("java")
        home = os.environ.get("JAVA_HOME") or java and os.path.dirname(os.path.dirname(os.path.realpath(java)))
        if not home or not os.path.isfile(os.path.join(home, "include", "jni.h")):
            sys.exit("no Java development kit with include/jni.h: set JAVA_HOME")
        self.home, self.class_name = home, class_name
        self.library = os.path.abspath(os.path.join(OUT, f"lib{class_name.lower()}.so"))
        self.build()

    def build(self):
        """Builds the library of native methods and the class."""
        os.makedirs(OUT, exist_ok=True)
        self.build_library(os.path.join(HERE, f"{self.class_name.lower()}.c"))
        subprocess.run([os.path.join(self.home, "bin", "javac"), "-d", OUT, os.path.join(HERE, f"{self.class_name}.java")], check=True)

    def build_library(self, source):
        """Builds the library from a C file."""
        include = os.path.join(self.home, "include")
        flags = ["-std=gnu11", "-O2", "-Wall", "-Wextra", "-fPIC", "-shared", "-pthread", f"-I{include}", f"-I{include}/linux"]
        subprocess.run(["gcc", *flags, "-o", self.library, source], check=True)

    def built_from(self, source):
        """Returns a kit that differs in its library alone, which is built from another C file."""
        other = copy(self)
        other.library = f"{os.path.abspath(source)}.so"
        other.build_library(source)
        return other

    def has(self, option):
        """Returns whether the machine starts with an option."""
        return subprocess.run([os.path.join(self.home, "bin", "java"), option, "-version"], capture_output=True, check=False).returncode == 0

    def command(self, options, words):
        """Returns the command that runs the class with the machine's options, whose first word is the library."""
        return [os.path.join(self.home, "bin", "java"), *options, "-cp", os.path.abspath(OUT), self.class_name, self.library, *words]

    def version(self):
        """Returns what the machine says of itself."""
        return subprocess.run([os.path.join(self.home, "bin", "java"), "-version"], capture_output=True, text=True, check=True).stderr.strip()
