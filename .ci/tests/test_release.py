"""Tries what keeps a release from being handed out, and how the static library in it is made."""

import os
import subprocess
import unittest

from shared import CI, repository, script

RELEASE, ARCHIVE = script("../release"), script("../crates/luthrady/archive")
FILES = {"crates.txt": "one:\n", "crates/one/src/lib.rt": "", "CHANGELOG.md": "# Changes\n\n## 1.2.3\n", ".gitignore": "out/\n", RELEASE.ARCHIVE: ""}
GATE = "logic=proved functions=1 sum=abc\n3 passed, 0 failed\n"


class InTheWay(unittest.TestCase):
    """A revision of a small repository."""

    def told(self, version="1.2.3", gate=GATE, passed=None, change=None):
        """Returns what keeps the version from being handed out, where the gate passed a revision and then a file is changed."""
        with repository({it: FILES[it] for it in FILES}):
            for words in (("init", "-q"), ("add", "-A"), ("-c", "user.name=a", "-c", "user.email=a@b", "commit", "-qm", "one")):
                subprocess.run(["git", *words], check=True)
            os.makedirs("out")
            with open(RELEASE.PASSED_AT, "w", encoding="utf-8") as file:
                file.write(passed or RELEASE.said("git", "rev-parse", "HEAD"))
            if change:
                with open(change, "a", encoding="utf-8") as file:
                    file.write("\n")
                os.utime(change, (2e9, 2e9))
            return [*RELEASE.in_the_way(version, gate)]

    def test_a_passed_revision_is_handed_out(self):
        self.assertEqual(self.told(), [])

    def test_each_thing_in_the_way_is_told(self):
        for how, part in (
            ({"version": "1.2.4"}, "CHANGELOG.md has no heading"),
            ({"gate": "3 passed, 1 failed\n"}, "the gate did not pass"),
            ({"passed": "another"}, "the gate did not pass"),
            ({"change": "CHANGELOG.md"}, "a file differs"),
        ):
            (said,) = self.told(**how)
            self.assertIn(part, said)

    def test_a_library_that_is_older_than_a_source_is_told(self):
        self.assertIn("older than a source", self.told(change="crates/one/src/lib.rt")[-1])


class Archive(unittest.TestCase):
    """The static library over a library of a small repository."""

    def command(self, *built, changed=None):
        """Returns the command that makes it, where these libraries stand and then a text is changed."""
        with repository({"crates.txt": "low:\nhigh: low\nluthrady staticlib: high\n", **{f"crates/{it}/src/lib.rt": "" for it in ("low", "high", "luthrady")}}):
            for at, name in enumerate(built):
                os.makedirs(f"crates/{name}/out/rlib/{name}.rlib")
                os.utime(f"crates/{name}/out/rlib/{name}.rlib", (2e9 + at, 2e9 + at))
            if changed:
                os.utime(changed, (2.1e9, 2.1e9))
            return ARCHIVE.command()

    def test_it_stands_over_the_libraries_that_stand(self):
        words = self.command("low", "high")
        self.assertEqual(words[1], "build")
        self.assertTrue(any(it.startswith("high=") for it in words) and "staticlib" in words)

    def test_else_all_are_proved(self):
        for built, changed in ((("low",), None), (("high", "low"), None), (("low", "high"), "crates/low/src/lib.rt")):
            self.assertEqual(self.command(*built, changed=changed), ["rt", "lib"])
