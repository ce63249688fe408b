#!/usr/bin/env python3
"""Tests tools/release/symbols over a library of empty functions with all calls of the header, and over one with those
that need no memory: which calls it lists, and what dpkg-shlibdeps says that a program of each kind needs."""

import pathlib
import re
import shutil
import subprocess
import tempfile
import unittest

TOP = pathlib.Path(__file__).resolve().parents[2]
VERSION = (TOP / "VERSION").read_text().strip()
MAJOR = VERSION.split(".")[0]
SONAME = f"libscard.so.{MAJOR}"
CALLS = re.findall(r"^(scard_\w+) ", (TOP / "tools/release/symbols.txt").read_text(), re.M)
WITH_MEMORY = {"scard_close", "scard_terminal_open", "scard_reader_feed", "scard_message", "scard_atr_reader_value"}


def run(*words, **how):
    """Runs a command, and returns what it prints."""
    return subprocess.run([*map(str, words)], check=True, stdout=subprocess.PIPE, text=True, **how).stdout


@unittest.skipUnless(shutil.which("cc") and shutil.which("nm"), "there is no command cc, or no nm")
class Symbols(unittest.TestCase):
    def setUp(self):
        room = tempfile.TemporaryDirectory()
        self.addCleanup(room.cleanup)
        self.work = pathlib.Path(room.name)

    def library(self, calls):
        """A shared library with these calls, none of which does anything."""
        (self.work / "library.c").write_text("".join(f"void {call}(void) {{}}\n" for call in calls))
        library = self.work / SONAME
        run("cc", "-shared", "-fPIC", f"-Wl,-soname,{SONAME}", self.work / "library.c", "-o", library)
        return library

    def listed(self, calls):
        """The lines of the symbols file of such a library."""
        return run(TOP / "tools/release/symbols", self.library(calls)).splitlines()

    def test_all_calls(self):
        lines = self.listed(CALLS)
        self.assertEqual(lines[:3], [f"{SONAME} libscard{MAJOR} #MINVER#", f"| libscard{MAJOR}-handles #MINVER#",
                                     "* Build-Depends-Package: libscard-dev"])
        self.assertEqual([it.split("@")[0].strip() for it in lines[3:]], sorted(CALLS))
        marked = {it.split("@")[0].strip() for it in lines[3:] if it.endswith(" 1")}
        self.assertLessEqual(WITH_MEMORY, marked)
        self.assertFalse(any("lent" in it or "decode" in it for it in marked), marked)

    def test_calls_without_memory(self):
        lines = self.listed([it for it in CALLS if it.startswith("scard_lent_")])
        self.assertFalse(any("handles" in it or it.endswith(" 1") for it in lines), lines)

    def test_an_unknown_call_is_refused(self):
        with self.assertRaises(subprocess.CalledProcessError):
            run(TOP / "tools/release/symbols", self.library(["scard_unknown"]), stderr=subprocess.DEVNULL)

    @unittest.skipUnless(shutil.which("dpkg-shlibdeps"), "there is no command dpkg-shlibdeps")
    def test_what_programs_need(self):
        package = self.work / f"debian/libscard{MAJOR}"
        (package / "DEBIAN").mkdir(parents=True)
        (package / "DEBIAN/symbols").write_text("\n".join(self.listed(CALLS)) + "\n")
        (self.work / "debian/control").write_text(
            "Source: tries\n\nPackage: tries\nArchitecture: any\n\n"
            f"Package: libscard{MAJOR}\nArchitecture: any\n")
        (package / "usr/lib").mkdir(parents=True)
        shutil.copy(self.work / SONAME, package / "usr/lib" / SONAME)
        for call, needs in (("scard_lrc", False), ("scard_close", True)):
            (self.work / "program.c").write_text(f"void {call}(void);\nint main(void) {{ {call}(); return 0; }}\n")
            run("cc", self.work / "program.c", self.work / SONAME, "-o", self.work / call)
            said = run("dpkg-shlibdeps", f"-Sdebian/libscard{MAJOR}", "-O", self.work / call,
                       cwd=self.work, stderr=subprocess.DEVNULL)
            self.assertEqual(f"libscard{MAJOR}-handles (>= " in said, needs, said)
            self.assertIn(f"libscard{MAJOR} (>= ", said)


if __name__ == "__main__":
    unittest.main()
