#!/usr/bin/env python3
"""Tests that what is built over libraries takes only those of the present files: ./build --below, and the scripts that
call it. The crates are three small ones, and the toolchain is a folder with a name of itself."""

import os
import pathlib
import shutil
import subprocess
import sys
import tempfile
import unittest

sys.dont_write_bytecode = True
from copies import TOP

NEEDED = ("build", "tools/common", "tools/release/archive", "tools/release/program", "tools/release/everywhere",
          "tools/release/translator")
ROWS = "low:\nmiddle: low\nfor_c staticlib: middle\nscard: middle\n"
LIBRARIES = ("low", "middle")


class OverLibraries(unittest.TestCase):
    """Libraries that the gate has just built, in a repository of small crates."""

    def setUp(self):
        room = tempfile.TemporaryDirectory()
        self.addCleanup(room.cleanup)
        self.top, self.kit = pathlib.Path(room.name) / "top", pathlib.Path(room.name) / "kit"
        for name in NEEDED:
            (self.top / name).parent.mkdir(parents=True, exist_ok=True)
            (shutil.copytree if (TOP / name).is_dir() else shutil.copy)(TOP / name, self.top / name)
        for name in ("bin/rt", "bin/rattle", "KIT-ID"):
            (self.kit / name).parent.mkdir(parents=True, exist_ok=True)
            # the prover only says that it was called
            (self.kit / name).write_text("#!/bin/sh\necho proves\nexit 1\n")
            (self.kit / name).chmod(0o755)
        (self.kit / "toolchain/bin").mkdir(parents=True)
        (self.top / "crates.txt").write_text(ROWS)
        for name in ("low", "middle", "for_c", "scard"):
            self.file(name).parent.mkdir(parents=True)
            self.file(name).write_text(f"//! The crate {name}.\n")
        since = self.top / "since"
        since.touch()
        for name in LIBRARIES:
            self.library(name).parent.mkdir(parents=True)
            self.library(name).write_text(f"library {name}\n")
        self.assertEqual(self.called("build", "--adopt", since)[0], 0)

    def file(self, name):
        return self.top / f"crates/{name}/src" / ("main.rt" if name == "scard" else "lib.rt")

    def library(self, name):
        return self.top / f"crates/{name}/out/rlib/{name}.rlib/format"

    def called(self, name, *words):
        """The status of a script, and what it prints."""
        env = {**os.environ, "PATH": f"{self.kit}/bin:{os.environ['PATH']}", "PYTHONDONTWRITEBYTECODE": "1"}
        how = {"stdout": subprocess.PIPE, "stderr": subprocess.STDOUT, "text": True, "env": env}
        done = subprocess.run([*map(str, [self.top / name, *words])], check=False, **how)
        return done.returncode, done.stdout

    def refused(self):
        """The libraries that are refused below the program, as ./build and both scripts over it name them."""
        found = []
        for name, *words in (("build", "--below", "scard"), ("tools/release/archive", self.top / "to", "for_c")):
            status, text = self.called(name, *words)
            found.append(text.partition("the present files: ")[2].partition(";")[0].split())
            self.assertEqual("proves" in text, not found[-1] and name != "build", text)
            self.assertEqual(status != 0, bool(found[-1]) or name != "build", text)
        self.assertEqual(found[0], found[1])
        return found[0]

    def test_libraries_of_the_present_files_are_taken(self):
        self.assertEqual(self.refused(), [])

    def test_a_library_of_another_source(self):
        text = self.file("middle").read_text()
        self.file("middle").write_text(text + "// changed\n")
        self.assertEqual(self.refused(), ["middle"])
        self.file("middle").write_text(text)
        self.assertEqual(self.refused(), [])

    def test_a_library_over_another_one(self):
        self.file("low").write_text("//! Another.\n")
        self.assertEqual(self.refused(), ["low", "middle"])

    def test_another_library_in_its_place(self):
        self.library("low").write_text("another library\n")
        self.assertEqual(self.refused(), ["low"])

    def test_a_library_without_a_stamp_or_by_another_toolchain(self):
        self.library("middle").parent.with_suffix(".built").unlink()
        self.assertEqual(self.refused(), ["middle"])
        (self.kit / "KIT-ID").write_text("another\n")
        self.assertEqual(self.refused(), ["low", "middle"])

    def test_no_library(self):
        shutil.rmtree(self.library("low").parent)
        self.assertEqual(self.refused(), ["low"])

    def test_the_module_of_the_program(self):
        self.library("low").write_text("another library\n")
        # wasm-opt is only looked for
        (self.kit / "bin/wasm-opt").symlink_to(self.kit / "bin/rattle")
        status, text = self.called("tools/release/program", self.top / "module")
        self.assertEqual((status, "present files: low;" in text), (1, True), text)


if __name__ == "__main__":
    unittest.main()
