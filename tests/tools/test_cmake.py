#!/usr/bin/env python3
"""Tests tools/release/cmake: a project of CMake finds the library in a prefix, and in one with Debian's folders, and
links both of its targets. A version that doesn't fit is refused. The library is that of dist/c."""

import pathlib
import shutil
import subprocess
import tempfile
import unittest

TOP = pathlib.Path(__file__).resolve().parents[2]
VERSION = (TOP / "VERSION").read_text().strip()
PROJECT = """cmake_minimum_required(VERSION 3.13)
project(tries C)
find_package(scard @VERSION@ REQUIRED)
find_package(scard REQUIRED)
foreach(target scard archive)
  add_executable(with_${target} first.c)
  target_link_libraries(with_${target} scard::${target})
endforeach()
"""


@unittest.skipUnless(shutil.which("cmake") and shutil.which("cc"), "there is no command cmake, or no cc")
class Cmake(unittest.TestCase):
    @classmethod
    def setUpClass(cls):
        room = tempfile.TemporaryDirectory()
        cls.addClassCleanup(room.cleanup)
        cls.work = pathlib.Path(room.name)
        compiles = ["cc", "-O0", "-fPIC", f"-I{TOP}/dist/c", "-c", TOP / "dist/c/scard.c", "-o", cls.work / "scard.o"]
        subprocess.run([*map(str, compiles)], check=True)

    def prefix(self, name, libraries, headers):
        """A prefix with the library in a folder."""
        folder = self.work / name / libraries
        folder.mkdir(parents=True)
        (self.work / name / "include").mkdir()
        shutil.copy(TOP / "dist/c/scard.h", self.work / name / "include")
        soname = f"libscard.so.{VERSION.split('.')[0]}"
        subprocess.run(["ar", "rcs", folder / "libscard.a", self.work / "scard.o"], check=True)
        subprocess.run(["cc", "-shared", f"-Wl,-soname,{soname}", "-o", folder / soname, self.work / "scard.o"], check=True)
        (folder / "libscard.so").symlink_to(soname)
        subprocess.run([TOP / "tools/release/cmake", folder, headers], check=True)
        return self.work / name

    def configured(self, prefix, version):
        """Configures a project over a prefix, in a folder of its own."""
        project = pathlib.Path(tempfile.mkdtemp(dir=self.work))
        (project / "CMakeLists.txt").write_text(PROJECT.replace("@VERSION@", version))
        shutil.copy(TOP / "examples/c/FIRST.c", project / "first.c")
        words = ["cmake", f"-DCMAKE_PREFIX_PATH={prefix}", "-DCMAKE_LIBRARY_ARCHITECTURE=x86_64-linux-gnu"]
        done = subprocess.run([*words, "-S", project, "-B", project / "build"], check=False, stdout=subprocess.PIPE,
                              stderr=subprocess.STDOUT, text=True)
        return project / "build", done

    def links(self, prefix):
        build, done = self.configured(prefix, VERSION)
        self.assertEqual(done.returncode, 0, done.stdout)
        subprocess.run(["cmake", "--build", build], check=True, stdout=subprocess.DEVNULL)
        for target in ("scard", "archive"):
            said = subprocess.run([build / f"with_{target}"], check=True, stdout=subprocess.PIPE, text=True).stdout
            self.assertEqual(said, "ok 9 octets\n")

    def test_a_prefix(self):
        self.links(self.prefix("plain", "lib", "../include"))

    def test_folders_of_debian(self):
        self.links(self.prefix("debian", "lib/x86_64-linux-gnu", "../../include"))

    def test_versions(self):
        prefix = self.prefix("versions", "lib", "../include")
        major, minor, patch = map(int, VERSION.split("."))
        for version, fits in ((f"{major}.0", True), (f"{major}", True), (f"{major}.{minor}.{patch + 1}", False),
                              (f"{major + 1}", False), (f"{major - 1}.9", False)):
            self.assertEqual(self.configured(prefix, version)[1].returncode == 0, fits, version)


if __name__ == "__main__":
    unittest.main()
