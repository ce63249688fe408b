#!/usr/bin/env python3
"""Tests tools/release/dist if it can't make dist/: it leaves dist/ unchanged, leaves nothing beside it, and says why.
The tests use a separate repository and a toolchain that proves nothing."""

import os
import pathlib
import resource
import shutil
import subprocess
import tempfile
import unittest

TOP = pathlib.Path(__file__).resolve().parents[2]
# a module without functions
MODULE = b"\0asm\1\0\0\0" + b"".join(bytes((kind, 1, 0)) for kind in (1, 3, 6, 7, 10))
COMMANDS = ("sh", "cat", "cp", "env", "git", "mkdir", "python3", "sleep")


class Dist(unittest.TestCase):
    def setUp(self):
        work = tempfile.TemporaryDirectory()
        self.addCleanup(work.cleanup)
        self.top, self.bin, kit = (pathlib.Path(work.name) / it for it in ("top", "bin", "kit"))
        for name in ("tools/release", "tools/common", "include", "web", "dist", "crates"):
            (self.top / name).mkdir(parents=True)
        for folder in (self.bin, kit / "bin"):
            folder.mkdir(parents=True)
        for name in ("tools/release/dist", "tools/release/api", "tools/common/stack.py", "tools/common/words.py"):
            shutil.copy(TOP / name, self.top / name)
        for name in ("translator", "everywhere"):
            shutil.copytree(TOP / "tools/release" / name, self.top / "tools/release" / name)
        for name, guard in (("scard.h", "SCARD_H"), ("scard_session.h", "SCARD_SESSION_H")):
            (self.top / "include" / name).write_text(f"/* no call */\n#define {guard}\n")
        (self.top / "crates.txt").write_text("scard_lent staticlib:\nscard:\n")
        (self.top / "module").write_bytes(MODULE)
        (self.top / "dist/README.md").write_text("the old one\n")
        (kit / "KIT-ID").write_text("a toolchain\n")
        for name in ("wasm", "program"):
            self.script(self.top / "tools/release" / name, 'cat "${0%/*}/../../module" >"$1"')
        self.script(self.top / "tools/release/cortex", 'mkdir "$1" && echo an archive >"$1/libscard-cortex-m0.a"')
        self.script(self.top / "web/make", 'cat "$2" >"$1"')
        self.script(kit / "bin/rt", "exit 9")
        self.script(self.bin / "wasm-opt", '[ "$1" = --version ] && echo wasm-opt version 0 || [ "$5" ]')
        (self.bin / "rt").symlink_to(kit / "bin/rt")
        for name in COMMANDS:
            (self.bin / name).symlink_to(shutil.which(name))
        self.git("init", "-q")
        self.commit()

    def script(self, file, line):
        file.write_text(f"#!/bin/sh\n{line}\n")
        file.chmod(0o755)

    def git(self, *words):
        who = ["-c", "user.name=a", "-c", "user.email=a@b", "-c", "init.defaultBranch=main"]
        subprocess.run(["git", *who, *words], cwd=self.top, check=True, stdout=subprocess.DEVNULL)

    def commit(self):
        self.git("add", "-A")
        self.git("commit", "-q", "-m", "All")

    def made(self, **how):
        words = [self.top / "tools/release/dist"]
        # git doesn't write its index then, so that a small limit of a file's size is met by the script's own files
        env = {"PATH": str(self.bin), "HOME": "/nowhere", "GIT_OPTIONAL_LOCKS": "0"}
        how |= {"env": env, "stderr": subprocess.PIPE, "stdout": subprocess.PIPE}
        return subprocess.run(words, check=False, text=True, timeout=60, **how)

    def left(self):
        """The files of dist/, and the entries whose name begins like that of its working folder."""
        return sorted(it.name for it in (self.top / "dist").rglob("*") if it.is_file()), [*self.top.glob(".dist*")]

    def refused(self, words, **how):
        done = self.made(**how)
        self.assertEqual((done.returncode, self.left()), (1, (["README.md"], [])), done.stderr)
        self.assertEqual((self.top / "dist/README.md").read_text(), "the old one\n")
        self.assertRegex(done.stderr.splitlines()[-1], f"^(tools/release/dist: |[ MA?]).*{words}")
        self.assertNotIn("Traceback", done.stderr)

    def test_dist_is_made(self):
        done = self.made()
        self.assertEqual((done.returncode, done.stderr), (0, ""))
        files = """README.md SHA256SUMS api.json libscard-cortex-m0.a libscard.wasm scard.c scard.h scard.html scard.mjs
        scard.sources scard.wasm scard_session.h"""
        self.assertEqual(self.left(), (files.split(), []))
        self.assertIn("a toolchain", (self.top / "dist/README.md").read_text())
        for name, times in (("scard.h", 1), ("scard_session.h", 0)):
            self.assertEqual((self.top / "dist/c" / name).read_text().count("#define SCARD_NO_HANDLES\n"), times)

    def test_no_toolchain(self):
        (self.bin / "rt").unlink()
        self.refused("no command rt is on the PATH")

    def test_no_binaryen_and_nothing_that_installs_it(self):
        (self.bin / "wasm-opt").unlink()
        self.refused("binaryen has to be installed by hand")

    def test_binaryen_that_is_not_installed(self):
        (self.bin / "wasm-opt").unlink()
        self.script(self.bin / "apt-get", "echo no network >&2; exit 100")
        self.refused("binaryen can't be installed: apt-get failed: no network")

    def test_sources_that_are_not_committed(self):
        (self.top / "include/scard.h").write_text("/* another */\n")
        self.refused("include/scard.h")

    def test_a_step_that_fails(self):
        for file, words in (("tools/release/wasm", "wasm failed: no"), ("web/make", "make failed: no"),
                            ("tools/release/cortex", "cortex failed: no"), ("tools/release/api", "api failed: no"),
                            ("tools/release/program", "program failed: no")):
            text = (self.top / file).read_text()
            self.script(self.top / file, "echo no >&2; exit 1")
            self.commit()
            self.refused(words)
            (self.top / file).write_text(text)

    def test_a_module_that_is_none(self):
        (self.top / "module").write_text("none")
        self.refused("it is no module")

    def test_a_disk_without_room(self):
        self.refused("File too large", preexec_fn=lambda: resource.setrlimit(resource.RLIMIT_FSIZE, (4096, 4096)))

    def test_an_end_from_outside(self):
        self.script(self.top / "web/make", f"kill -TERM $PPID; sleep 1; echo {os.getpid()}")
        self.commit()
        done = self.made()
        self.assertEqual((done.returncode, self.left()), (1, (["README.md"], [])), done.stderr)


if __name__ == "__main__":
    unittest.main()
