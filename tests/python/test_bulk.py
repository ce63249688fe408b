"""Runs examples/bulk: the report doesn't depend on how the file is cut, or on workers that end early. The traces are
few here; BULK_TRACES says another number."""
import importlib.util
import os
import pathlib
import shutil
import subprocess
import sys
import tempfile
import unittest

import scard

HERE = pathlib.Path(__file__).resolve().parent
BULK = HERE.parents[1] / "examples/bulk"
TRACES = int(os.environ.get("BULK_TRACES", "3000"))
ENVIRONMENT = {**os.environ, "PYTHONPATH": str(pathlib.Path(scard.__file__).parents[1]), "PYTHONDONTWRITEBYTECODE": "1"}
# ends itself, once, while its first piece is judged
ENDS_ONCE = """#!/bin/sh
if [ "$2" = piece ] && mkdir "%s" 2>/dev/null; then
    %s "$@" &
    kill -9 $! $$
fi
exec %s "$@"
"""


def load(name):
    """A program of the folder as a module."""
    spec = importlib.util.spec_from_file_location(name, BULK / f"{name}.py")
    module = importlib.util.module_from_spec(spec)
    spec.loader.exec_module(module)
    return module


def ran(*words, **more):
    """What a command prints."""
    done = subprocess.run([*map(str, words)], env={**ENVIRONMENT, **more}, check=False, text=True,
                          stdout=subprocess.PIPE, stderr=subprocess.PIPE)
    if done.returncode:
        raise AssertionError(f"{words}: {done.stderr[-2000:]}")
    return done.stdout


def with_distributed():
    """An interpreter that has Dask's distributed scheduler and can import the package, or None."""
    for python in dict.fromkeys((sys.executable, "/usr/bin/python3")):
        words = [python, "-c", "import distributed, scard"]
        if pathlib.Path(python).exists() and subprocess.run(words, env=ENVIRONMENT, check=False,
                                                            stderr=subprocess.DEVNULL).returncode == 0:
            return python
    return None


class Bulk(unittest.TestCase):
    @classmethod
    def setUpClass(cls):
        room = tempfile.TemporaryDirectory()
        cls.addClassCleanup(room.cleanup)
        cls.room, cls.bulk = pathlib.Path(room.name), load("bulk")
        cls.file = cls.room / "traces"
        cls.file.write_text(ran(sys.executable, BULK / "make_traces.py", TRACES))
        cls.report = ran(sys.executable, BULK / "bulk.py", cls.file)

    def test_the_report_of_one_process(self):
        lines = self.report.splitlines()
        self.assertEqual(lines[0], f"{TRACES} traces")
        self.assertIn(f"  deviates: {TRACES // 10}, first trace-9 trace-19", self.report)
        self.assertIn(f"  ok: {TRACES - TRACES // 10}", lines)

    def test_each_line_is_in_one_piece(self):
        """Also if pieces are as long as lines, or shorter."""
        short = self.room / "short"
        for text in ("a\nbb\n\nccc\nd", "\n\n", "a", "aa\naa\naa\n"):
            short.write_text(text)
            wanted = text.encode().split(b"\n")[:-1] if text.endswith("\n") else text.encode().split(b"\n")
            for count in range(1, 15):
                found = [it for one in self.bulk.pieces(short, count) for it in self.bulk.lines_of(short, *one)]
                self.assertEqual(found, wanted, (text, count))

    def test_pieces_in_any_order(self):
        found = [self.bulk.piece(self.file, *it) for it in self.bulk.pieces(self.file, 9)]
        self.assertEqual(self.bulk.report(self.file, found[::-1]) + "\n", self.report)
        for wrong in (found[1:], found[:-1], [*found, found[3]], []):
            self.assertRaises(SystemExit, self.bulk.report, self.file, wrong)

    def test_with_parallel(self):
        """One process ends in the midst, and its piece is judged again."""
        if not shutil.which("parallel"):
            print("python: many traces by GNU parallel: left out: there is no command parallel")
            return
        python, mark = self.room / "python", self.room / "ended"
        python.write_text(ENDS_ONCE % (mark, sys.executable, sys.executable))
        python.chmod(0o755)
        words = [BULK / "with_parallel", self.file, self.room / "done", 2]
        self.assertEqual((ran(*words, PYTHON=str(python)), mark.exists()), (self.report, True))
        for name in list((self.room / "done").glob("*.json"))[::2]:
            name.unlink()
        self.assertEqual(ran(*words, PYTHON=sys.executable), self.report)

    def test_with_dask(self):
        """One worker of two ends in the midst, and another judges its pieces again."""
        python = with_distributed()
        if python is None:
            print("python: many traces by Dask: left out: no interpreter has Debian's python3-distributed")
            return
        self.assertEqual(ran(python, BULK / "with_dask.py", self.file, 2), self.report)
        said = ran(python, HERE / "bulk_killed.py", BULK, self.file)
        self.assertEqual(said, f"{self.report}1 worker ended in the midst\n")


if __name__ == "__main__":
    unittest.main(verbosity=0)
