"""Helpers for the tests of scripts: a script as a module, and copies of the files that it changes."""

import contextlib
import importlib.machinery
import importlib.util
import io
import pathlib
import shutil
import sys
import tempfile
import unittest
import unittest.mock

sys.dont_write_bytecode = True
TOP = pathlib.Path(__file__).resolve().parents[2]
sys.path.insert(0, str(TOP / "tools/common"))


def script(path):
    """A script of tools/ as a module, by its folder there and its name."""
    file = TOP / "tools" / path
    loader = importlib.machinery.SourceFileLoader(file.name.replace("-", "_"), str(file))
    module = importlib.util.module_from_spec(importlib.util.spec_from_loader(loader.name, loader))
    sys.modules[loader.name] = module
    loader.exec_module(module)
    return module


class OverCopies(unittest.TestCase):
    """Tests of a script over copies of FILES, in a folder that is deleted after each test."""

    FILES = ()

    def setUp(self):
        room = tempfile.TemporaryDirectory()
        self.addCleanup(room.cleanup)
        self.top = pathlib.Path(room.name)
        for file in self.FILES:
            (self.top / file).parent.mkdir(parents=True, exist_ok=True)
            self.restore(file)

    def restore(self, file):
        """Copies a file once more."""
        shutil.copy(TOP / file, self.top / file)

    def text(self, file):
        """The text of a file."""
        return (self.top / file).read_text()

    def texts(self):
        """The text of each file."""
        return [self.text(it) for it in self.FILES]

    def change(self, file, old, new):
        """Replaces the first occurrence of a text in a file."""
        self.assertIn(old, self.text(file), file)
        (self.top / file).write_text(self.text(file).replace(old, new, 1))


class OfTool(OverCopies):
    """Tests of a script whose folder TOP is that of the copies."""

    TOOL = None

    def setUp(self):
        super().setUp()
        patch = unittest.mock.patch.object(self.TOOL, "TOP", self.top)
        patch.start()
        self.addCleanup(patch.stop)

    def said(self, *words):
        """The status and the output of a call."""
        return printed(self.TOOL.main, [*words])


def printed(call, *words):
    """What a call returns, and what it prints."""
    with contextlib.redirect_stdout(io.StringIO()) as out:
        status = call(*words)
    return status, out.getvalue()
