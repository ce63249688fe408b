#!/usr/bin/env python3
"""Tests tools/release/manual: each call of the library for C has a page, man can read its name, and a page that only
shows another one names one that is there."""

import pathlib
import re
import shutil
import subprocess
import sys
import tempfile
import unittest

sys.dont_write_bytecode = True
TOP = pathlib.Path(__file__).resolve().parents[2]
CALL = re.compile(r"^(?:static inline )?[a-z][\w *]*?\b(scard_\w+)\(", re.M)


class Pages(unittest.TestCase):
    def setUp(self):
        room = tempfile.TemporaryDirectory()
        self.addCleanup(room.cleanup)
        subprocess.run([TOP / "tools/release/manual", room.name], check=True)
        self.room = pathlib.Path(room.name)
        self.pages = self.room / "man3"

    def page_of(self, name):
        """The text of the page with a name, also of one that refers to another page."""
        text = (self.pages / f"{name}.3").read_text()
        other = re.fullmatch(r"\.so man3/(\w+)\.3\n", text)
        return self.page_of(other[1]) if other else text

    def calls(self):
        """The functions that the headers declare, except scard_version, which the overview has."""
        headers = (TOP / "include" / name for name in ("scard.h", "scard_session.h"))
        found = {call for header in headers for call in CALL.findall(header.read_text())}
        return found - {"scard_version"}

    def test_each_call_has_a_page_with_its_prototype(self):
        self.assertGreater(len(self.calls()), 100)
        for call in self.calls():
            self.assertIn(f"{call}(", self.page_of(call), call)
            self.assertRegex(self.page_of(call), rf'\.SS ".*\b{call}\b', call)

    def test_pages_that_show_another_one(self):
        texts = {page.name: page.read_text() for page in (self.room / "man5").iterdir()}
        shown = {name: text.removeprefix(".so ").strip() for name, text in texts.items() if text.startswith(".so ")}
        self.assertEqual(sorted(shown), ["scard-exchange.5", "scard-input.5"])
        for other in shown.values():
            self.assertIn(".SH DESCRIPTION", (self.room / other).read_text())

    def test_each_page_has_a_name_that_man_finds(self):
        if not shutil.which("lexgrog"):
            print("test_manual: the names that man finds: left out: there is no command lexgrog")
            return
        for page in self.pages.iterdir():
            if not page.read_text().startswith(".so "):
                said = subprocess.run(["lexgrog", page], capture_output=True, text=True, check=False)
                self.assertIn(f'"{page.stem} - ', said.stdout, page)


if __name__ == "__main__":
    unittest.main()
