#!/usr/bin/env python3
"""Tests tools/release/names: it finds an enum of a package that differs from dist/api.json, and writes it."""

import pathlib
import sys
import unittest
import unittest.mock

sys.dont_write_bytecode = True
from copies import OfTool, script

tool = script("release/names")
PYTHON, JAVASCRIPT, TYPES = "python/scard/_numbers.py", "javascript/numbers.mjs", "javascript/index.d.ts"
API = "dist/api.json"


class Names(OfTool):
    FILES, TOOL = (PYTHON, JAVASCRIPT, TYPES, API), tool

    def setUp(self):
        super().setUp()
        patch = unittest.mock.patch.object(tool, "API", pathlib.Path(self.top) / API)
        patch.start()
        self.addCleanup(patch.stop)

    def test_the_files_of_the_repository_are_as_the_header(self):
        self.assertEqual(self.said("--check"), (0, ""))

    def test_a_number_that_differs_is_named_and_written(self):
        before = self.texts()
        for file, old, new in ((PYTHON, "NO_CHAIN = 19", "NO_CHAIN = 20"), (JAVASCRIPT, "NO_CHAIN: 19", "NO_CHAIN: 20"),
                               (TYPES, "NO_CHAIN: 19", "NO_CHAIN: 20")):
            self.change(file, old, new)
            said = f"names: {file} isn't that of dist/api.json: run tools/release/names\n"
            self.assertEqual(self.said("--check"), (1, said))
            self.assertEqual(self.said()[0], 0)
            self.assertEqual(self.texts(), before)

    def test_a_new_number_comes_into_each_package(self):
        self.change(API, '"SCARD_ASKED_RESYNCH": 4', '"SCARD_ASKED_RESYNCH": 4, "SCARD_ASKED_ALL_THE_REST": 5')
        self.assertEqual(self.said("--check")[0], 1)
        self.assertEqual(self.said()[0], 0)
        self.assertIn("    RESYNCH = 4\n    ALL_THE_REST = 5\n", self.text(PYTHON))
        self.assertIn("    RESYNCH: 4,\n    ALL_THE_REST: 5,\n", self.text(JAVASCRIPT))
        self.assertIn(" readonly RESYNCH: 4;\n    readonly ALL_THE_REST: 5;\n};\n", self.text(TYPES))
        self.assertLessEqual(max(map(len, self.text(TYPES).splitlines())), 120)

    def test_an_enum_that_nothing_mentions_is_refused(self):
        self.change(API, '"scard_asked": {', '"scard_whim": {"SCARD_WHIM_NONE": 0}, "scard_asked": {')
        with self.assertRaisesRegex(SystemExit, "scard_whim: neither in the table"):
            tool.main([])


if __name__ == "__main__":
    unittest.main()
