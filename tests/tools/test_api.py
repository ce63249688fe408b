#!/usr/bin/env python3
"""Tests tools/release/api: a C compiler has to find the same sizes, offsets, numbers, parameters and results in the
header, for 64 bits and for 32 if it can, and dist/c/scard.c has to have each call that needs no memory. dist/api.json
has to be what the script writes."""

import json
import pathlib
import shutil
import subprocess
import sys
import tempfile
import unittest

sys.dont_write_bytecode = True
from copies import TOP, script

tool = script("release/api")
FLAGS = ["-std=c99", "-Wall", "-Wextra", "-Werror"]
HEADER = """/* struct scard_no { */
#define SCARD_ROOM 9
enum scard_short { SCARD_A = 0, SCARD_B = 7 };
enum scard_long {
    SCARD_C = 16, /* a remark, with a comma */
    SCARD_D = 255
};
struct scard_inner {
    uint8_t one, other;
};
struct scard_outer {
    struct scard_inner inner[2];
    const char *text;
    scard_size size;
    uint8_t kept[SCARD_ROOM];
};
void scard_plain(const struct scard_outer *outer, uint8_t *out, size_t room);
#ifndef SCARD_NO_HANDLES
struct scard_inner scard_owned(void);
#endif /* SCARD_NO_HANDLES */
"""


def prototype(name, call):
    """A pointer to a call that has the parameters and the result of the JSON."""
    takes = [("const " if it.get("const") else "") + it["type"] + (" *" if it.get("pointer") else "")
             for it in call["parameters"]]
    return f"{call['result']} (*pointer_to_{name})({', '.join(takes) or 'void'}) = {name};"


def program(api, width):
    """A program in C that doesn't compile if anything of the JSON differs from the header, and that calls all that is
    in scard.c."""
    same = [f"sizeof(struct {name}) == {it['size'][width]}" for name, it in api["structs"].items()]
    same += [f"offsetof(struct {name}, {one['name']}) == {one['offset'][width]}"
             for name, it in api["structs"].items() for one in it["members"]]
    same += [f"{name} == {value}" for rows in [api["constants"], *api["enums"].values()] for name, value in rows.items()]
    checks = [f"typedef char is_{at}[({it}) ? 1 : -1];" for at, it in enumerate(same)]
    calls = {name: it for name, it in api["calls"].items() if not it["memory"]}
    pointers = [prototype(name, it) for name, it in calls.items()]
    uses = " && ".join(f"pointer_to_{name}" for name in calls)
    return "\n".join(['#include "scard.h"', *checks, *pointers, f"int main(void) {{ return !({uses}); }}", ""]), len(same)


class Api(unittest.TestCase):
    def compiled(self, text, *words):
        """Compiles a program, with dist/c/scard.c if `words` says so. Returns what the compiler says."""
        with tempfile.TemporaryDirectory() as work:
            file = pathlib.Path(work) / "api.c"
            file.write_text(text)
            return subprocess.run(["cc", *FLAGS, f"-I{TOP}/dist/c", "-o", f"{work}/api", file, *words], check=False,
                                  stdout=subprocess.PIPE, stderr=subprocess.STDOUT, text=True)

    def test_dist_has_what_is_written(self):
        with tempfile.TemporaryDirectory() as work:
            file = pathlib.Path(work) / "api.json"
            self.assertEqual(tool.main([str(file)]), 0)
            self.assertEqual(file.read_text(), (TOP / "dist/api.json").read_text(), "tools/release/dist makes it again")

    def test_a_header(self):
        api = json.loads(tool.lines(tool.api(HEADER)))
        self.assertEqual(api["constants"], {"SCARD_ROOM": 9})
        self.assertEqual(api["enums"], {"scard_short": {"SCARD_A": 0, "SCARD_B": 7},
                                        "scard_long": {"SCARD_C": 16, "SCARD_D": 255}})
        outer = api["structs"]["scard_outer"]
        self.assertEqual(outer["size"], {"32": 32, "64": 40})
        self.assertEqual([it["offset"] for it in outer["members"]],
                         [{"32": 0, "64": 0}, {"32": 4, "64": 8}, {"32": 8, "64": 16}, {"32": 16, "64": 24}])
        self.assertEqual(outer["members"][1], {"name": "text", "type": "char", "pointer": True, "const": True,
                                               "offset": {"32": 4, "64": 8}})
        self.assertEqual(outer["members"][0]["count"], 2)
        self.assertEqual({name: it["memory"] for name, it in api["calls"].items()},
                         {"scard_plain": False, "scard_owned": True})
        self.assertEqual(api["calls"]["scard_plain"]["parameters"][2], {"name": "room", "type": "size_t"})

    def test_a_name_without_a_number(self):
        with self.assertRaises(tool.Unfit):
            tool.api("enum scard_odd { SCARD_A, SCARD_B = 1 };\n")

    @unittest.skipUnless(shutil.which("cc"), "there is no C compiler cc")
    def test_a_compiler_finds_the_same(self):
        api = json.loads((TOP / "dist/api.json").read_text())
        text, count = program(api, "64")
        self.assertGreater(count, 450)
        done = self.compiled(text, TOP / "dist/c/scard.c")
        self.assertEqual(done.returncode, 0, done.stdout[-2000:])

    @unittest.skipUnless(shutil.which("cc"), "there is no C compiler cc")
    def test_a_compiler_for_32_bits_finds_the_same(self):
        api = json.loads((TOP / "dist/api.json").read_text())
        narrow = ("-m32", "-ffreestanding", "-c")
        if self.compiled("#include <stdint.h>\nint main(void) { return 0; }\n", *narrow).returncode:
            self.skipTest("this compiler has no -m32")
        done = self.compiled(program(api, "32")[0], *narrow)
        self.assertEqual(done.returncode, 0, done.stdout[-2000:])

    @unittest.skipUnless(shutil.which("cc"), "there is no C compiler cc")
    def test_each_difference_is_found(self):
        """A wrong size, offset, number, parameter, result or const doesn't compile."""
        for change in (lambda it: it["structs"]["scard_atr"]["size"].update({"64": 242}),
                       lambda it: it["structs"]["scard_verdict"]["members"][2]["offset"].update({"64": 4}),
                       lambda it: it["enums"]["scard_status"].update(SCARD_MORE=5),
                       lambda it: it["constants"].update(SCARD_BLOCK_ROOM=259),
                       lambda it: it["calls"]["scard_lrc"]["parameters"][0].pop("const"),
                       lambda it: it["calls"]["scard_lrc"].update(result="uint16_t"),
                       lambda it: it["calls"]["scard_lrc"]["parameters"].pop()):
            api = json.loads((TOP / "dist/api.json").read_text())
            change(api)
            self.assertNotEqual(self.compiled(program(api, "64")[0], "-c").returncode, 0)


if __name__ == "__main__":
    unittest.main()
