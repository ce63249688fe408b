#!/usr/bin/env python3
"""Tests how the program's module is made and written as C: what tools/release/everywhere refuses, and that each
instruction does the same in C as in node."""

import pathlib
import random
import re
import shutil
import struct
import subprocess
import sys
import tempfile
import unittest

sys.dont_write_bytecode = True
from copies import TOP, script

EVERYWHERE = TOP / "tools/release/everywhere"
sys.path[:0] = [str(EVERYWHERE), str(EVERYWHERE.parent / "translator")]
import functions
import parts
import reading
import retarget
import wasm
from bodies import Value
from loops import ALL, Sum
from wasm import Unfit

I32, I64, F64 = 0x7F, 0x7E, 0x7C
LOADS = {I32: 0x28, I64: 0x29, F64: 0x2B}
STORES = {I32: 0x36, I64: 0x37, F64: 0x39}
ROOM, OUT, LARGEST_MOVE = 1024, 8192, 4096
STRICT = ["-std=c99", "-O1", "-Wall", "-Wextra", "-pedantic", "-Werror"]
WORDS, POINTER = 0, 2
# instructions on two numbers of a type with a result of a type, on one number, loads and stores
TWO = [*((it, I32, I32) for it in [*range(0x46, 0x50), 0x6A, 0x6B, 0x6C, 0x6E, *range(0x70, 0x79)]),
       *((it, I64, I32) for it in range(0x51, 0x5B)), *((it, F64, I32) for it in range(0x61, 0x67)),
       *((it, I64, I64) for it in [0x7C, 0x7D, 0x7E, 0x80, *range(0x82, 0x8B)]),
       *((it, F64, F64) for it in range(0xA0, 0xA4))]
ONE = [(0x45, I32, I32), (0x50, I64, I32), *((it, I32, I32) for it in (0x67, 0x68, 0x69, 0xC0, 0xC1)),
       *((it, I64, I64) for it in (0x79, 0x7A, 0x7B, 0xC2, 0xC3, 0xC4)), (0xA7, I64, I32), (0xAC, I32, I64),
       (0xAD, I32, I64), (0x9A, F64, F64), (0xB9, I64, F64), (0xBA, I64, F64), (0xBD, F64, I64), (0xBF, I64, F64)]
LOADED = [*((it, I32) for it in (0x28, 0x2C, 0x2D, 0x2E, 0x2F)), *((it, I64) for it in (0x29, *range(0x30, 0x36)))]
STORED = [*((it, I32) for it in (0x36, 0x3A, 0x3B)), *((it, I64) for it in (0x37, 0x3C, 0x3D, 0x3E))]


def number(value):
    """A number in LEB128."""
    octets = b""
    while value > 0x7F:
        octets, value = octets + bytes([value & 0x7F | 0x80]), value >> 7
    return octets + bytes([value])


def signed(value):
    """A signed number in LEB128."""
    octets = b""
    while not -64 <= value < 64:
        octets, value = octets + bytes([value & 0x7F | 0x80]), value >> 7
    return octets + bytes([value & 0x7F])


def listed(items):
    return number(len(items)) + b"".join(items)


def section(kind, body):
    return bytes([kind]) + number(len(body)) + body


def kind(takes, gives):
    return b"\x60" + listed([bytes([it]) for it in takes]) + listed([bytes([it]) for it in gives])


def name(text):
    return number(len(text)) + text.encode()


def get(place):
    return b"\x20" + number(place)


def const32(value):
    return b"\x41" + signed(value)


def access(code, place):
    return bytes([code, 0]) + number(place)


class Body:
    """Instructions, each of which leaves 8 octets of a result in memory."""

    def __init__(self):
        self.octets, self.count = get(WORDS) + b"\xA7\x21" + number(POINTER), 0

    def result(self, gives, octets):
        self.octets += const32(OUT + 8 * self.count) + octets + access(STORES[gives], 0)
        self.count += 1

    def operand(self, takes, place):
        return get(POINTER) + access(LOADS[takes], place)

    def beside(self, added):
        """An address that is a sum of 64 bits."""
        return get(WORDS) + b"\x42" + signed(added) + b"\x7C\xA7"

    def all(self):
        for first, second in ((0, 8), (8, 0), (16, 24)):
            for code, takes, gives in TWO:
                # the last pair are numbers with a point
                if (takes == F64) == (first == 16):
                    self.result(gives, self.operand(takes, first) + self.operand(takes, second) + bytes([code]))
            for code, takes, gives in ONE:
                if (takes == F64) == (first == 16):
                    self.result(gives, self.operand(takes, first) + bytes([code]))
        for code, gives in LOADED:
            self.result(gives, get(POINTER) + access(code, 3))
        for added in (8, -8, 600, 2000):
            self.octets += self.beside(added + 1) + self.operand(I64, 8) + access(0x37, 40)
            self.result(I64, self.beside(added) + access(0x29, 40))
        for code, takes in STORED:
            self.octets += const32(OUT + 8 * self.count + 1) + self.operand(takes, 8) + access(code, 0)
            self.count += 1
        self.memory()
        return self.octets

    def memory(self):
        """The memory's size and growth, moves, a global variable, and a number with a point by itself."""
        self.result(I32, b"\x3F\x00")
        self.result(I32, const32(1) + b"\x40\x00")
        self.result(I32, const32(-1) + b"\x40\x00")
        self.result(I32, b"\x3F\x00")
        self.octets += const32(LARGEST_MOVE) + get(POINTER) + const32(20) + b"\xFC\x0A\x00\x00"
        self.octets += const32(LARGEST_MOVE + 3) + const32(LARGEST_MOVE) + const32(20) + b"\xFC\x0A\x00\x00"
        self.octets += const32(LARGEST_MOVE + 30) + const32(0x1A5) + const32(7) + b"\xFC\x0B\x00"
        for place in range(0, 40, 8):
            self.result(I64, const32(LARGEST_MOVE + place) + access(0x29, 0))
        self.octets += self.operand(I64, 8) + b"\x24\x00"
        self.result(I64, b"\x23\x00")
        self.result(F64, b"\x44" + struct.pack("<d", -0.1))
        self.jump()

    def jump(self):
        """A jump that brings a result which is made of what was in its place."""
        block, jump, end = b"\x02\x7F", b"\x0C\x00", b"\x0B"
        self.result(I32, block + block + self.operand(I32, 0) + jump + end + b"\x45" + jump + end)


def module(extra=(), body=None):
    """A module that makes all results and writes them."""
    made = Body()
    octets = made.all() if body is None else body
    written = b"\x41\x01\x42" + signed(OUT) + b"\x42" + signed(8 * made.count) + b"\x10\x01\x1A"
    answer = b"\x01\x01\x7F" + octets + written + const32(7) + b"\x0B"
    room = b"\x00\x42" + signed(ROOM) + b"\x0B"
    types = [kind([I32, I64, I64], [I64]), kind([I64, I64], [I32]), kind([I64], [I64])]
    imports = [name("env") + name(it) + b"\0\0" for it in ("read", "write")]
    exports = [name("memory") + b"\2\0", name("scard_answer") + b"\0\2", name("scard_room") + b"\0\3"]
    functions = [number(len(it)) + it for it in (answer, room)]
    constants = [b"\0" + const32(OUT - 16) + b"\x0B" + number(4) + b"abcd"]
    return b"\0asm\1\0\0\0" + b"".join([
        section(1, listed(types)), section(2, listed(imports)), section(3, listed([b"\1", b"\2"])), *extra,
        section(5, b"\1\1\2\4"), section(6, listed([b"\x7E\1\x42\x05\x0B"])), section(7, listed(exports)),
        section(10, listed(functions)), section(11, listed(constants))])


def operands():
    """Words for a run: pairs of numbers that are hard, and pairs of numbers with a point."""
    edges = [1, 2, 0x7F, 0x80, 0xFFFF, 0x7FFFFFFF, 0x80000000, 0xFFFFFFFF, 1 << 32]
    edges += [(1 << 63) - 1, 1 << 63, (1 << 64) - 1]
    generator = random.Random(5)
    for turn in range(60):
        whole = [generator.choice(edges) if generator.random() < 0.6 else generator.getrandbits(64) for _ in range(2)]
        # no quotient by 0, also of the lower halves
        whole = [it if it & 0xFFFFFFFF else it | 3 for it in whole]
        some = [0.0, -0.0, 1.5, -2.25, 1e300, 3.0, generator.uniform(-1e6, 1e6)]
        pointed = [generator.choice(some) for _ in range(2)]
        pointed[1] = pointed[1] or 1.0 * (turn + 1)
        yield struct.pack("<QQdd", *whole, *pointed)


def served(command, words):
    """The lines that a command gives for runs with these words, without their times."""
    lines = "".join(f"{it.hex()}\t\t{1 << 40}\t{1 << 40}\t{1 << 40}\n" for it in words)
    how = {"stdout": subprocess.PIPE, "check": True, "text": True, "timeout": 60}
    said = subprocess.run([*map(str, command)], input=lines, **how)
    return [it.split("\t")[:2] for it in said.stdout.splitlines()]


class Instructions(unittest.TestCase):
    @unittest.skipUnless(shutil.which("node") and shutil.which("cc"), "there is no command node, or none cc")
    def test_each_does_the_same_in_c_as_in_node(self):
        with tempfile.TemporaryDirectory() as folder:
            folder = pathlib.Path(folder)
            (folder / "module.wasm").write_bytes(module())
            self.assertEqual(script("release/program-c").main([str(folder / "c"), str(folder / "module.wasm")]), 0)
            for file in (folder / "c").glob("part-*.c"):
                # clang warns of a variable that is set to itself
                self.assertEqual([it[0] for it in re.finditer(r"(?m)^(\w+) = \1;$", file.read_text())], [])
            words = [*operands()]
            runner = [TOP / "tests/program/served.mjs", EVERYWHERE / "scard.mjs"]
            node = served(["node", *runner, folder / "module.wasm"], words)
            self.assertEqual({status for status, _ in node}, {"7"})
            files = [*(it for it in (folder / "c").glob("*.c") if it.name != "main.c"), TOP / "tests/program/served.c"]
            for flags in ([], ["-DSCARD_CHECKED"], ["-fsanitize=address,undefined", "-fno-sanitize-recover=all"]):
                command = ["cc", *STRICT, *flags, f"-I{folder}/c", *files, "-o", folder / "served"]
                subprocess.run([*map(str, command)], check=True)
                # each process begins with the same memory, so the first growth of each gives the same
                self.assertEqual(served([folder / "served"], words), node, flags)


class Addresses(unittest.TestCase):
    def test_an_access_adds_small_numbers_itself(self):
        last = functions.FIELD - 1
        for number, offset, words in ((8, 3, "(u32)(v1), 11u"), (last, 0, f"(u32)(v1), {last}u"), (0, 3, "a, 3u"),
                                      (last + 1, 0, "a, 0u"), (ALL - 8, 3, "a, 3u"), (8, 1 << 31, f"a, {1 << 31}u")):
            self.assertEqual(functions.reached(Value("a", I32, sum=Sum({1: 1}, number)), offset), words)
        self.assertEqual(functions.reached(Value("a", I32), 3), "a, 3u")


class WithinTheModule(unittest.TestCase):
    @unittest.skipUnless(shutil.which("cc"), "there is no command cc")
    def test_the_files_of_c(self):
        with tempfile.TemporaryDirectory() as folder:
            for name, count in (("heap", 5), ("host", 3), ("wide", 3)):
                flags = ["-std=c11", "-O1", "-Wall", "-Wextra", "-Werror", "-fsanitize=address,undefined"]
                file, to = TOP / f"tests/program/{name}.c", f"{folder}/{name}"
                subprocess.run(["cc", *flags, "-fno-sanitize-recover=all", file, "-o", to], check=True)
                said = subprocess.run([to], check=True, stdout=subprocess.PIPE, text=True).stdout
                self.assertEqual(said, f"{name}: {count} passed, 0 failed\n")


# what a call of ./scard needs of the repository, and of the system
NEEDED = ("scard", "tools/daily/compiled", "tools/common/stack.py", "tools/common/words.py", "tools/release/program-c")
COMMANDS = ("sh", "python3", "cc", "as", "ld", "env", "dirname", "readlink")


@unittest.skipUnless(shutil.which("cc"), "there is no command cc")
class FreshMachine(unittest.TestCase):
    """./scard without the toolchain, over a small module in the place of the program's."""

    def setUp(self):
        room = tempfile.TemporaryDirectory()
        self.addCleanup(room.cleanup)
        self.top, self.bin = pathlib.Path(room.name) / "top", pathlib.Path(room.name) / "bin"
        for name in NEEDED:
            (self.top / name).parent.mkdir(parents=True, exist_ok=True)
            shutil.copy(TOP / name, self.top / name)
        for name in ("everywhere", "translator"):
            shutil.copytree(TOP / "tools/release" / name, self.top / "tools/release" / name)
        for name in ("dist", "crates/scard", "crates/scard/src"):
            (self.top / name).mkdir(parents=True)
        (self.top / "crates.txt").write_text("scard:\n")
        (self.top / "crates/scard/src/main.rt").write_text("//! A crate.\n")
        (self.top / "dist/scard.wasm").write_bytes(module())
        self.bin.mkdir()
        for name in COMMANDS:
            (self.bin / name).symlink_to(shutil.which(name))
        sums = f"import sys; sys.path.insert(0, '{self.top}/tools/common'); import stack"
        told = f"{sums}; print(stack.sum_without_toolchain('scard', stack.crates()))"
        how = {"stdout": subprocess.PIPE, "text": True, "env": self.env()}
        said = subprocess.run([sys.executable, "-c", told], check=True, **how)
        (self.top / "dist/scard.sources").write_text(said.stdout)

    def env(self):
        return {"PATH": str(self.bin), "PYTHONDONTWRITEBYTECODE": "1"}

    def called(self):
        """The status and the number of lines on standard error."""
        done = subprocess.run([self.top / "scard", "a"], check=False, stdout=subprocess.PIPE, stderr=subprocess.PIPE,
                              env=self.env(), timeout=120)
        return done.returncode, done.stderr.count(b"\n")

    def test_the_first_call_compiles_and_the_next_only_runs(self):
        self.assertEqual(self.called(), (7, 1))
        (self.bin / "cc").unlink()
        self.assertEqual(self.called(), (7, 0))

    def test_it_is_compiled_again_if_what_writes_the_c_changed(self):
        self.assertEqual(self.called(), (7, 1))
        with open(self.top / "tools/release/everywhere/main.c", "a", encoding="ascii") as file:
            file.write("/* changed */\n")
        for lines in (1, 0):
            done = subprocess.run([self.top / "tools/daily/compiled"], check=True, stderr=subprocess.PIPE, env=self.env())
            self.assertEqual(done.stderr.count(b"\n"), lines)

    def test_without_a_compiler_nothing_runs(self):
        (self.bin / "cc").unlink()
        self.assertEqual(self.called(), (2, 1))

    def test_a_module_of_other_sources_is_not_compiled(self):
        (self.top / "crates/scard/src/main.rt").write_text("//! Another.\n")
        self.assertEqual(self.called(), (2, 1))


class Refused(unittest.TestCase):
    def test_a_module_for_another_target(self):
        text = ('target datalayout = "e-m:e-p270:32:32-i64:64-i128:128-f80:128-n8:16:32:64-S128"\n'
                'target triple = "x86_64-unknown-linux-gnu"\nattributes #0 = { "target-cpu"="x86-64" }\n'
                'define i32 @main() #0 {\n')
        made = retarget.retargeted(text)
        self.assertIn(f'target triple = "{retarget.TARGET}"', made)
        self.assertNotIn("target-cpu", made)
        self.assertIn(f"define i32 @{retarget.MAIN}()", made)
        for old, new in (("e-m:e", "E-m:e"), ("i64:64", "i64:32"), ("x86_64", "aarch64")):
            with self.assertRaisesRegex(Unfit, "isn't one for x86-64"):
                retarget.retargeted(text.replace(old, new))
        with self.assertRaisesRegex(Unfit, "main"):
            retarget.retargeted(text.replace("@main", "@mean"))
        with self.assertRaisesRegex(Unfit, "llvm.x86.ssse3.pshuf.b.128"):
            retarget.retargeted(text + "declare <16 x i8> @llvm.x86.ssse3.pshuf.b.128(<16 x i8>, <16 x i8>)\n")

    def test_a_module_that_takes_or_gives_something_else(self):
        retarget.look_at(module())
        for old, new in ((name("read"), name("rand")), (name("scard_room"), name("scard_door"))):
            with self.assertRaises(Unfit):
                retarget.look_at(module().replace(old, new))
        table = section(4, b"\1\x70\0\0")
        with self.assertRaisesRegex(Unfit, "table"):
            retarget.look_at(module(extra=[table]))
        self.assertEqual(retarget.without_table(module(extra=[table])), module())

    def test_an_instruction_that_is_not_known(self):
        # a call by a table
        with self.assertRaises(Unfit):
            program = reading.read(module(body=const32(1) + b"\x11\x00\x00"))
            parts.functions.text(program, 2, parts.names_of(program))
        with self.assertRaisesRegex(Unfit, "32 bits"):
            reading.read(module(body=b"\x43\0\0\0\0\x1A"))

    def test_a_function_of_the_host_that_is_not_known(self):
        with self.assertRaisesRegex(Unfit, "rand"):
            parts.names_of(reading.read(module().replace(name("read"), name("rand"))))


class Constants(unittest.TestCase):
    def test_pieces_leave_out_only_zeros(self):
        octets = b"ab" + bytes(200) + b"c" + bytes(10) + b"d" + bytes(70)
        found = parts.pieces_of(octets)
        made = bytearray(len(octets))
        for place, piece in found:
            made[place : place + len(piece)] = piece
        self.assertEqual((bytes(made), len(found)), (octets, 2))
        self.assertEqual(parts.pieces_of(bytes(500)), [])

    def test_what_wasm_reads(self):
        self.assertEqual(wasm.number(number(300), 0), (300, 2))
        self.assertEqual(wasm.signed(signed(-300), 0), (-300, 2))


if __name__ == "__main__":
    unittest.main()
