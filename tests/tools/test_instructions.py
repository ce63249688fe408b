#!/usr/bin/env python3
"""Tests each instruction that tools/release/translator writes as C: small modules are assembled, translated, compiled
and run, and have to give what the standard says (WebAssembly 2.0, clause 4.3), also at the edges of numbers and of the
caller's memory. The same is tried with each pass of the translation left out, and in each form of machine.h."""

import pathlib
import re
import shutil
import subprocess
import sys
import tempfile
import unittest

sys.dont_write_bytecode = True
TRANSLATOR = pathlib.Path(__file__).resolve().parents[2] / "tools/release/translator"
sys.path.insert(0, str(TRANSLATOR))
import dataclasses

import assembler
import unit
from assembler import Function
from passes import Passes
from wasm import CODES, Unfit

TRAP = "trap"
HEADER = """#include <stdbool.h>
#include <stddef.h>
#include <stdint.h>
typedef uint64_t scard_size;
struct scard_known {
    const uint8_t *value;
    scard_size count;
};
struct scard_pair {
    uint32_t first;
    uint16_t second;
    uint8_t more[2];
};
"""
BITS = {"i32": 32, "i64": 64}
C_TYPES = {"i32": "uint32_t", "i64": "uint64_t"}
EDGES = {bits: sorted({number % (1 << bits) for number in (
    0, 1, 2, 7, 31, 32, 33, 63, 64, 65, 0x7F, 0x80, 0xFF, 0x7FFF, 0x8000, 0xFFFF, 0x7FFFFFFF, 0x80000000, 0xFFFFFFFF,
    0x100000000, 0xFFFFFFFF00000000, 0x7FFFFFFFFFFFFFFF, 0x8000000000000000, -1, -2, -31, -64, 0x123456789ABCDEF0)})
    for bits in (32, 64)}


def as_signed(number, bits):
    """A number of so many bits, as signed."""
    number %= 1 << bits
    return number - (1 << bits) if number >> (bits - 1) else number


def rotated(a, by, bits):
    """A number rotated to the left."""
    by %= bits
    return a << by | a >> (bits - by)


# what each operation on two numbers makes, by the standard; a comparison makes 0 or 1
TWO = {
    "add": lambda a, b, n: a + b, "sub": lambda a, b, n: a - b, "mul": lambda a, b, n: a * b,
    "div_u": lambda a, b, n: a // b if b else TRAP, "rem_u": lambda a, b, n: a % b if b else TRAP,
    "and": lambda a, b, n: a & b, "or": lambda a, b, n: a | b, "xor": lambda a, b, n: a ^ b,
    "shl": lambda a, b, n: a << b % n, "shr_u": lambda a, b, n: a >> b % n,
    "shr_s": lambda a, b, n: as_signed(a, n) >> b % n, "rotl": rotated, "rotr": lambda a, b, n: rotated(a, -b, n),
}
COMPARED = {
    "eq": lambda a, b: a == b, "ne": lambda a, b: a != b, "lt": lambda a, b: a < b, "gt": lambda a, b: a > b,
    "le": lambda a, b: a <= b, "ge": lambda a, b: a >= b,
}
ONE = {
    "clz": lambda a, n: n - a.bit_length(), "ctz": lambda a, n: (a & -a).bit_length() - 1 if a else n,
    "popcnt": lambda a, n: bin(a).count("1"), "eqz": lambda a, n: int(a == 0),
}
# what changes a number's type or extends its sign: the types before and after, and what it makes
CHANGED = {
    "i32.wrap_i64": ("i64", "i32", lambda a: a), "i64.extend_i32_u": ("i32", "i64", lambda a: a),
    "i64.extend_i32_s": ("i32", "i64", lambda a: as_signed(a, 32)), "i32.extend8_s": ("i32", "i32", lambda a: as_signed(a, 8)),
    "i32.extend16_s": ("i32", "i32", lambda a: as_signed(a, 16)), "i64.extend8_s": ("i64", "i64", lambda a: as_signed(a, 8)),
    "i64.extend16_s": ("i64", "i64", lambda a: as_signed(a, 16)),
    "i64.extend32_s": ("i64", "i64", lambda a: as_signed(a, 32)),
}


def compared(name):
    """What a comparison by its name makes."""
    relation, _, sign = name.partition("_")
    if sign == "s":
        return lambda a, b, n: int(COMPARED[relation](as_signed(a, n), as_signed(b, n)))
    return lambda a, b, n: int(COMPARED[relation](a, b))


# the operations that count bits of their second number, and the numbers that the code has of other operations and these
SHIFTS = ("shl", "shr_s", "shr_u", "rotl", "rotr")
IN_CODE = ((0, -1), (0, 1, 31, 32, 33, 63, 64, -1))


@dataclasses.dataclass
class Case:
    """A function of a module, its prototype in C, the words in C before the numbers that it is called with, and its rows:
    these numbers, and what the call has to print. If `is_room_shown`, it prints the room after the call too."""

    function: Function
    prototype: str
    before: str
    rows: list
    is_room_shown: bool = False


def called(function, takes, rows):
    """A case of a function of numbers: `takes` are their types. A row has the numbers and the result."""
    gives = function.gives
    words = ", ".join(f"{C_TYPES[kind]} v{at}" for at, kind in enumerate(takes.split())) or "void"
    lines = [(given, TRAP if result == TRAP else f"{result % (1 << BITS[gives]):x}") for given, result in rows]
    return Case(function, f"{C_TYPES[gives]} {function.name}({words});", "", lines)


def two(kind, name, meant, gives):
    """The cases of an operation on two numbers: of arguments, and with a number of the code on the right or the left."""
    bits, edges, whole = BITS[kind], EDGES[BITS[kind]], f"scard_{kind}_{name}"
    text = f"local.get 0 local.get 1 {kind}.{name}"
    rows = [((a, b), meant(a, b, bits)) for a in edges for b in edges]
    yield called(Function(whole, f"{kind} {kind}", gives, "", text), f"{kind} {kind}", rows)
    if gives != kind or name in ("eq", "ne"):
        rows = [(given, 1 - made) for given, made in rows]
        yield called(Function(f"{whole}_not", f"{kind} {kind}", "i32", "", f"{text} i32.eqz"), f"{kind} {kind}", rows)
    for at, number in enumerate(IN_CODE[name in SHIFTS]):
        number_there = number % (1 << bits)
        text = f"local.get 0 {kind}.const {as_signed(number, bits)} {kind}.{name}"
        rows = [((a,), meant(a, number_there, bits)) for a in edges]
        yield called(Function(f"{whole}_by_{at}", kind, gives, "", text), kind, rows)
        text = f"{kind}.const {as_signed(number, bits)} local.get 0 {kind}.{name}"
        rows = [((a,), meant(number_there, a, bits)) for a in edges]
        yield called(Function(f"{whole}_of_{at}", kind, gives, "", text), kind, rows)


def numbers():
    """The cases of all instructions on numbers."""
    for kind, bits in BITS.items():
        for name, meant in TWO.items():
            yield from two(kind, name, meant, kind)
        for name in ("eq", "ne", *(f"{it}_{sign}" for it in ("lt", "gt", "le", "ge") for sign in "su")):
            yield from two(kind, name, compared(name), "i32")
        for name, meant in ONE.items():
            gives = "i32" if name == "eqz" else kind
            rows = [((a,), meant(a, bits)) for a in EDGES[bits]]
            yield called(Function(f"scard_{kind}_{name}", kind, gives, "", f"local.get 0 {kind}.{name}"), kind, rows)
    for name, (takes, gives, meant) in CHANGED.items():
        rows = [((a,), meant(a)) for a in EDGES[BITS[takes]]]
        yield called(Function(f"scard_{name.replace('.', '_')}", takes, gives, "", f"local.get 0 {name}"), takes, rows)
    for kind, bits in BITS.items():
        for at, number in enumerate(EDGES[bits]):
            text = f"{kind}.const {as_signed(number, bits)}"
            yield called(Function(f"scard_{kind}_const_{at}", "", kind, "", text), "", [((), number)])


# ---- flow ----

SUM = ("loop local.get 1 local.get 0 i64.add local.set 1 local.get 0 i64.const 1 i64.sub local.tee 0 i64.eqz i32.eqz "
       "br_if 0 end local.get 1")
BY_TABLE = ("block block block block local.get 0 br_table:0,1,2,1,3 end i64.const 10 return end i64.const 11 return end "
            "i64.const 12 return end i64.const 13")
CHOICE = "local.get 0 if:i64 local.get 1 else local.get 1 i64.const 7 i64.mul end"
NO_ELSE = "local.get 0 if local.get 1 i64.const 1 i64.add local.set 1 end local.get 1"
OUT = ("block:i64 local.get 1 i64.const 3 i64.add local.get 0 br_if 0 drop local.get 1 i64.const 5 i64.sub end "
       "i64.const 2 i64.mul")
FAR = ("block:i64 block block local.get 0 br_if 1 br 0 end local.get 1 i64.const 1 i64.add br 1 end local.get 1 "
       "i64.const 2 i64.add end")
DEAD = ("block local.get 0 br_if 0 i64.const 1 return loop br 0 end if nop else unreachable end block unreachable end drop "
        "end i64.const 2")
# a value that stays on the stack while the variable that it was read from changes, and one that was read from memory
KEPT = "local.get 0 local.get 0 i64.const 9 i64.add local.set 0 local.get 0 i64.mul"
TEED = "local.get 0 i64.const 3 i64.mul local.tee 1 local.get 1 i64.add local.get 0 i64.sub nop"
GLOBAL = "global.get 1 local.get 0 global.set 1 global.get 1 i32.add i32.const 0 global.set 1"
# 48 octets of the stack: the first 8 and the last 8 are written, and a function with a frame of its own is called
FRAME = ("global.get 0 i64.const 16 i64.lt_s if unreachable end global.get 0 i64.const 48 i64.sub local.tee 1 "
         "global.set 0 local.get 1 local.get 0 i64.store:0 local.get 1 "
         "i64.const 40 i64.add local.get 0 i64.const 5 i64.xor i64.store local.get 0 call {below} local.get 1 i64.load:40 "
         "i64.add local.get 1 i64.load i64.const 16 i64.shl i64.xor local.get 1 i64.const 48 i64.add global.set 0")
BELOW = ("global.get 0 i64.const 16 i64.sub local.tee 1 global.set 0 local.get 1 i64.const -1 i64.store:8 local.get 1 "
         "i32.const 171 i64.const 8 memory.fill local.get 1 i64.load local.get 0 i64.add local.get 1 i64.const 16 i64.add "
         "global.set 0")


def flow():
    """The cases of blocks, jumps, variables, calls and the stack."""
    some = (0, 1, 2, 3, 4, 5, 0xFFFFFFFF)
    ways = [10, 11, 12, 11, 13, 13, 13]
    numbers_ = (0, 1, 6, 1 << 63, (1 << 64) - 1)
    both = [(c, v) for c in (0, 1, 0x80000000) for v in numbers_]
    yield called(Function("scard_sum", "i64", "i64", "i64", SUM), "i64", [((n,), n * (n + 1) // 2) for n in (1, 2, 3, 100)])
    yield called(Function("scard_table", "i32", "i64", "", BY_TABLE), "i32", [((n,), way) for n, way in zip(some, ways)])
    for name, text, meant in (
            ("choice", CHOICE, lambda c, v: v if c else v * 7), ("no_else", NO_ELSE, lambda c, v: v + 1 if c else v),
            ("out", OUT, lambda c, v: 2 * (v + 3 if c else v - 5)), ("far", FAR, lambda c, v: v + 2 if c else v + 1),
            ("dead", DEAD, lambda c, v: 2 if c else 1),
            ("select", "local.get 1 i64.const 77 local.get 0 select", lambda c, v: v if c else 77)):
        rows = [((c, v), meant(c, v)) for c, v in both]
        yield called(Function(f"scard_{name}", "i32 i64", "i64", "", text), "i32 i64", rows)
    yield called(Function("scard_kept", "i64", "i64", "", KEPT), "i64", [((v,), v * (v + 9)) for v in numbers_])
    yield called(Function("scard_teed", "i64", "i64", "i64", TEED), "i64", [((v,), 5 * v) for v in numbers_])
    yield called(Function("scard_global", "i32", "i32", "", GLOBAL), "i32", [((v,), v) for v in (0, 1, 0xFFFFFFFF)])
    never = "local.get 0 i32.wrap_i64 if unreachable end local.get 0"
    yield called(Function("scard_never", "i64", "i64", "", never), "i64", [((1,), TRAP), ((0,), 0)])
    below = [((v,), v + int("ab" * 8, 16)) for v in numbers_]
    yield called(Function("scard_below", "i64", "i64", "i64", BELOW), "i64", below)
    framed = [((v,), (v + int("ab" * 8, 16) + (v ^ 5)) % (1 << 64) ^ (v << 16)) for v in numbers_]
    yield called(Function("scard_frame", "i64", "i64", "i64", FRAME), "i64", framed)


def beyond():
    """Loads of a frame at its end and beyond, where the stack of the call ends too."""
    for place, result in ((0, 0x77), (40, 0x77), (41, TRAP), (47, TRAP), (48, TRAP), (64, TRAP)):
        whole = "" if place % 40 else "i64.const 0x77 i64.store:{place} local.get 0 ".format(place=place)
        text = (f"global.get 0 i64.const 48 i64.sub local.tee 0 global.set 0 local.get 0 {whole}i64.load:{place} "
                "local.get 0 i64.const 48 i64.add global.set 0")
        yield called(Function(f"scard_beyond_{place}", "", "i64", "i64", text), "", [((), result)])


# ---- memory ----

ROOM, LENT, BEFORE = 110, 75, 16
FILLED = [(place * 37 + 200) % 256 for place in range(ROOM)]


def in_memory(name, text, takes, rows, gives="i64"):
    """A case of a function over octets of the caller, `LENT` of them, and numbers. A row has the numbers, the result, and
    what is then in the room around these octets. The numbers have 64 bits."""
    function = Function(f"scard_{name}", f"i64 i64 {takes}", gives, "i64 i32 i64", text)
    words = "".join(f", {C_TYPES[kind]} v{at}" for at, kind in enumerate(takes.split()))
    prototype = f"{C_TYPES.get(gives, 'void')} scard_{name}(uint8_t *octets, size_t count{words});"
    lines = []
    for given, result, room in rows:
        value = f"{result % (1 << BITS[gives]):x}" if gives and result != TRAP else ""
        lines.append((given, TRAP if result == TRAP else f"{value} {bytes(room).hex()}"))
    return Case(function, prototype, f"room + {BEFORE}, {LENT}", lines, is_room_shown=True)


def changed(place, octets):
    """The room after octets of the lent part are changed."""
    return [*FILLED[: BEFORE + place], *octets, *FILLED[BEFORE + place + len(octets) :]]


PLACES = (0, 1, 7, 8, *range(LENT - 9, LENT + 2), 1 << 31, 1 << 32, 1 << 40, 1 << 61, (1 << 64) - 1)


def fits(place, octets):
    return place + octets <= LENT


def loads():
    """Each load at each edge of the caller's octets, with and without an offset, by itself and together with another."""
    for name in (it for it in assembler.MOVED if "load" in it):
        kind, _, rest = name.partition(".load")
        octets = int(rest.partition("_")[0] or BITS[kind]) // 8
        for offset in (0, 3):
            rows = []
            for place in PLACES:
                at = (place + offset) % (1 << 64)
                number = int.from_bytes(bytes(FILLED[BEFORE + at : BEFORE + at + octets]), "little") if fits(at, octets) else 0
                number = as_signed(number, 8 * octets) if rest.endswith("_s") else number
                rows.append(((place,), number if fits(at, octets) else TRAP, FILLED))
            text = f"local.get 0 local.get 2 i64.add {name}:{offset}"
            yield in_memory(f"{name.replace('.', '_')}_{offset}", text, "i64", rows, kind)
        # two loads of one address and two numbers, which are held to their window at once
        rows = []
        for place in PLACES:
            is_whole = fits(place, octets + 2)
            parts = [int.from_bytes(bytes(FILLED[BEFORE + place + at : BEFORE + place + at + octets]), "little")
                     for at in (0, 2)] if is_whole else [0, 0]
            parts = [as_signed(it, 8 * octets) for it in parts] if rest.endswith("_s") else parts
            rows.append(((place,), sum(parts) if is_whole else TRAP, FILLED))
        text = f"local.get 0 local.get 2 i64.add local.tee 3 {name}:2 local.get 3 {name}:0 {kind}.add"
        yield in_memory(f"{name.replace('.', '_')}_twice", text, "i64", rows, kind)


def stores():
    """Each store at each edge, by itself and together with another."""
    value = 0x8182838485868788
    for name in (it for it in assembler.MOVED if "store" in it):
        kind, _, rest = name.partition(".store")
        octets = int(rest or BITS[kind]) // 8
        made = value.to_bytes(8, "little")[:octets]
        wrap = "i32.wrap_i64 " if kind == "i32" else ""
        rows = []
        for place in PLACES:
            at = (place + 2) % (1 << 64)
            is_right = fits(at, octets)
            rows.append(((place, value), None if is_right else TRAP, changed(at, made) if is_right else []))
        text = f"local.get 0 local.get 2 i64.add local.get 3 {wrap}{name}:2"
        yield in_memory(f"{name.replace('.', '_')}", text, "i64 i64", rows, "")
        rows = []
        for place in PLACES:
            is_whole = fits(place, octets + 9)
            between = FILLED[BEFORE + place + octets : BEFORE + place + 9] if is_whole else []
            room = changed(place, [*made, *between, *made]) if is_whole else []
            rows.append(((place, value), None if is_whole else TRAP, room))
        text = (f"local.get 0 local.get 2 i64.add local.tee 4 local.get 3 {wrap}{name}:9 local.get 4 local.get 3 "
                f"{wrap}{name}")
        case = in_memory(f"{name.replace('.', '_')}_twice", text, "i64 i64", rows, "")
        case.function.variables = "i64"
        yield case


def many():
    """The copy and the fill of several octets, forwards and backwards over each other, and at the edges."""
    rows = []
    for to, source, count in [(0, 8, 8), (8, 0, 8), (2, 0, 10), (0, 2, 10), (0, 0, LENT), (LENT, LENT, 0), (LENT - 8, 0, 8),
                              (LENT - 8, 0, 9), (0, LENT - 8, 8), (0, LENT - 7, 8), (LENT - 1, 0, 1), (LENT, 0, 1),
                              (0, LENT, 1), (0, 0, 1 << 40), (1 << 61, 0, 1)]:
        is_right = fits(to, count) and fits(source, count)
        octets = FILLED[BEFORE + source : BEFORE + source + count] if is_right else []
        rows.append(((to, source, count), None if is_right else TRAP, changed(to, octets) if is_right else []))
    text = "local.get 0 local.get 2 i64.add local.get 0 local.get 3 i64.add local.get 4 memory.copy"
    yield in_memory("copied", text, "i64 i64 i64", rows, "")
    rows = []
    for to, octet, count in [(0, 0x1AB, LENT), (0, 7, 0), (LENT, 7, 0), (LENT - 1, 7, 1), (LENT, 7, 1),
                             (8, 0xFF, LENT - 8), (8, 1, LENT - 7), (0, 1, 1 << 40), (1 << 61, 0, 1)]:
        is_right = fits(to, count)
        rows.append(((to, octet, count), None if is_right else TRAP, changed(to, [octet % 256] * count) if is_right else []))
    text = "local.get 0 local.get 2 i64.add local.get 3 i32.wrap_i64 local.get 4 memory.fill"
    yield in_memory("filled", text, "i64 i64 i64", rows, "")


def loops():
    """Such loops at each edge: to the last octet, and one turn more."""
    for step in (1, 2, 4):
        # the number of octets is the last argument
        rows = []
        for place in (0, 1, 8, LENT - 4, LENT - 1, LENT):
            for count in (*range(0, LENT + 2), 1 << 39, 1 << 41, (1 << 64) - step):
                is_right = count and count % step == 0 and fits(place, count)
                made = 0
                for octet in FILLED[BEFORE + place : BEFORE + place + count] if is_right else []:
                    made ^= octet
                rows.append(((place, count), made + (place + count) * 256 if is_right else TRAP, FILLED))
        yield looped(step, rows)


def looped(step, rows):
    """The case of such a loop. The variables are 4, the address; 5, the result; and 6, the octets that are left."""
    read = " ".join(f"local.get 5 local.get 4 i32.load8_u:{at} i32.xor local.set 5" for at in range(step))
    text = (f"local.get 3 local.set 6 local.get 0 local.get 2 i64.add local.set 4 loop {read} local.get 4 "
            f"i64.const {step} i64.add local.set 4 local.get 6 i64.const -{step} i64.add local.tee 6 i64.const 0 i64.ne "
            "br_if 0 end local.get 5 local.get 4 local.get 0 i64.sub i32.wrap_i64 i32.const 256 i32.mul i32.add")
    return in_memory(f"folded_{step}", text, "i64 i64", rows, "i32")


# ---- structs with pointers ----

VALUES = ([1, 2, 3, 4, 5, 6, 7, 8, 9], [0xF1], [])


def pointed():
    """Loads through the pointers in the caller's structs: to the last octet, one after it, of each struct and of none."""
    prototype = "const struct scard_known *known, size_t known_count, uint64_t which, uint64_t place"
    known = f"known, {len(VALUES)}"
    for name, octets in (("i64.load8_u", 1), ("i64.load16_u", 2), ("i64.load", 8)):
        rows = []
        for which in range(5):
            for place in (0, 1, 2, 7, 8, 9, 10, 1 << 20, 1 << 31):
                value = VALUES[which] if which < len(VALUES) else []
                is_right = place + octets <= len(value)
                number = int.from_bytes(bytes(value[place : place + octets]), "little") if is_right else TRAP
                rows.append(((which, place), number if number == TRAP else f"{number:x}"))
        text = f"local.get 0 local.get 2 i64.const 16 i64.mul i64.add i64.load local.get 3 i64.add {name}"
        function = Function(f"scard_pointed_{octets}", "i64 i64 i64 i64", "i64", "", text)
        # after the octets of the last struct: those of a struct that isn't lent
        rows.append(((len(VALUES) - 1, 1 << 32), TRAP))
        yield Case(function, f"uint64_t scard_pointed_{octets}({prototype});", known, rows)
    rows = [((which, 0), count) for which, count in enumerate(("9", "1", "5", TRAP))]
    text = "local.get 0 local.get 2 i64.const 16 i64.mul i64.add i64.load:8"
    function = Function("scard_counted", "i64 i64 i64 i64", "i64", "", text)
    yield Case(function, f"uint64_t scard_counted({prototype});", known, rows)
    # the octets of a pointer aren't to be written
    text = "local.get 0 i64.const 0 i64.store8 i64.const 0"
    function = Function("scard_written", "i64 i64 i64 i64", "i64", "", text)
    yield Case(function, f"uint64_t scard_written({prototype});", known, [((0, 0), TRAP)])


def moved():
    """Copies over each other of octets of the caller's structs, which may lie in another way."""
    prototype = "struct scard_pair *pairs, size_t pairs_count, uint64_t to, uint64_t source, uint64_t count"
    text = "local.get 0 local.get 2 i64.add local.get 0 local.get 3 i64.add local.get 4 memory.copy"
    rows = []
    for to, source, count in ((0, 8, 8), (4, 0, 12), (0, 4, 12), (1, 0, 15), (0, 1, 15), (15, 0, 1), (16, 0, 1), (0, 1, 16)):
        is_right = max(to, source) + count <= 16
        octets = FILLED[source : source + count]
        rows.append(((to, source, count), f" {bytes([*FILLED[:to], *octets, *FILLED[to + count :]]).hex()}" if is_right
                     else TRAP))
    function = Function("scard_moved", "i64 i64 i64 i64 i64", "", "", text)
    yield Case(function, f"void scard_moved({prototype});", "(struct scard_pair *)room, 2", rows, is_room_shown=True)


# ---- constants ----

# 400 octets from 65536 on; the eight from 65736 on are the place 65546 of another one
PLACED = 65536
CONSTANTS = bytes([*((place * 11 + 3) % 251 for place in range(200)), *(PLACED + 10).to_bytes(8, "little"),
                   *((place * 7 + 5) % 251 for place in range(192))])


def constants():
    """Loads of the module's constants: the first ones, later ones by an address and by an offset, and through a pointer
    among them."""
    last = len(CONSTANTS) - 1
    for name, text, base, places in (
            ("few", "local.get 0 i64.load8_u:65536", 0, (0, 1, 15)),
            ("later", "local.get 0 i64.load8_u:65800", 264, (0, 1, 9)),
            ("address", "i64.const 65720 local.get 0 i64.add i64.load8_u", 184, (0, 1, 100)),
            ("last", "local.get 0 i64.load8_u:65936", 400, ((1 << 64) - 1, 0)),
            ("led", "i64.const 65736 i64.load local.get 0 i64.add i64.load8_u", 10, (0, 1, 50)),
            ("below", "local.get 0 i64.load8_u:65535", -1, (0, 1))):
        rows = []
        for place in places:
            at = (base + place) % (1 << 64)
            rows.append(((place,), CONSTANTS[at] if at <= last else TRAP))
        yield called(Function(f"scard_constant_{name}", "i64", "i64", "", text), "i64", rows)


PROGRAM = """#include "scard.h"
#include <setjmp.h>
#include <stdio.h>
#include <string.h>
void scard_trap(void);
static jmp_buf back;
void scard_trap(void)
{
    longjmp(back, 1);
}
static _Alignas(8) uint8_t room[@ROOM@];
static const uint8_t filled[@ROOM@] = {@FILLED@};
static const uint8_t values[3][9] = {@VALUES@};
static const struct scard_known known[4] = {{values[0], 9}, {values[1], 1}, {NULL, 5}, {values[0], 9}};
static void show(void)
{
    size_t place;
    for (place = 0; place < sizeof room; place++) {
        printf("%02x", room[place]);
    }
}
@CALLS@
static const struct row {
    void (*call)(const uint64_t *given);
    uint64_t given[3];
} rows[] = {
@ROWS@
};
int main(void)
{
    static size_t at;
    for (at = 0; at < sizeof rows / sizeof rows[0]; at++) {
        memcpy(room, filled, sizeof room);
        if (setjmp(back) == 0) {
            rows[at].call(rows[at].given);
        } else {
            printf("trap");
        }
        printf("\\n");
    }
    return 0;
}
"""


def call_of(case):
    """A function in C that makes the call of a case with some numbers, and prints what follows."""
    count = case.prototype.count(",") + (not case.prototype.endswith("(void);")) - (2 if case.before else 0)
    given = ", ".join([*filter(None, [case.before]), *(f"given[{at}]" for at in range(count))])
    made = f"{case.function.name}({given})"
    value = f'printf("%llx", (unsigned long long){made});' if case.function.gives else f"{made};"
    shown = ' printf(" "); show();' if case.is_room_shown else ""
    return f"static void c_{case.function.name}(const uint64_t *given) {{ (void)given; {value}{shown} }}"


def program(cases):
    """The text of a program that makes the calls of all cases."""
    rows = [f"    {{c_{case.function.name}, {{{', '.join(f'{it}ull' for it in given) or 0}}}}}," for case in cases
            for given, _ in case.rows]
    parts = {"ROOM": str(ROOM), "FILLED": ", ".join(map(str, FILLED)),
             "VALUES": ", ".join("{" + (", ".join(map(str, it)) or "0") + "}" for it in VALUES),
             "CALLS": "\n".join(map(call_of, cases)), "ROWS": "\n".join(rows)}
    text = PROGRAM
    for name, part in parts.items():
        text = text.replace(f"@{name}@", part)
    return text


def every():
    """All cases. The function that one of them calls comes first."""
    found = [*numbers(), *flow(), *beyond(), *loads(), *stores(), *many(), *loops(), *pointed(), *moved(), *constants()]
    names = [it.function.name for it in found]
    for case in found:
        case.function.text = case.function.text.replace("{below}", str(names.index("scard_below")))
    return found


def header_of(cases):
    return HEADER + "\n".join(it.prototype for it in cases) + "\n"


class Instructions(unittest.TestCase):
    """What the instructions do as C, in several forms."""

    @classmethod
    def setUpClass(cls):
        cls.cases = every()
        cls.module = assembler.module([it.function for it in cls.cases], CONSTANTS, PLACED)
        work = tempfile.TemporaryDirectory()
        cls.addClassCleanup(work.cleanup)
        cls.work = pathlib.Path(work.name)
        (cls.work / "scard.h").write_text(header_of(cls.cases))
        (cls.work / "calls.c").write_text(program(cls.cases))
        if not shutil.which("cc"):
            print("test_instructions: what the instructions do in C: left out: there is no command cc")
        else:
            cls.run_by("calls.c", "-c", "-w", "-std=c11")
        cls.said = [said for case in cls.cases for _, said in case.rows]
        cls.lines = [(case.function.name, given) for case in cls.cases for given, _ in case.rows]

    @classmethod
    def run_by(cls, file, *words):
        words = ["cc", "-std=c99", "-Wall", "-Wextra", "-Wno-type-limits", "-Werror", f"-I{cls.work}", *words, cls.work / file]
        if "-c" in words:
            words += ["-o", (cls.work / file).with_suffix(".o")]
        subprocess.run([*map(str, words)], check=True)

    def tried(self, words=(), passes=Passes()):
        """Translates, compiles and runs all cases, and compares what they print."""
        if not shutil.which("cc"):
            return
        (self.work / "scard.c").write_text(unit.text(self.module, header_of(self.cases), passes))
        self.run_by("scard.c", self.work / "calls.o", "-DSCARD_OWN_TRAP", *words, "-o", self.work / "program")
        found = subprocess.run([self.work / "program"], check=True, stdout=subprocess.PIPE, text=True).stdout.splitlines()
        self.assertEqual(len(found), len(self.said))
        wrong = [(*line, have, want) for line, have, want in zip(self.lines, found, self.said) if have != want]
        self.assertEqual(wrong[:5], [], f"{len(wrong)} calls differ")

    def test_as_it_is(self):
        self.tried(["-O1"])

    def test_with_all_checks_of_the_compiler(self):
        self.tried(["-O1", "-fsanitize=address,undefined", "-fno-sanitize-recover=undefined"])

    def test_plain_forms_by_octets(self):
        self.tried(["-DSCARD_PLAIN", "-DSCARD_BY_OCTETS", "-DSCARD_SHAPED"])

    def test_windows_of_a_32_bit_machine(self):
        self.tried(["-DSCARD_NARROW"])

    def test_without_each_pass(self):
        for field in dataclasses.fields(Passes):
            with self.subTest(field.name):
                self.tried(passes=dataclasses.replace(Passes(), **{field.name: False}))

    def test_without_any_pass(self):
        self.tried(passes=Passes(**{it.name: False for it in dataclasses.fields(Passes)}))

    def test_each_pass_does_something(self):
        whole = unit.text(self.module, header_of(self.cases))
        for field in dataclasses.fields(Passes):
            other = unit.text(self.module, header_of(self.cases), dataclasses.replace(Passes(), **{field.name: False}))
            self.assertTrue(other != whole, field.name)

    def test_each_call_gets_the_constants_that_it_can_reach(self):
        text = unit.text(self.module, header_of(self.cases))
        for name, part in (("constant_few", "first_constants"), ("constant_later", "constants"), ("sum", ""),
                           ("constant_address", "constants"), ("constant_led", "constants"), ("i64_add", ""),
                           ("constant_below", "first_constants"), ("i32_const_0", "")):
            call = re.search(rf"^\w+ scard_{name}\(.*?^}}", text, re.M | re.S)[0]
            self.assertEqual(call.partition("lend(&m, 0, ")[2].partition(",")[0], part, name)

    def test_first_constants_with_a_pointer_are_not_parted(self):
        data = CONSTANTS[:40] + CONSTANTS[200:208] + CONSTANTS[48:]
        text = unit.text(assembler.module([it.function for it in self.cases], data, PLACED), header_of(self.cases))
        self.assertNotIn("first_constants", text)

    def test_each_instruction_is_in_a_case(self):
        used = {it.partition(":")[0] for case in self.cases for it in case.function.text.split()}
        missing = {*CODES, *assembler.NUMBERED, *assembler.BLOCKS, *assembler.MANY, "br_table", "drop", "select", "nop",
                   "unreachable", "return"} - used
        self.assertEqual(missing, {f"{kind}.{name}" for kind in BITS for name in ("div_s", "rem_s")}
                         | {f"f{bits}.{what}" for bits in (32, 64) for what in ("load", "store")})

    def test_an_instruction_that_has_no_form_is_refused_by_name(self):
        for kind in BITS:
            for name in ("div_s", "rem_s"):
                case = called(Function("scard_f", f"{kind} {kind}", kind, "", f"local.get 0 local.get 1 {kind}.{name}"),
                              f"{kind} {kind}", [])
                with self.assertRaisesRegex(Unfit, f"{kind}.{name}"):
                    unit.text(assembler.module([case.function]), header_of([case]))

    def test_the_codes_are_those_of_the_standard(self):
        self.assertEqual({**assembler.PLAIN, **assembler.MOVED}, {**assembler.PLAIN, **assembler.MOVED, **{
            name: code for name, code in CODES.items() if not name.startswith("f")}})

    def test_a_function_that_calls_itself_is_refused(self):
        case = called(Function("scard_f", "i64", "i64", "", "local.get 0 call 0"), "i64", [])
        with self.assertRaisesRegex(Unfit, "calls itself"):
            unit.text(assembler.module([case.function]), header_of([case]))


if __name__ == "__main__":
    unittest.main()
