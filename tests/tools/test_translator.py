#!/usr/bin/env python3
"""Tests how tools/release/translator checks the accesses of a function: which accesses share one check, and how long
its result holds. Random functions have to do the same as C and by their meaning."""

import pathlib
import random
import shutil
import subprocess
import sys
import tempfile
import unittest

sys.dont_write_bytecode = True
TRANSLATOR = pathlib.Path(__file__).resolve().parents[2] / "tools/release/translator"
sys.path.insert(0, str(TRANSLATOR))
from bodies import Writer
from frames import own_frame
from near import Near
from loops import Sum
from wasm import (BLOCK, BR, BR_IF, CODES, DROP, ELSE, END, GLOBAL_GET, GLOBAL_SET, I32, I32_CONST, I64, I64_CONST, IF, LOCAL_GET,
                  LOCAL_SET, LOCAL_TEE, LOOP, MEMORY_COPY, MEMORY_FILL, NO_RESULT, Function, Module, Unfit)

ADD, SUB, AND, XOR, EQZ, LESS, WRAP, SIGNED_LESS = (CODES[it] for it in (
    "i64.add", "i64.sub", "i64.and", "i64.xor", "i64.eqz", "i64.lt_u", "i32.wrap_i64", "i64.lt_s"))
LOAD8, LOAD16, LOAD32, LOAD64, STORE8, STORE16, STORE32, STORE64 = (CODES[it] for it in (
    "i64.load8_u", "i64.load16_u", "i64.load32_u", "i64.load", "i64.store8", "i64.store16", "i64.store32", "i64.store"))
OCTETS = {LOAD8: 1, LOAD16: 2, LOAD32: 4, LOAD64: 8, STORE8: 1, STORE16: 2, STORE32: 4, STORE64: 8}
ALL = 1 << 64


def lines_of(body, variables=4):
    """The lines of C for a function that takes two addresses and a number. The accesses of a run are held together."""
    function = Function("f", [I64, I64, I64], [], [I64] * variables, list(body))
    module = Module([function], {}, [(I64, 0), (I32, 0)], b"", 65536)
    own_frame(function)
    first = Writer(module, 0, ["f"])
    first.write()
    return Writer(module, 0, ["f"], first.near.planned()).write()


def load(base, offset, code=LOAD8, to=3):
    return [(LOCAL_GET, base), (code, offset), (LOCAL_SET, to)]


def store(base, offset, code=STORE64):
    return [(LOCAL_GET, base), (I64_CONST, 7), (code, offset)]


class Together(unittest.TestCase):
    """Accesses are held to their window once if all are made or none."""

    def holds(self, *parts):
        lines = lines_of([it for part in parts for it in part])
        return [it.split("held(")[1] for it in lines if " = held(" in it], "\n".join(lines)

    def test_a_run_is_held_from_its_least_octet_to_its_last(self):
        held, text = self.holds(load(0, 5), load(0, 2), store(0, 8))
        self.assertEqual(held, ["m, v0 + 2ull, 14);"])
        self.assertIn("put_held64(p0, 6, m, v0 + 2ull, 7ull);", text.replace("p1,", "p0,"))

    def test_one_access_is_held_by_itself(self):
        held, text = self.holds(load(0, 5), load(1, 2))
        self.assertEqual(held, [])
        self.assertIn("load8(m, v0, 5)", text)

    def test_a_jump_ends_a_run(self):
        body = [(BLOCK, NO_RESULT)], load(0, 0), [(LOCAL_GET, 2), (WRAP, None), (BR_IF, 0)], load(0, 1), [(END, None)]
        self.assertEqual(self.holds(*body)[0], [])

    def test_a_variable_that_changes_makes_another_address(self):
        change = [(LOCAL_GET, 0), (I64_CONST, 1), (ADD, None), (LOCAL_SET, 0)]
        self.assertEqual(self.holds(load(0, 0), change, load(0, 1))[0], [])
        held, text = self.holds(load(0, 0), load(0, 1), change, load(0, 0))
        self.assertEqual((held, text.count("load8(")), (["m, v0, 2);"], 1))

    def test_what_is_held_is_known_after_a_jump(self):
        jump = [(LOCAL_GET, 2), (WRAP, None), (BR_IF, 0)]
        body = load(0, 0), load(0, 3), [(BLOCK, NO_RESULT)], jump, load(0, 1), [(END, None)], load(0, 2)
        held, text = self.holds(*body)
        self.assertEqual((held, text.count("load8(")), (["m, v0, 4);"], 0))

    def test_what_only_one_way_holds_is_not_known_where_ways_meet(self):
        condition = [(LOCAL_GET, 2), (WRAP, None), (IF, NO_RESULT)]
        both = load(0, 0), load(0, 3)
        text = self.holds(condition, *both, [(END, None)], load(0, 1))[1]
        self.assertEqual(text.count("load8("), 1)
        text = self.holds(condition, *both, [(ELSE, None)], *both, [(END, None)], load(0, 1))[1]
        self.assertEqual(text.count("load8("), 1)

    def test_a_loop_knows_nothing_of_what_it_changes(self):
        change = [(LOCAL_GET, 0), (I64_CONST, 8), (ADD, None), (LOCAL_SET, 0), (LOCAL_GET, 0), (WRAP, None), (BR_IF, 0)]
        body = load(0, 0), load(0, 3), load(1, 0), load(1, 3), [(LOOP, NO_RESULT)], load(0, 1), load(1, 1), change
        held, text = self.holds(*body, [(END, None)])
        self.assertEqual((len(held), text.count("load8(")), (2, 1))

    def test_numbers_below_the_variable(self):
        near = Near()
        near.accessed(1, Sum({0: 1}, ALL - 4), 0, 2)
        near.accessed(2, Sum({0: 1}), 3, 4)
        self.assertEqual(near.planned(), {1: (((0, 1),), -4, 7)})


# a frame, whose place is in the variable 4 and, after own_frame, in 7
FRAME = [(GLOBAL_GET, 0), (I64_CONST, 32), (SUB, None), (LOCAL_TEE, 4), (GLOBAL_SET, 0)]


class Frames(unittest.TestCase):
    def test_a_number_more_than_the_place_of_a_frame_is_in_it(self):
        body = [*FRAME, (LOCAL_GET, 4), (I64_CONST, 16), (ADD, None), (I64_CONST, 7), (STORE64, 8)]
        self.assertIn("put64(f7 + 24, 7ull);", lines_of(body))
        self.assertIn("store64(m, v7 + 16ull, 9, 7ull);", lines_of([*body[:-1], (STORE64, 9)]))
        self.assertIn("memset(f7 + 16, (int)(5u & 255u), 16);",
                      lines_of([*body[:-2], (I32_CONST, 5), (I64_CONST, 16), (MEMORY_FILL, None)]))

    def test_a_frame_has_room(self):
        body = [(BLOCK, NO_RESULT), *FRAME, (LOCAL_GET, 4), (I64_CONST, 16), (SIGNED_LESS, None), (BR_IF, 0), (END, None)]
        self.assertNotIn("if", "".join(lines_of(body)))

    def test_an_instruction_that_is_not_known_is_refused(self):
        with self.assertRaisesRegex(Unfit, "0x98"):
            lines_of([(LOCAL_GET, 0), (0x98, None), (DROP, None)])


class Trapped(Exception):
    """An access leaves its window."""


class Run:
    """Runs a function by its instructions, over windows of octets."""

    def __init__(self, body, windows, variables, stack):
        self.body, self.windows, self.variables, self.global_, self.stack = body, windows, variables, stack, []

    def octets(self, address, count):
        window, place = (address - 65536) % ALL >> 61, (address - 65536) % (1 << 61)
        if window not in self.windows or place + count > len(self.windows[window]):
            raise Trapped
        return self.windows[window], place

    def ends(self, at):
        """Where the block that begins at an instruction has its `else`, if any, and its end."""
        depth, otherwise = 1, None
        while depth:
            at += 1
            depth += {BLOCK: 1, LOOP: 1, IF: 1, END: -1}.get(self.body[at][0], 0)
            otherwise = at if depth == 1 and self.body[at][0] == ELSE else otherwise
        return otherwise, at

    def go(self):
        """Runs the whole function. An instruction of the flow decides where to continue."""
        at, blocks = 0, []
        while at < len(self.body):
            code, said = self.body[at]
            if code in (BLOCK, LOOP, IF):
                otherwise, end = self.ends(at)
                is_left = code == IF and not self.stack.pop()
                if not is_left or otherwise:
                    blocks.append((at, end, code == LOOP))
                at = (otherwise or end) if is_left else at
            elif code in (END, ELSE):
                at = blocks.pop()[1]
            elif code == BR or (code == BR_IF and self.stack.pop()):
                del blocks[len(blocks) - said :]
                begun, end, is_loop = blocks[-1]
                at = begun if is_loop else end
                del blocks[len(blocks) - (not is_loop) :]
            elif code != BR_IF:
                self.one(code, said)
            at += 1

    def one(self, code, said):
        pop, push = self.stack.pop, self.stack.append
        if code == LOCAL_GET:
            push(self.variables[said])
        elif code in (LOCAL_SET, LOCAL_TEE):
            self.variables[said] = self.stack[-1] if code == LOCAL_TEE else pop()
        elif code in (I64_CONST, I32_CONST):
            push(said % ALL)
        elif code == GLOBAL_GET:
            push(self.global_)
        elif code == GLOBAL_SET:
            self.global_ = pop()
        elif code in (LOAD8, LOAD16, LOAD32, LOAD64):
            octets, place = self.octets(pop() + said, OCTETS[code])
            push(int.from_bytes(octets[place : place + OCTETS[code]], "little"))
        elif code in OCTETS:
            value, (octets, place) = pop(), self.octets(pop() + said, OCTETS[code])
            octets[place : place + OCTETS[code]] = value.to_bytes(8, "little")[: OCTETS[code]]
        elif code in (MEMORY_COPY, MEMORY_FILL):
            self.many(code, pop(), pop(), pop())
        else:
            self.made(code)

    def many(self, code, count, source, to):
        octets, place = self.octets(to, count)
        if code == MEMORY_COPY:
            others, begin = self.octets(source, count)
            octets[place : place + count] = bytes(others[begin : begin + count])
        else:
            octets[place : place + count] = bytes([source & 0xFF]) * count

    def made(self, code):
        b = self.stack.pop()
        if code in (EQZ, WRAP):
            self.stack.append(int(b == 0) if code == EQZ else b & 0xFFFFFFFF)
            return
        a = self.stack.pop()
        made = {ADD: a + b, SUB: a - b, AND: a & b, XOR: a ^ b, LESS: int(a < b),
                SIGNED_LESS: int((a ^ 1 << 63) < (b ^ 1 << 63))}
        self.stack.append(made[code] % ALL)


class Random:
    """Makes functions of three arguments: two addresses and a number. The variables 3 to 5 are numbers, 6 and 7 count
    the turns of loops, and 8 is the place of a frame of 32 octets."""

    def __init__(self, seed):
        self.random = random.Random(seed)

    def address(self):
        base = self.random.choice((0, 0, 0, 1, 1, 1, 4, 8))
        more = self.random.choice(([], [], [(I64_CONST, self.random.randrange(-4, 12)), (ADD, None)],
                                   [(LOCAL_GET, 2), (self.random.choice((ADD, SUB)), None)]))
        return [(LOCAL_GET, base), *more]

    def value(self):
        kind = self.random.randrange(4)
        if kind == 0:
            return [*self.address(), (self.random.choice((LOAD8, LOAD16, LOAD32, LOAD64)), self.random.randrange(12))]
        if kind == 1:
            return [(I64_CONST, self.random.randrange(-5, 300))]
        if kind == 2:
            return [*self.value(), *self.value(), (self.random.choice((ADD, SUB, XOR)), None)]
        return [(LOCAL_GET, self.random.choice((2, 3, 5)))]

    def condition(self):
        return [*self.value(), (I64_CONST, self.random.choice((1, 2, 3))), (AND, None), (WRAP, None)]

    def change(self):
        kind = self.random.randrange(6)
        if kind == 0:
            return [(LOCAL_GET, 0), (I64_CONST, self.random.randrange(-3, 6)), (ADD, None), (LOCAL_SET, 0)]
        if kind == 1:
            return [*self.address(), (LOCAL_SET, 4)]
        return [*self.value(), (LOCAL_SET, self.random.choice((3, 5)))]

    def statement(self, depth, loops):
        kind = self.random.randrange(14)
        if kind < 5:
            code = self.random.choice((STORE8, STORE16, STORE32, STORE64))
            return [*self.address(), *self.value(), (code, self.random.randrange(12))]
        if kind < 9 or depth == 3:
            return self.change()
        if kind == 9:
            count = [(I64_CONST, self.random.randrange(1, 9))]
            copied = self.random.randrange(2)
            source = self.address() if copied else [*self.value(), (WRAP, None)]
            return [*self.address(), *source, *count, (MEMORY_COPY if copied else MEMORY_FILL, None)]
        if kind == 10 and loops < 2:
            turn = [(LOCAL_GET, 6 + loops), (I64_CONST, 1), (SUB, None), (LOCAL_TEE, 6 + loops), (WRAP, None), (BR_IF, 0)]
            begin = [(I64_CONST, self.random.randrange(1, 4)), (LOCAL_SET, 6 + loops), (LOOP, NO_RESULT)]
            return [*begin, *self.several(depth + 1, loops + 1), *turn, (END, None)]
        if kind == 11:
            jump = [*self.condition(), (BR_IF, self.random.randrange(1 + min(depth - loops, 0)))]
            return [(BLOCK, NO_RESULT), *self.several(depth + 1, loops), *jump, *self.several(depth + 1, loops), (END, None)]
        otherwise = [(ELSE, None), *self.several(depth + 1, loops)] if self.random.randrange(2) else []
        return [*self.condition(), (IF, NO_RESULT), *self.several(depth + 1, loops), *otherwise, (END, None)]

    def several(self, depth, loops):
        return [it for _ in range(self.random.randrange(1, 5)) for it in self.statement(depth, loops)]

    def body(self):
        frame = [(GLOBAL_GET, 0), (I64_CONST, 32), (SUB, None), (LOCAL_TEE, 8), (GLOBAL_SET, 0)]
        return [*frame, (LOCAL_GET, 0), (LOCAL_SET, 4), *(it for _ in range(3) for it in self.several(0, 0))]


PROGRAM = """#define FIRST 65536u
#include <stdint.h>
#include <stdio.h>
#include <setjmp.h>
static const unsigned char constants[1] = {0};
#define SCARD_OWN_TRAP
#include "machine.h"
static jmp_buf back;
void scard_trap(void)
{
    longjmp(back, 1);
}
@FUNCTIONS@
static void (*const functions[])(struct call *, u64, u64, u64) = {@NAMES@};
static u8 room[48 + 24 + 17];
int main(void)
{
    u32 turn, place;
    for (turn = 0; turn < sizeof functions / sizeof functions[0] * 4; turn++) {
        struct call m;
        for (place = 0; place < sizeof room; place++) {
            room[place] = (u8)(place * 37 + turn);
        }
        begin(&m, room, 48, NULL);
        lend(&m, 2, room + 48, 24);
        lend(&m, 3, room + 72, 17);
        if (setjmp(back) == 0) {
            functions[turn / 4](&m, ADDRESS(2) + turn % 4, ADDRESS(3), turn % 4 * 2);
            for (place = 0; place < sizeof room; place++) {
                printf("%02x", room[place]);
            }
        }
        printf("\\n");
    }
    return 0;
}
"""


def as_c(body, place):
    """The text of a function in C."""
    lines = lines_of(body, 6)
    text = "\n".join(lines)
    own = [f"u64 {name} = 0;" for name in ("v3", "v4", "v5", "v6", "v7", "v8", "v9", *(f"w{it}" for it in range(9)))]
    own += [f"u32 t{it} = 0;" for it in range(9)]
    own += [f"u8 *{name} = NULL;" for name in ("f8", "f9", *(f"p{it}" for it in range(len(body) + 9))) if name in text]
    return f"static void f{place}(struct call *m, u64 v0, u64 v1, u64 v2)\n{{\n" + "\n".join([*own, text, "}", ""])


def as_said(body, turn):
    """The memory after a function, or an empty text if an access leaves its window."""
    room = [(place * 37 + turn) % 256 for place in range(89)]
    windows = {1: bytearray(room[:48]), 2: bytearray(room[48:72]), 3: bytearray(room[72:])}
    address = {it: (it << 61) + 65536 for it in windows}
    run = Run(body, windows, [address[2] + turn % 4, address[3], turn % 4 * 2, *[0] * 6], address[1] + 48)
    try:
        run.go()
    except Trapped:
        return ""
    return b"".join(windows.values()).hex()


class Same(unittest.TestCase):
    """Random functions in C do what their instructions say."""

    COUNT = 150

    def test_random_functions(self):
        if not shutil.which("cc"):
            print("test_translator: random functions in C: left out: there is no command cc")
            return
        bodies = [Random(seed).body() for seed in range(self.COUNT)]
        functions = "\n".join(as_c(body, place) for place, body in enumerate(bodies))
        said = [as_said(body, 4 * place + turn) for place, body in enumerate(bodies) for turn in range(4)]
        names = ", ".join(f"f{place}" for place in range(len(bodies)))
        with tempfile.TemporaryDirectory() as work:
            source, program = pathlib.Path(work) / "same.c", pathlib.Path(work) / "same"
            source.write_text(PROGRAM.replace("@FUNCTIONS@", functions).replace("@NAMES@", names))
            for words in ([], ["-O1", "-DSCARD_SHAPED", "-DSCARD_BY_OCTETS"]):
                subprocess.run(["cc", "-std=c99", "-w", *words, f"-I{TRANSLATOR}", source, "-o", program], check=True)
                found = subprocess.run([program], check=True, stdout=subprocess.PIPE, text=True).stdout.splitlines()
                self.assertEqual(found, said)
        self.assertGreater(sum(not it for it in said), 10)
        self.assertGreater(sum(bool(it) for it in said), 100)


if __name__ == "__main__":
    unittest.main()
