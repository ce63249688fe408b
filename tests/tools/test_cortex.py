#!/usr/bin/env python3
"""Tests how the compiler's module becomes one for Cortex-M: what tools/release/everywhere/narrow.py refuses, what it
writes, and that calls with each type do the same there, in qemu."""

import pathlib
import shutil
import subprocess
import sys
import tempfile
import unittest

sys.dont_write_bytecode = True
from copies import TOP, script

cortex = script("release/cortex")
import header
import narrow
from wasm import Unfit

HEADER = """struct scard_pair {
    const char *text;
    scard_size count;
    uint8_t few;
};
struct scard_said {
    uint8_t status;
    scard_size place;
};
struct scard_said scard_find(const uint8_t *octets, size_t count, uint8_t octet);
void scard_pair_of(const uint8_t *octets, size_t count, struct scard_pair *out);
size_t scard_count_of(const struct scard_pair *pair);
uint8_t scard_first_of(const struct scard_pair *pair);
void scard_row(uint8_t number, struct scard_pair *out);
bool scard_either(bool one, bool other);
uint64_t scard_sum(uint8_t a, uint64_t b, uint16_t c, uint32_t d, uint64_t e, size_t f);
uint32_t scard_product(uint32_t a, uint64_t b);
"""
ZEROS = r"\00" * 7
ROWS = (f'[8 x i8] c"\\03{ZEROS}", ptr @word, [8 x i8] c"\\04{ZEROS}", ptr getelementptr (i8, ptr @more, i64 1)')
MODULE = f'''target datalayout = "{narrow.LAYOUT_FROM}"
target triple = "{narrow.FROM}"
@word = private unnamed_addr constant [3 x i8] c"abc", align 1
@more = private unnamed_addr constant [5 x i8] c"?d,\\22e", align 1
@rows = private constant <{{ [8 x i8], ptr, [8 x i8], ptr }}> <{{ {ROWS} }}>, align 8
declare noundef zeroext i1 @__rattle_enter() #1
declare void @__rattle_leave() #1
declare void @__rattle_trap() #1
declare ptr @llvm.frameaddress.p0(i32 immarg)
define void @scard_find(ptr noundef %a0, ptr noundef %a1, i64 noundef %a2, i8 noundef %a3) #0 {{
start:
  %busy = call i1 @__rattle_enter()
  br i1 %busy, label %never, label %next
never:
  call void @__rattle_trap()
  unreachable
next:
  %at = phi i64 [ 0, %start ], [ %more, %other ]
  %isend = icmp uge i64 %at, %a2
  br i1 %isend, label %end, label %look
look:
  %place = getelementptr i8, ptr %a1, i64 %at
  %octet = load i8, ptr %place, align 1
  %same = icmp eq i8 %octet, %a3
  %more = add i64 %at, 1
  br i1 %same, label %end, label %other
other:
  br label %next
end:
  %found = phi i8 [ 0, %next ], [ 1, %look ]
  %last = phi i64 [ %a2, %next ], [ %at, %look ]
  store i8 %found, ptr %a0, align 8
  %to = getelementptr i8, ptr %a0, i64 8
  store i64 %last, ptr %to, align 8
  call void @__rattle_leave()
  ret void
}}
define void @scard_pair_of(ptr noundef %a0, i64 noundef %a1, ptr noundef %a2) #0 {{
  %kept = alloca ptr, align 8
  %frame = call ptr @llvm.frameaddress.p0(i32 0)
  %number = ptrtoaddr ptr %frame to i64
  %isdeep = icmp slt i64 %number, 16
  br i1 %isdeep, label %trap, label %go
trap:
  call void @__rattle_trap()
  unreachable
go:
  %isnone = icmp eq i64 %a1, 0
  %from = select i1 %isnone, ptr @word, ptr %a0
  store ptr %from, ptr %kept, align 8
  %again = load ptr, ptr %kept, align 8
  store ptr %again, ptr %a2, align 8
  %count = getelementptr i8, ptr %a2, i64 8
  store i64 %a1, ptr %count, align 8
  %few = getelementptr i8, ptr %a2, i64 16
  store i8 7, ptr %few, align 8
  ret void
}}
define noundef i64 @scard_count_of(ptr noundef %a0) #0 {{
  %place = getelementptr i8, ptr %a0, i64 8
  %count = load i64, ptr %place, align 8
  ret i64 %count
}}
define internal {{ i8, ptr }} @both(ptr noundef %a0) #1 {{
  %pair = alloca [16 x i8], align 8
  store i8 1, ptr %pair, align 8
  %text = load ptr, ptr %a0, align 8
  %place = getelementptr i8, ptr %pair, i64 8
  store ptr %text, ptr %place, align 8
  %both = load {{ i8, ptr }}, ptr %pair, align 8
  ret {{ i8, ptr }} %both
}}
define noundef i8 @scard_first_of(ptr noundef %a0) #0 {{
  %both = call {{ i8, ptr }} @both(ptr %a0)
  %text = extractvalue {{ i8, ptr }} %both, 1
  %first = load i8, ptr %text, align 1
  ret i8 %first
}}
define void @scard_row(i8 noundef %a0, ptr noundef %a1) #0 {{
  %number = zext i8 %a0 to i64
  %place = mul i64 %number, 16
  %row = getelementptr i8, ptr @rows, i64 %place
  %count = load i64, ptr %row, align 8
  %behind = getelementptr i8, ptr %row, i64 8
  %text = load ptr, ptr %behind, align 8
  store ptr %text, ptr %a1, align 8
  %to = getelementptr i8, ptr %a1, i64 8
  store i64 %count, ptr %to, align 8
  ret void
}}
define noundef zeroext i1 @scard_either(i1 noundef zeroext %a0, i1 noundef zeroext %a1) #0 {{
  %so = or i1 %a0, %a1
  ret i1 %so
}}
define noundef i64 @scard_sum(i8 noundef %a0, i64 noundef %a1, i16 noundef %a2, i32 noundef %a3, i64 noundef %a4, i64 noundef %a5) #0 {{
  %b0 = zext i8 %a0 to i64
  %b2 = zext i16 %a2 to i64
  %b3 = zext i32 %a3 to i64
  %s1 = add i64 %b0, %a1
  %s2 = add i64 %s1, %b2
  %s3 = add i64 %s2, %b3
  %s4 = add i64 %s3, %a4
  %s5 = add i64 %s4, %a5
  ret i64 %s5
}}
define noundef i32 @scard_product(i32 noundef %a0, i64 noundef %a1) #0 {{
  %b0 = zext i32 %a0 to i64
  %made = mul i64 %b0, %a1
  %high = lshr i64 %made, 32
  %part = trunc i64 %high to i32
  ret i32 %part
}}
attributes #0 = {{ nounwind "probe-stack"="inline-asm" "stack-probe-size"="3072" "target-cpu"="lime1" "wasm-export-name"="a" }}
attributes #1 = {{ nounwind }}
'''
PROGRAM = r"""#include <stdbool.h>
#include <stddef.h>
#include <stdint.h>
#include <stdio.h>
#include <string.h>
typedef uint64_t scard_size;
@HEADER@
static int wrong;
#define IS(so) ((so) ? (void)0 : (void)(wrong = 1, printf("not so: %s\n", #so)))

int main(void)
{
    const uint8_t octets[] = {9, 8, 0x80, 6};
    struct {
        struct scard_pair pair;
        uint8_t after[8];
    } in = {{NULL, 1, 1}, {1, 2, 3, 4, 5, 6, 7, 8}};
    const struct scard_said found = scard_find(octets, sizeof octets, 0x80), none = scard_find(octets, 2, 6);
    IS(found.status == 1 && found.place == 2 && none.status == 0 && none.place == 2);
    IS(scard_find(NULL, 0, 0).place == 0);
    scard_pair_of(octets, sizeof octets, &in.pair);
    IS(in.pair.few == 7 && in.pair.text == (const char *)octets && in.pair.count == 4);
    IS(scard_first_of(&in.pair) == 9 && scard_count_of(&in.pair) == 4 && in.after[0] == 1);
    scard_pair_of(octets, 0, &in.pair);
    IS(memcmp(in.pair.text, "abc", 3) == 0 && scard_first_of(&in.pair) == 'a' && in.pair.count == 0);
    scard_row(0, &in.pair);
    IS(in.pair.count == 3 && memcmp(in.pair.text, "abc", 3) == 0);
    scard_row(1, &in.pair);
    IS(in.pair.count == 4 && memcmp(in.pair.text, "d,\"e", 4) == 0);
    IS(!scard_either(false, false) && scard_either(true, false) && scard_either(false, true));
    IS(scard_sum(255, 0xFFFFFFFFFFFFFF00u, 0, 1, 0, 0) == 0);
    IS(scard_sum(1, (uint64_t)2 << 40, 65535, 0xFFFFFFFFu, (uint64_t)3 << 50, 0xFFFFFFFFu)
       == ((uint64_t)2 << 40) + ((uint64_t)3 << 50) + 65536u + 2u * (uint64_t)0xFFFFFFFFu);
    IS(scard_product(0xFFFFFFFFu, 0x100000001u) == 0xFFFFFFFFu && scard_product(2, 0x7FFFFFFFu) == 0);
    return wrong;
}
"""
STRICT = ["-std=c99", "-Os", "-mthumb", "-Wall", "-Wextra", "-Werror"]
EMULATOR = ["qemu-system-arm", "-machine", "mps2-an386", "-display", "none", "-monitor", "none", "-serial", "null",
            "-semihosting-config", "enable=on,target=native", "-kernel"]


def read(text):
    """The structs of a header, the same with short pointers, and its calls."""
    wide, calls = header.read(text)
    return wide, header.read(text, pointer=4)[0], calls


class Narrow(unittest.TestCase):
    def refused(self, words, text=MODULE, head=HEADER):
        wide, short, calls = read(head)
        with self.assertRaisesRegex(Unfit, words):
            narrow.look_at(text, wide, short)
            narrow.narrowed(text, "thumbv6m-none-unknown-eabi", calls, wide)

    def test_another_target(self):
        self.refused("isn't one for WebAssembly", MODULE.replace(narrow.FROM, "x86_64-unknown-linux-gnu"))
        self.refused("isn't one for WebAssembly", MODULE.replace("p:64:64", "p:32:32"))

    def test_a_pointer_made_of_a_number(self):
        self.refused("pointers of numbers", MODULE + "; %p = inttoptr i64 %n to ptr\n")

    def test_a_struct_that_lies_otherwise(self):
        self.refused("struct scard_pair lies otherwise", head=HEADER.replace("    const char *text;\n    scard_size",
                                                                             "    const char *text, *more;\n    scard_size"))

    def test_a_call_that_the_header_lacks(self):
        self.refused("the header lacks scard_either", head=HEADER.replace("scard_either", "scard_other"))

    def test_pointers_that_llvm_lays_out(self):
        for line in ("  %both = load { i16, ptr }, ptr %pair, align 8", "  store { ptr, ptr } %a, ptr %b, align 8",
                     "  %a = alloca [2 x ptr], align 8", "@a = private constant [2 x ptr] [ptr @b, ptr @c], align 8"):
            self.refused("pointers in", MODULE + line + "\n")

    def test_pointers_are_written_whole(self):
        text = narrow.with_wide_pointers("  %k = alloca ptr, align 8\n  store ptr %a, ptr %k, align 8\n")
        self.assertEqual(text, "  %k = alloca i64, align 8\n  %wide1 = ptrtoint ptr %a to i64\n"
                               "  store i64 %wide1, ptr %k, align 8\n")

    def test_nothing_of_one_processor_is_left(self):
        wide, _, calls = read(HEADER)
        text = narrow.narrowed(MODULE, "thumbv6m-none-unknown-eabi", calls, wide)
        for word in ("lime1", "probe", "ptrtoaddr", "frameaddress.p0(i32 0)", "wasm64", "store ptr"):
            self.assertNotIn(word, text)


class OnCortex(unittest.TestCase):
    """The calls of the small module, compiled for each processor and run."""

    def setUp(self):
        if not cortex.KIT:
            self.skipTest("there is no toolchain")
        for it in ("arm-none-eabi-gcc", "qemu-system-arm"):
            if not shutil.which(it):
                self.skipTest(f"there is no command {it}")

    def test_calls(self):
        wide, _, calls = read(HEADER)
        with tempfile.TemporaryDirectory() as folder:
            work = pathlib.Path(folder)
            (work / "program.c").write_text(PROGRAM.replace("@HEADER@", HEADER))
            for processor, triple in cortex.PROCESSORS.items():
                with self.subTest(processor):
                    (work / "module.ll").write_text(narrow.narrowed(MODULE, triple, calls, wide))
                    cortex.compiled(work / "module.ll", processor, work / "module.o")
                    self.assertEqual(self.run_on(processor, work), (0, b""))

    def run_on(self, processor, work):
        """Links the program with the module and runs it. Returns its status and its output."""
        files = [work / "program.c", work / "module.o", TOP / "tests/cortex/start.c"]
        links = ["--specs=rdimon.specs", "-T", TOP / "tests/cortex/link.ld", "-o", work / "program"]
        subprocess.run(["arm-none-eabi-gcc", *STRICT, f"-mcpu={processor}", *files, *links], check=True,
                       stderr=subprocess.DEVNULL)
        done = subprocess.run([*EMULATOR, work / "program"], check=False, stdout=subprocess.PIPE, timeout=120)
        return done.returncode, done.stdout


if __name__ == "__main__":
    unittest.main()
