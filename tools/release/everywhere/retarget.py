"""Turns the compiler's module for x86-64 into one for WebAssembly, and looks at what became of it.

The toolchain's prover hands its compiler a module of LLVM. For a crate that takes memory it makes none for WebAssembly,
since its own functions for a system are in C. Both targets have pointers of 64 bits, the lowest octet
first, and the same places of the fields of a struct. So only the names of the target and of its processor change."""

import re

import wasm
from wasm import Unfit, each, number, text

TARGET = "wasm64-unknown-unknown"
LAYOUT = "e-m:e-p:64:64-p10:8:8-p20:8:8-i64:64-i128:128-n32:64-S128-ni:1:10:20"
FROM = "x86_64-unknown-linux-gnu"
# what the places of fields depend on, in the layout of a target: the order of octets, pointers, numbers of 64 and 128
# bits, the stack
SAME = ("e", "m:e", "i64:64", "i128:128", "S128")
# an instruction of one kind of processor, such as llvm.x86.ssse3.pshuf.b.128
OF_PROCESSOR = re.compile(r"@llvm\.(x86|aarch64|arm)\.[\w.]+")
# what the module takes from its host, and what it gives it
IMPORTS = {"read", "write"}
EXPORTS = {"memory", "scard_answer", "scard_room"}
# the name of the program's function `main`, which compilers for WebAssembly treat in their own way
MAIN = "scard_main"


def retargeted(module):
    """A module of LLVM in text, for WebAssembly."""
    layout = re.search(r'^target datalayout = "(.*)"$', module, re.M)
    target = re.search(r'^target triple = "(.*)"$', module, re.M)
    if not layout or not target or target[1] != FROM or not set(SAME) <= set(layout[1].split("-")):
        raise Unfit("the compiler's module isn't one for x86-64 as expected")
    wanted = OF_PROCESSOR.search(module)
    if wanted:
        raise Unfit(f"the compiler's module has an instruction of one processor: {wanted[0]}")
    module = module.replace(layout[0], f'target datalayout = "{LAYOUT}"')
    module = module.replace(target[0], f'target triple = "{TARGET}"')
    if not re.search(r"^define i32 @main\(\)", module, re.M):
        raise Unfit("the compiler's module has no function main() that returns a status")
    module = re.sub(r"@main\b", f"@{MAIN}", module)
    return re.sub(r'"target-(cpu|features)"="[^"]*"', "", module)


def without_table(octets):
    """A module without its table, which the linker adds and nothing uses."""
    at, kept = 8, octets[:8]
    while at < len(octets):
        count, body = number(octets, at + 1)
        kept += b"" if octets[at] == wasm.TABLES else octets[at : body + count]
        at = body + count
    return kept


def imports_of(octets):
    """The names of what a module imports."""
    rows, at = each(octets)
    found = []
    for _ in rows:
        _, at = text(octets, at)
        name, at = text(octets, at)
        found.append(name)
        if octets[at] != 0:
            raise Unfit(f"it imports {name}, which is no function")
        _, at = number(octets, at + 1)
    return found


def exports_of(octets):
    """The names of what a module exports."""
    rows, at = each(octets)
    found = []
    for _ in rows:
        name, at = text(octets, at)
        found.append(name)
        _, at = number(octets, at + 1)
    return found


def look_at(octets):
    """Refuses a module that takes or gives anything else than it should, or that has a table."""
    parts = dict(wasm.sections(octets))
    if set(imports_of(parts.get(wasm.IMPORTS, b"\0"))) != IMPORTS:
        raise Unfit(f"it imports {sorted(imports_of(parts.get(wasm.IMPORTS, bytes(1))))}")
    if set(exports_of(parts.get(wasm.EXPORTS, b"\0"))) != EXPORTS:
        raise Unfit(f"it exports {sorted(exports_of(parts.get(wasm.EXPORTS, bytes(1))))}")
    if wasm.TABLES in parts or wasm.ELEMENTS in parts or wasm.START in parts:
        raise Unfit("it has a table, or begins by itself")
