"""Reads the program's module: like wasm.py, and also what only this module has: functions of the host, a memory that
grows, and numbers with a point. Such a number is read as its 64 bits, which are an integer."""

import dataclasses
import struct

import wasm
from wasm import Function, Unfit, each, number, text

MEMORY_SIZE, MEMORY_GROW, F32_CONST, F64_CONST = 0x3F, 0x40, 0x43, 0x44
F64 = 0x7C
# the pages of 2^32 octets
MOST = 1 << 16


@dataclasses.dataclass
class Program:
    """The functions by number, those of the host first; the exported ones by name; the global variables; the constants
    with their first place; and with how many pages the memory begins, and how many it may have."""

    functions: list
    hosts: list
    exports: dict
    globals: list
    constants: bytes
    first: int
    pages: int
    most: int


def plain(kinds):
    """Types, with that of an integer in place of that of a number with a point."""
    return [wasm.I64 if it == F64 else it for it in kinds]


def instruction(octets, at):
    """An instruction with its operand, and where it ends."""
    code = octets[at]
    if code in (wasm.BLOCK, wasm.LOOP, wasm.IF):
        return (code, plain(octets[at + 1 : at + 2])[0]), at + 2
    if code in (MEMORY_SIZE, MEMORY_GROW):
        return (code, None), at + 2
    if code == F64_CONST:
        return (code, struct.unpack_from("<Q", octets, at + 1)[0]), at + 9
    if code == F32_CONST:
        raise Unfit("it has a number with a point of 32 bits")
    return wasm.instruction(octets, at)


def body_of(octets):
    """The types of a function's own variables, and its instructions without the last `end`."""
    rows, at = each(octets)
    variables, body = [], []
    for _ in rows:
        count, at = number(octets, at)
        variables += plain(octets[at : at + 1]) * count
        at += 1
    while at < len(octets):
        one, at = instruction(octets, at)
        body.append(one)
    return variables, body[:-1]


def hosts_of(octets, types):
    """The functions of the host."""
    rows, at = each(octets)
    found = []
    for _ in rows:
        _, at = text(octets, at)
        name, at = text(octets, at)
        if octets[at] != 0:
            raise Unfit("it imports something that is no function")
        which, at = number(octets, at + 1)
        found.append(Function(name, *types[which], [], []))
    return found


def pages_of(octets):
    """With how many pages the memory begins, and how many it may have."""
    rows, at = each(octets)
    if len(rows) != 1 or octets[at] > 1:
        raise Unfit("it has another memory than one of 32 bits")
    first, after = number(octets, at + 1)
    return first, number(octets, after)[0] if octets[at] else MOST


def read(octets):
    """The program's module."""
    parts = dict(wasm.sections(octets))
    for kind, what in ((wasm.TABLES, "has a table"), (wasm.ELEMENTS, "has a table"), (wasm.START, "begins by itself")):
        if kind in parts and number(parts[kind], 0)[0]:
            raise Unfit(f"it {what}")
    types = [(plain(takes), plain(gives)) for takes, gives in wasm.types_of(parts[wasm.TYPES])]
    hosts = hosts_of(parts[wasm.IMPORTS], types)
    which, _ = wasm.several(parts[wasm.FUNCTIONS], 0)
    rows, at = each(parts[wasm.CODE])
    functions = list(hosts)
    for place in rows:
        count, at = number(parts[wasm.CODE], at)
        functions.append(Function("", *types[which[place]], *body_of(parts[wasm.CODE][at : at + count])))
        at += count
    constants, first = wasm.data_of(parts[wasm.DATA])
    exports, variables = wasm.exports_of(parts[wasm.EXPORTS]), wasm.globals_of(parts[wasm.GLOBALS])
    return Program(functions, hosts, exports, variables, constants, first, *pages_of(parts[wasm.MEMORIES]))
