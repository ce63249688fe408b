"""Writes the program's module as C in parts that a compiler takes side by side: module.h, which all of them include,
part-0.c and so on with the functions, and constants.c with the octets of the memory's beginning."""

import concurrent.futures
import pathlib
import sys

HERE = pathlib.Path(__file__).resolve().parent
sys.path[:0] = [str(HERE), str(HERE.parent / "translator")]
import functions
import reading
from values import TYPES, constant
from wasm import Unfit

HEAD = "/* Made by tools/release/program-c from dist/scard.wasm; don't change it. */\n"
# the functions that the host calls
CALLED = ("scard_answer", "scard_room")
# the functions of the host: their names here
HOSTS = {"read": "host_read", "write": "host_write"}
# a row of constants, in octets, and how many octets 0 are left out rather than written
ROW, GAP = 32, 64


def names_of(program):
    """The name in C of each function."""
    unknown = [it.name for it in program.hosts if it.name not in HOSTS]
    if unknown or any(it not in program.exports for it in CALLED):
        raise Unfit(f"it calls {unknown}, or lacks a function that is called")
    names = [HOSTS[it.name] for it in program.hosts]
    names += [f"f{place}" for place in range(len(names), len(program.functions))]
    for name in CALLED:
        names[program.exports[name]] = name
    return names


def shared(program, names):
    """What all parts include."""
    heads = [f"{functions.head(it, name)};" for it, name in zip(program.functions, names)]
    globals_ = [f"extern OWN {TYPES[kind]} g{place};" for place, (kind, _) in enumerate(program.globals)]
    sizes = [f"#define MODULE_PAGES {program.pages}u", f"#define MODULE_MOST {program.most}u"]
    lines = ["#ifndef SCARD_MODULE_H", "#define SCARD_MODULE_H", '#include "machine.h"', "", *sizes, "", *globals_, "",
             "void module_begin(u8 *m);", "", *heads, "", "#endif", ""]
    return HEAD + "\n".join(lines)


def pieces_of(octets):
    """The octets in pieces without a long run of 0, each with its place."""
    found, at = [], 0
    while at < len(octets):
        gap = octets.find(bytes(GAP), at)
        end = len(octets) if gap < 0 else gap
        if end > at:
            found.append((at, octets[at:end]))
        at = end
        while at < len(octets) and octets[at] == 0:
            at += 1
    return found


def constants(program):
    """The global variables, and the octets with which the memory begins."""
    globals_ = [f"OWN {TYPES[kind]} g{place};" for place, (kind, _) in enumerate(program.globals)]
    firsts = [f"    g{place} = {constant(first, kind)};" for place, (kind, first) in enumerate(program.globals)]
    arrays, copies = [], []
    for number, (place, piece) in enumerate(pieces_of(program.constants)):
        rows = [",".join(map(str, piece[at : at + ROW])) for at in range(0, len(piece), ROW)]
        body = ",\n".join(rows)
        arrays.append(f"static const u8 constants{number}[{len(piece)}] = {{\n{body}\n}};\n")
        count = f"{len(piece)}u"
        copies.append(f"    memcpy(piece(m, {program.first + place}u, {count}), constants{number}, {count});")
    begin = ["void module_begin(u8 *m)", "{", *firsts, *copies, "}", ""]
    return "\n".join([HEAD + '#include "module.h"\n', *globals_, "", *arrays, *begin])


def parted(program, count):
    """The numbers of the functions of each part, with about the same number of instructions in each part."""
    own = range(len(program.hosts), len(program.functions))
    weight = {it: len(program.functions[it].body) + 10 for it in own}
    parts, room = [[]], sum(weight.values()) / count
    filled = 0
    for it in own:
        if filled >= room * len(parts) and len(parts) < count:
            parts.append([])
        parts[-1].append(it)
        filled += weight[it]
    return parts


# the module and its functions' names, in each process of its own
KNOWN = {}


def known(octets):
    if "program" not in KNOWN:
        KNOWN["program"] = reading.read(octets)
        KNOWN["names"] = names_of(KNOWN["program"])
    return KNOWN["program"], KNOWN["names"]


def part(octets, count, number):
    """A part in C."""
    program, names = known(octets)
    sys.setrecursionlimit(100_000)
    texts = [functions.text(program, it, names) for it in parted(program, count)[number]]
    return "\n".join([HEAD + '#include "module.h"\n', *texts])


def write(octets, folder, count):
    """Writes all files that are made of the module."""
    program, names = known(octets)
    (folder / "module.h").write_text(shared(program, names))
    (folder / "constants.c").write_text(constants(program))
    count = min(count, len(parted(program, count)))
    with concurrent.futures.ProcessPoolExecutor() as pool:
        for number, text in enumerate(pool.map(part, [octets] * count, [count] * count, range(count))):
            (folder / f"part-{number}.c").write_text(text)
