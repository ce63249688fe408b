"""Writes a module as one file of C: the machine, which is written by hand, the constants and the functions of the
module, which are translated one by one, and the calls of the header."""

import pathlib
import textwrap

import header
import wasm
from calls import Calls, layout, shape
from passes import Passes

HEAD = """/* scard: the calls of scard.h that take no memory, for any machine.
 *
 * Made by tools/release/dist; don't change it. Compile this file with your program: cc -I. program.c scard.c
 *
 * The functions were proved in Rattle and compiled for WebAssembly by its toolchain; tools/release/translator wrote
 * each as C, instruction by instruction. That writing isn't proved: it is tested, by tools/release/portable. Four parts
 * follow: the constants of the module; the machine, written by hand; the functions of the module, translated; and the
 * calls of scard.h, written from the header.
 *
 * It is C99 and C++17. It writes no variable outside its calls, takes no memory, and no function calls itself. It wants
 * memcpy, memmove, memset and, unless SCARD_OWN_TRAP is defined, abort. Words that may be defined: SCARD_OWN_TRAP;
 * SCARD_BY_OCTETS and SCARD_PLAIN, which leave out what is faster on some machines; SCARD_SHAPED, which reaches structs
 * as where the highest octet is first, and SCARD_NARROW, which counts addresses as on 32 bits, for tests; and
 * HIGHEST_FIRST, 1 or 0, where the compiler doesn't tell the order.
 */
"""

ABSENT = "/* These calls of scard.h aren't in this file, since they take memory:\n * {} */\n"
HERE = pathlib.Path(__file__).resolve().parent


def text(octets, head, passes=Passes(), apart=()):
    """The file of C for a module and a header. `apart` has the functions that the sources keep apart."""
    module = wasm.read(octets)
    structs, said = header.read(head)
    made = Calls(module, structs, said, passes, apart)
    functions = [made.function(it) for it in range(len(module.functions))]
    calls = [made.call(it) for it in made.calls]
    heads = [made.head(it) + ";" for it in range(len(module.functions))]
    named = {it.type.removeprefix("struct ") for call in made.calls for it in call.takes if it.type.startswith("struct ")}
    named |= {call.gives.removeprefix("struct ") for call in made.calls if call.gives.startswith("struct ")}
    used = [it for it in structs.values() if it.name in named]
    shapes = [shape(it) for it in used if f"shape_of_{it.name.removeprefix('scard_')}(" in "".join(calls)]
    absent = "\n * ".join(textwrap.wrap(", ".join(made.absent), 116))
    body = "\n".join(["/* ---- the functions of the module: translated ---- */\n", *heads, "", *functions,
                      "/* ---- the calls of scard.h: written from the header ---- */\n",
                      *([ABSENT.format(absent)] if absent else []), *(layout(it) for it in used), *shapes, *calls])
    machine = (HERE / "machine.h").read_text()
    return "\n".join([HEAD, '#include "scard.h"\n', made.constants.text(made.parts), machine, body])
