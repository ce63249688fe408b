"""Writes the functions of the program's module as C, by the writer of the library's (translator/bodies.py).

The module has one memory, and a function gets the place where that begins as its first argument, `m`. An access is one
of the functions of machine.h, with the address and the number that the instruction adds to it."""

import collections
import re

import bodies
from loops import Sum
from memory import LOADED, STORED
from reading import F64_CONST, MEMORY_GROW, MEMORY_SIZE
from values import BITS, TYPES, Value, value_of
from wasm import CODES, GLOBAL_GET, GLOBAL_SET, I32, I64, I64_CONST, MEMORY_FILL

# An access adds numbers below this itself, in place of the address. An address that they lead past 2^32 then ends the
# program. In the module it begins again at 0, in the last octets of the stack.
FIELD = 1024
LOAD_I64, STORE_I64, LOAD_F64, STORE_F64 = 0x29, 0x37, 0x2B, 0x39
# the instructions on numbers with a point that the module may have: the type of the result, how many numbers it takes,
# and the words in C
COMPARED = {0x61: "==", 0x62: "!=", 0x63: "<", 0x64: ">", 0x65: "<=", 0x66: ">="}
MADE = {0xA0: "+", 0xA1: "-", 0xA2: "*", 0xA3: "/"}
POINTED = {code: (I32, 2, f"(u32)(double_of({{a}}) {how} double_of({{b}}))") for code, how in COMPARED.items()}
POINTED |= {code: (I64, 2, f"bits_of(double_of({{a}}) {how} double_of({{b}}))") for code, how in MADE.items()}
POINTED |= {0x9A: (I64, 1, "bits_of(-double_of({a}))"), 0xB9: (I64, 1, "bits_of((double)(int64_t){a})"),
            0xBA: (I64, 1, "bits_of((double){a})"), 0xBD: (I64, 1, "{a}"), 0xBF: (I64, 1, "{a}")}


class Writer(bodies.Writer):
    """Writes one function of the program's module."""

    def __init__(self, program, place, names):
        super().__init__(program, place, names)
        self.frames = {}

    def changed_here(self):
        """Nothing is known about places here, so no variable matters."""
        return ()

    def folded(self, block):
        """No loop is written in another way."""
        return False

    def one(self, code, said):
        """Writes an instruction."""
        if code in OWN:
            OWN[code](self, said)
        elif code == MEMORY_SIZE:
            self.push(Value("pages", I32, reads=True))
        elif code == MEMORY_GROW:
            self.grow()
        elif code == F64_CONST:
            super().one(I64_CONST, said)
        elif code == LOAD_F64:
            self.load(LOAD_I64, said)
        elif code == STORE_F64:
            self.store(STORE_I64, said)
        elif code in POINTED:
            self.pointed(*POINTED[code])
        else:
            super().one(code, said)

    def grow(self):
        """Makes the memory larger. The result is how many pages there were, or -1."""
        count = self.pop()
        self.settle_reads()
        self.stack.append(Value(f"grow(m, {count.text})", I32, reads=True))
        self.keep(len(self.stack) - 1)

    def pointed(self, kind, count, form):
        """Writes an instruction on numbers with a point."""
        parts = [self.pop() for _ in range(count)][::-1]
        words = dict(zip("ab", (it.part() for it in parts)))
        self.push(value_of(form.format(**words), kind, *parts))

    def wrap(self, _):
        """Makes an address of a number of 64 bits, and keeps the sum that it is."""
        value = self.pop()
        self.push(value_of(f"(u32){value.part()}", I32, value, sum=value.sum))

    def get_global(self, place):
        kind, _ = self.module.globals[place]
        self.push(Value(f"g{place}", kind, reads=True))

    def set_global(self, place):
        value = self.pop()
        self.settle_reads()
        self.say(f"g{place} = {value.text};")

    def load(self, code, offset):
        kind, bits, spread = LOADED[code]
        address = self.pop()
        text = f"load{bits}(m, {reached(address, offset)})"
        if spread and spread < BITS[kind]:
            text = f"spread{BITS[kind]}({text}, {spread})"
        elif kind == I64 and bits < 64:
            text = f"(u64){text}"
        self.push(Value(text, kind, address.names, reads=True, is_plain=text[0] != "("))

    def store(self, code, offset):
        value, address = self.pop(), self.pop()
        self.settle_reads()
        bits = STORED[code]
        text = value.text if (value.type == I64) == (bits == 64) else f"(u32){value.part()}"
        self.say(f"store{bits}(m, {reached(address, offset)}, {text});")

    def fill(self, _):
        count, value, to = self.pop(), self.pop(), self.pop()
        self.settle_reads()
        self.say(f"fill(m, {to.text}, {value.text}, {count.text});")


OWN = {GLOBAL_GET: Writer.get_global, GLOBAL_SET: Writer.set_global, MEMORY_FILL: Writer.fill,
       CODES["i32.wrap_i64"]: Writer.wrap}


def reached(address, offset):
    """The words in C for an address, and for the number that an access adds to it."""
    total = address.sum
    if total and 0 < total.number < FIELD and offset < 1 << 31:
        return f"(u32)({Sum(total.parts).text()}), {offset + total.number}u"
    return f"{address.text}, {offset}u"


def head(function, name):
    """The prototype of a function."""
    gives = TYPES[function.gives[0]] if function.gives else "void"
    takes = [f"{TYPES[kind]} v{place}" for place, kind in enumerate(function.takes)]
    return f"{gives} {name}({', '.join(['u8 *m', *takes])})"


NAME = re.compile(r"\b(?:[tvw]\d+|m)\b")
SET = re.compile(r"([tw]\d+) = (.*);")


def only_set(lines):
    """The variables for values that are set, and that nothing reads."""
    seen = collections.Counter(it for line in lines for it in NAME.findall(line))
    sets = collections.Counter(found[1] for found in map(SET.fullmatch, lines) if found)
    return {it for it in sets if sets[it] == seen[it]}


def without(lines, names):
    """The lines without these variables: what they would be set to is still computed."""
    found = [SET.fullmatch(it) for it in lines]
    return [f"(void){it[2]};" if it and it[1] in names else line for it, line in zip(found, lines)]


def variables(function, used):
    """The lines that declare a function's variables."""
    first = len(function.takes)
    own = [(f"v{first + place}", kind) for place, kind in enumerate(function.variables)]
    named = {}
    for name, kind in [*own, *sorted(used)]:
        named.setdefault(kind, []).append(f"{name} = 0" if name[0] == "v" else name)
    return [f"{TYPES[kind]} {', '.join(names)};" for kind, names in sorted(named.items())]


def text(program, place, names):
    """A function in C."""
    function = program.functions[place]
    writer = Writer(program, place, names)
    lines = writer.write()
    unread = only_set(lines)
    lines = without(lines, unread)
    seen = {it for line in lines for it in NAME.findall(line)}
    unused = [it for it in ["m", *(f"v{it}" for it in range(len(function.takes)))] if it not in seen]
    used = [(it, kind) for it, kind in writer.used if it not in unread]
    lines = [*variables(function, used), *(f"(void){it};" for it in unused), *lines]
    return "\n".join([head(function, names[place]), "{", *lines, "}", ""])
