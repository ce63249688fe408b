"""Writes the instructions on variables and on memory."""

from arithmetic import Arithmetic
from loops import ALL, Sum
from values import BITS, Value
from wasm import CODES, I32, I64

# loads and stores: the type, how many bits are moved, and the bits of a number that is sign-extended
LOADED = {CODES[name]: row for name, row in {
    "i32.load": (I32, 32, 0), "i64.load": (I64, 64, 0), "i32.load8_s": (I32, 8, 8), "i32.load8_u": (I32, 8, 0),
    "i32.load16_s": (I32, 16, 16), "i32.load16_u": (I32, 16, 0), "i64.load8_s": (I64, 8, 8), "i64.load8_u": (I64, 8, 0),
    "i64.load16_s": (I64, 16, 16), "i64.load16_u": (I64, 16, 0), "i64.load32_s": (I64, 32, 32),
    "i64.load32_u": (I64, 32, 0)}.items()}
STORED = {CODES[name]: bits for name, bits in {
    "i32.store": 32, "i64.store": 64, "i32.store8": 8, "i32.store16": 16, "i64.store8": 8, "i64.store16": 16,
    "i64.store32": 32}.items()}


class Memory(Arithmetic):
    """Writes what reads and changes variables and octets."""

    def get(self, place):
        self.push(Value(f"v{place}", self.types[place], frozenset([f"v{place}"]), sum=Sum({place: 1})))

    def set(self, place):
        value = self.pop()
        if value.text == f"v{place}":
            return
        self.settle(f"v{place}")
        self.say(f"v{place} = {value.text};")
        self.near.changed(place)
        self.framed(place)

    def tee(self, place):
        self.set(place)
        self.get(place)

    def framed(self, place):
        """If a variable is the place of a frame, finds the octets of the frame."""
        if place in self.frames:
            self.say(f"f{place} = at(m, v{place}, {self.frames[place]});")

    def get_global(self, place):
        kind, _ = self.module.globals[place]
        self.push(Value(f"m->g{place}", kind, reads=True))

    def set_global(self, place):
        value = self.pop()
        self.settle_reads()
        self.say(f"m->g{place} = {value.text};")

    def frame(self, address, offset, octets):
        """The octets in the frame at an address and an offset, if they are in one."""
        place = next(iter(address.sum.parts), None) if address.sum and list(address.sum.parts.values()) == [1] else None
        first = address.sum.number + offset if address.sum else 0
        if place in self.frames and first + octets <= self.frames[place]:
            return f"f{place} + {first}" if first else f"f{place}"
        return None

    def held(self, address, offset, octets):
        """The words for octets that are held, if they are: the held place, the number of octets before them, and its
        address."""
        if not address.sum:
            return None
        first, found = self.near.accessed(self.at, address.sum, offset, octets)
        if first:
            start = Sum(address.sum.parts, first.first % ALL).text()
            self.say(f"{first.name} = held(m, {start}, {first.end - first.first});")
        if not found:
            return None
        before = (address.sum.number + offset - found.first) % ALL
        return f"{found.name}, {before}, m, {Sum(address.sum.parts, found.first % ALL).text()}"

    def load(self, code, offset):
        kind, bits, spread = LOADED[code]
        address = self.pop()
        near = self.frame(address, offset, bits // 8)
        held = None if near else self.held(address, offset, bits // 8)
        if near or held:
            text = f"get{bits}({near})" if near else f"held{bits}({held})"
        else:
            text = f"load{bits}(m, {address.text}, {offset})"
        if spread and spread < BITS[kind]:
            text = f"spread{BITS[kind]}({text}, {spread})"
        elif kind == I64 and bits < 64:
            text = f"(u64){text}"
        self.push(Value(text, kind, address.names, reads=True))

    def store(self, code, offset):
        value, address = self.pop(), self.pop()
        self.settle_reads()
        bits = STORED[code]
        near = self.frame(address, offset, bits // 8)
        held = None if near else self.held(address, offset, bits // 8)
        text = value.text if (value.type == I64) == (bits == 64) else f"(u32){value.part()}"
        if near:
            self.say(f"put{bits}({near}, {text});")
        elif held:
            self.say(f"put_held{bits}({held}, {text});")
        else:
            self.say(f"store{bits}(m, {address.text}, {offset}, {text});")

    def copy(self, _):
        count, source, to = self.pop(), self.pop(), self.pop()
        self.settle_reads()
        self.say(f"copy(m, {to.text}, {source.text}, {count.text});")

    def fill(self, _):
        count, value, to = self.pop(), self.pop(), self.pop()
        self.settle_reads()
        near = self.frame(to, 0, count.sum.number) if count.sum and not count.sum.parts else None
        if near:
            self.say(f"memset({near}, (int)({value.text} & 255u), {count.sum.number});")
        else:
            self.say(f"fill(m, {to.text}, {value.text}, {count.text});")
