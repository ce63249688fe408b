"""The values of a function on the stack of WebAssembly, as expressions in C.

The value of an instruction is kept as an expression until it is used, or until a part of it changes; then it goes to a
variable.
"""

import dataclasses

from frames import kept
from loops import Sum
from near import Near
from passes import Passes
from wasm import I32, I64

TYPES = {I32: "u32", I64: "u64"}
KINDS = {"i32": I32, "i64": I64}
BITS = {I32: 32, I64: 64}
LONGEST = 90


@dataclasses.dataclass
class Value:
    """A value on the stack: its text in C, its type, the variables in it, and whether it reads memory. A condition also
    has its text in C and that of the opposite. A sum of variables and a number also has that sum."""

    text: str
    type: int
    names: frozenset = frozenset()
    reads: bool = False
    is_plain: bool = True
    holds: tuple = None
    sum: Sum = None

    def part(self):
        """The value as a part of an expression."""
        return self.text if self.is_plain else f"({self.text})"


def constant(number, kind):
    """A number in C."""
    bits = BITS[kind]
    number %= 1 << bits
    end = "u" if bits == 32 else "ull"
    return f"{number}{end}" if number < 65536 else f"0x{number:X}{end}"


def value_of(text, kind, *parts, **more):
    """A value that is made from others."""
    names = frozenset().union(*(it.names for it in parts))
    return Value(text, kind, names, any(it.reads for it in parts), is_plain=False, **more)


class Values:
    """The values on the stack of one function, and the lines that are written so far."""

    def __init__(self, module, place, names, plan=None, passes=Passes()):
        self.module, self.function, self.names, self.passes = module, module.functions[place], names, passes
        self.place, self.near, self.at = place, Near(plan), 0
        self.types = [*self.function.takes, *self.function.variables]
        self.frames = kept(self.function) if passes.frames else {}
        self.lines, self.stack, self.blocks, self.used = [], [], [], set()
        self.labels, self.dead = 0, 0
        self.spans = []

    def push(self, value):
        self.stack.append(value)
        if len(value.text) > LONGEST:
            self.keep(len(self.stack) - 1)

    def pop(self):
        return self.stack.pop()

    def keep(self, height):
        """Puts a value into the variable of its place on the stack."""
        value = self.stack[height]
        name = f"{'t' if value.type == I32 else 'w'}{height}"
        if value.text == name:
            return
        self.settle(name, height)
        self.say(f"{name} = {value.text};")
        self.used.add((name, value.type))
        self.stack[height] = Value(name, value.type, frozenset([name]))

    def settle(self, name, but=-1):
        """Keeps the values that contain a variable, before it changes."""
        for height, value in enumerate(self.stack):
            if height != but and name in value.names and value.text != name:
                self.keep(height)
            elif height != but and value.text == name and name[0] == "v":
                self.keep(height)

    def settle_reads(self):
        """Keeps the values that read memory, before it changes."""
        for height, value in enumerate(self.stack):
            if value.reads:
                self.keep(height)

    def settle_all(self):
        """Keeps all values except numbers, before a block begins."""
        for height, value in enumerate(self.stack):
            if value.names or value.reads:
                self.keep(height)

    def say(self, text):
        if text:
            self.lines.append(text)
