"""Parts the constants of a module by the calls that can reach them, so that a linker leaves out those that no call of a
program needs.

All addresses of constants begin with a number in the code: that of a pointer, or the offset of a load. So a function
whose code has no number near the constants can reach none of them, with all that it calls. Every number near them
counts, even if it stands for something else, such as the length of the longest command. A pointer among the constants
leads to other constants. A call has one of three parts: all constants; the first few, if no number of its code is
above these and none of them is a pointer; or none.
"""

import textwrap

from wasm import I64_CONST, LOADS, STORES

# a number counts if it is at most so far from the constants, and the first few constants reach at least so far
NEAR, FEW = 4096, 64
NONE, ALL = None, "constants"
FIRST = "first_constants"


def rows(numbers):
    """Numbers as the rows of an array."""
    return "\n".join(textwrap.wrap(", ".join(map(str, numbers)), 114, initial_indent="    ", subsequent_indent="    "))


class Constants:
    """The constants of a module, and which part of them a function needs with all that it calls."""

    def __init__(self, module, is_parted):
        self.module, self.is_parted = module, is_parted
        self.first, self.end = module.first, module.first + len(module.constants)
        self.numbers = [self.near(it) for it in module.functions]
        above = [it for numbers in self.numbers for it in numbers if it > self.first + FEW]
        self.few = module.constants[: min(above, default=self.end) - self.first]
        if self.has_pointer(self.few):
            self.few = b""

    def near(self, function):
        """The numbers of a function's code that may be the place of a constant."""
        return {said for code, said in function.body if (code == I64_CONST or code in LOADS or code in STORES)
                and self.first - NEAR <= said <= self.end + NEAR}

    def has_pointer(self, octets):
        """Whether eight consecutive octets are the place of a constant."""
        numbers = (int.from_bytes(octets[at : at + 8], "little") for at in range(len(octets) - 7))
        return any(self.first <= it <= self.end for it in numbers)

    def of(self, places):
        """The name of the part that some functions need together, or None."""
        numbers = set().union(*(self.numbers[it] for it in places))
        if not self.is_parted or max(numbers, default=0) >= self.first + len(self.few) or (numbers and not self.few):
            return ALL
        return FIRST if numbers else NONE

    def text(self, used):
        """The parts in C, of those that are used. `constants` is always there."""
        lines = ["/* ---- the constants of the module ---- */", "", f"#define FIRST {self.first}u", ""]
        for name, octets in ((ALL, self.module.constants or b"\0"), (FIRST, self.few)):
            if name == ALL or name in used:
                lines += [f"static const unsigned char {name}[{len(octets)}] = {{", rows(octets), "};", ""]
        return "\n".join(lines)
