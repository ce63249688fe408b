"""Writes the instructions that make a number from others."""

from values import BITS, KINDS, Value, Values, constant, value_of
from wasm import COMPARED, I32, I64, NAMES, Unfit

# a condition that is never true
NEVER = "0u"

OPPOSITE = {"==": "!=", "!=": "==", "<": ">=", ">": "<=", "<=": ">", ">=": "<"}
# the operations on two numbers
MADE = {"add": "{a} + {b}", "sub": "{a} - {b}", "mul": "{a} * {b}", "div_u": "quotient{n}({a}, {b})",
        "rem_u": "rest{n}({a}, {b})", "and": "{a} & {b}", "or": "{a} | {b}", "xor": "{a} ^ {b}", "shl": "{a} << {c}",
        "shr_s": "signed_right{n}({a}, {b})", "shr_u": "{a} >> {c}", "rotl": "left{n}({a}, {b})",
        "rotr": "right{n}({a}, {b})"}
# the operations that make a sum
ADDED = {"add": 1, "sub": -1}
COUNTED = {"clz": "leading{n}({a})", "ctz": "trailing{n}({a})", "popcnt": "ones{n}({a})"}
SPREAD = {"i32.extend8_s": (I32, 8), "i32.extend16_s": (I32, 16), "i64.extend8_s": (I64, 8), "i64.extend16_s": (I64, 16),
          "i64.extend32_s": (I64, 32)}


class Arithmetic(Values):
    """Writes comparisons, operations on one number or two, and changes of a type."""

    def holds(self, value):
        """The conditions in C that a value isn't 0, and that it is."""
        return value.holds or (value.text, f"{value.part()} == 0")

    def count(self, code):
        """Writes an instruction that makes a number from one or two."""
        kind, _, name = NAMES.get(code, "").partition(".")
        if name == "eqz":
            value = self.pop()
            self.truth(*reversed(self.holds(value)), value)
        elif name in COMPARED:
            self.compare(KINDS[kind], *COMPARED[name])
        elif name in COUNTED:
            value = self.pop()
            text = COUNTED[name].format(n=BITS[KINDS[kind]], a=value.text)
            self.push(value_of(text if kind == "i32" else f"(u64){text}", KINDS[kind], value))
        elif name in MADE:
            self.make(KINDS[kind], name)
        else:
            self.change(code)

    def compare(self, kind, order, is_signed):
        b, a = self.pop(), self.pop()
        if self.passes.room and (order, is_signed) == ("<", 1) and self.is_stack(a) and b.text == constant(16, I64):
            return self.push(Value(NEVER, I32))
        if is_signed:
            sign = constant(1 << BITS[kind] - 1, kind)
            left, right = f"({a.part()} ^ {sign})", f"({b.part()} ^ {sign})"
        else:
            left, right = a.part(), b.part()
        return self.truth(f"{left} {order} {right}", f"{left} {OPPOSITE[order]} {right}", a, b)

    def is_stack(self, value):
        """Whether a value is the place of the stack or of a frame. It is never as low as a function's limit: it is in a
        window, and a frame is held to it."""
        return value.text == "m->g0" or value.text in (f"v{place}" for place in self.frames)

    def truth(self, so, not_so, *parts):
        self.push(value_of(f"(u32)({so})", I32, *parts, holds=(so, not_so)))

    def make(self, kind, name):
        b, a = self.pop(), self.pop()
        bits, form = BITS[kind], MADE[name]
        calls = form[0] != "{"
        is_number = b.is_plain and not b.names and not b.reads
        by = f"{int(b.text.rstrip('ul'), 0) % bits}" if is_number else f"({b.part()} & {bits - 1})"
        text = form.format(n=bits, c=by, a=a.text if calls else a.part(), b=b.text if calls else b.part())
        total = a.sum.plus(b.sum, ADDED[name]) if kind == I64 and name in ADDED and a.sum and b.sum else None
        self.push(value_of(text, kind, a, b, sum=total))

    def change(self, code):
        """Writes an instruction that changes a number's type, or extends its sign."""
        name = NAMES.get(code, f"{code:#x}")
        if name == "i32.wrap_i64":
            value = self.pop()
            self.push(value_of(f"(u32){value.part()}", I32, value))
        elif name == "i64.extend_i32_s":
            value = self.pop()
            self.push(value_of(f"spread64({value.text}, 32)", I64, value))
        elif name == "i64.extend_i32_u":
            value = self.pop()
            self.push(value_of(f"(u64){value.part()}", I64, value))
        elif name in SPREAD:
            value, (kind, bits) = self.pop(), SPREAD[name]
            self.push(value_of(f"spread{BITS[kind]}({value.text}, {bits})", kind, value))
        else:
            raise Unfit(f"it has the instruction {name}")

    def choose(self, _):
        condition, b, a = self.pop(), self.pop(), self.pop()
        text = f"{self.wrapped(self.holds(condition)[0])} ? {a.part()} : {b.part()}"
        self.push(value_of(text, a.type, condition, a, b))

    def wrapped(self, text):
        return text if text.isalnum() else f"({text})"
