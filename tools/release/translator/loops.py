"""Finds the loops of a function that make the exclusive-or of consecutive octets, such as that of a block. Their turns
can be counted before the first one. So all that they read is known to lie in one window, and the octets can be taken
many at a time.

A number of 64 bits is followed through a turn as a sum: variables as they are when the turn begins, each with a factor,
and a number. Only sums that change by the same number in each turn count.
"""

import dataclasses

from wasm import (BLOCK, BR_IF, CODES, DROP, END, I64_CONST, I32_CONST, IF, LOADS, LOCAL_GET, LOCAL_SET, LOCAL_TEE, LOOP,
                  SELECT, STORES)

ALL = 1 << 64
ADD, SUB, EQZ32, EQZ64, EQ, NE, XOR, OCTET = (CODES[it] for it in (
    "i64.add", "i64.sub", "i32.eqz", "i64.eqz", "i64.eq", "i64.ne", "i32.xor", "i32.load8_u"))
# the instructions that make a number from one, and those that make it from two
ONE = {code for name, code in CODES.items() if name.endswith(("eqz", "clz", "ctz", "popcnt")) or "extend" in name
       or "wrap" in name}
TWO = {*CODES.values()} - ONE - {*LOADS} - {*STORES}


class Other(Exception):
    """The loop isn't such a loop."""


@dataclasses.dataclass
class Sum:
    """Variables, each with a factor, and a number."""

    parts: dict
    number: int = 0

    def plus(self, other, times=1):
        parts = dict(self.parts)
        for name, count in other.parts.items():
            parts[name] = (parts.get(name, 0) + times * count) % ALL
        return Sum({name: count for name, count in parts.items() if count}, (self.number + times * other.number) % ALL)

    def key(self):
        return tuple(sorted(self.parts.items()))

    def text(self):
        """The sum in C."""
        words = []
        for name, count in sorted(self.parts.items()):
            if count == ALL - 1:
                words.append(f"- v{name}")
            else:
                words.append(f"+ v{name}" if count == 1 else f"+ v{name} * {count}ull")
        if self.number:
            is_less = self.number >> 63
            words.append(f"- {ALL - self.number}ull" if is_less else f"+ {self.number}ull")
        said = " ".join(words) or "0ull"
        return said[2:] if said.startswith("+ ") else f"0ull {said}" if said.startswith("- ") else said


@dataclasses.dataclass
class Folded:
    """The exclusive-or of variables and of loads of one octet, by their numbers."""

    names: frozenset
    loads: list


@dataclasses.dataclass
class Loop:
    """Such a loop. The turns after the first are `left` / `by`, if that has no remainder. The first turn reads `step`
    octets from the place `start` on, and each other turn the next ones. `makes` is the variable for the exclusive-or.
    `others` are the other variables: the value of each after the first turn, and by how much it grows in each turn."""

    left: Sum
    by: int
    start: Sum
    step: int
    makes: int
    others: list


class Turn:
    """One turn of a loop, followed."""

    def __init__(self):
        self.set, self.stack, self.loads = {}, [], []

    def value(self, name):
        return self.set[name] if name in self.set else Sum({name: 1})

    def one(self, code, said):
        """Follows an instruction."""
        if code == LOCAL_GET:
            self.stack.append(self.value(said))
        elif code in (LOCAL_SET, LOCAL_TEE):
            self.set[said] = self.stack[-1] if code == LOCAL_TEE else self.stack.pop()
        elif code in (I64_CONST, I32_CONST):
            self.stack.append(Sum({}, said % ALL))
        elif code == OCTET:
            self.loads.append((self.sum(self.stack.pop()), said))
            self.stack.append(Folded(frozenset(), [len(self.loads) - 1]))
        elif code in TWO:
            b, a = self.stack.pop(), self.stack.pop()
            self.stack.append(self.made(code, a, b))
        elif code in ONE:
            self.stack.append(self.negated(code, self.stack.pop()))
        elif code in (SELECT, DROP):
            del self.stack[-3 if code == SELECT else -1 :]
            self.stack += [None] if code == SELECT else []
        else:
            raise Other

    def sum(self, value):
        if not isinstance(value, Sum):
            raise Other
        return value

    def made(self, code, a, b):
        """The result of two values: a sum, or whether they differ."""
        if isinstance(a, Sum) and isinstance(b, Sum):
            if code in (ADD, SUB):
                return a.plus(b, 1 if code == ADD else -1)
            if code in (EQ, NE):
                return ("so" if code == NE else "not", a.plus(b, -1))
        if code == XOR and self.fold(a) and self.fold(b):
            a, b = self.fold(a), self.fold(b)
            return Folded(a.names ^ b.names, a.loads + b.loads)
        return None

    def fold(self, value):
        """A value as an exclusive-or."""
        is_variable = isinstance(value, Sum) and not value.number and list(value.parts.values()) == [1]
        return Folded(frozenset(value.parts), []) if is_variable else value if isinstance(value, Folded) else None

    def negated(self, code, value):
        if code == EQZ64 and isinstance(value, Sum):
            return "not", value
        if code == EQZ32 and isinstance(value, tuple):
            return {"so": "not", "not": "so"}[value[0]], value[1]
        return None


def steps(turn):
    """By how much each variable that the turn changes grows, if that is one number."""
    found = {}
    for name, value in turn.set.items():
        if isinstance(value, Sum) and value.plus(Sum({name: 1}), -1).parts == {}:
            found[name] = value.plus(Sum({name: 1}), -1).number
    return found


def growth(value, turn, growing):
    """By how much a sum grows in each turn."""
    if any(name in turn.set and name not in growing for name in value.parts):
        raise Other
    grown = sum(growing.get(name, 0) * count for name, count in value.parts.items()) % ALL
    return grown - ALL if grown >> 63 else grown


def read(turn, growing):
    """The place from which the first turn reads, and how many octets. They are consecutive, and those of the next turn
    follow them."""
    bases = {base.key() for base, _ in turn.loads}
    places = sorted((base.number + offset) % ALL for base, offset in turn.loads)
    if len(bases) != 1 or places != list(range(places[0], places[0] + len(places))):
        raise Other
    start = Sum(turn.loads[0][0].parts, places[0])
    if growth(start, turn, growing) != len(places):
        raise Other
    return start, len(places)


def turns(turn, growing):
    """The sum that is 0 after the last turn, and by how much it falls in each turn."""
    if len(turn.stack) != 1 or not isinstance(turn.stack[0], tuple) or turn.stack[0][0] != "so":
        raise Other
    left = turn.stack[0][1]
    by = growth(left, turn, growing)
    if by == 0 or abs(by) > 65536:
        raise Other
    return (left, -by) if by < 0 else (Sum({}).plus(left, -1), by)


def made(turn, count):
    """The variable with the exclusive-or of its value before and of all octets that are read."""
    found = [name for name, value in turn.set.items() if isinstance(value, Folded)]
    if len(found) != 1 or turn.set[found[0]].names != {found[0]}:
        raise Other
    if sorted(turn.set[found[0]].loads) != list(range(count)):
        raise Other
    return found[0]


def followed(body):
    """The loop with this body, which is without its `end`."""
    if not body or body[-1] != (BR_IF, 0):
        raise Other
    turn = Turn()
    for code, said in body[:-1]:
        turn.one(code, said)
    growing = steps(turn)
    left, by = turns(turn, growing)
    start, step = read(turn, growing)
    makes = made(turn, step)
    rest = {name: it for name, it in turn.set.items() if name != makes}
    if any(not isinstance(it, Sum) or makes in it.parts for it in rest.values()):
        raise Other
    # growing variables come last, since the others are made from their values before
    order = sorted(rest, key=lambda name: name in growing)
    return Loop(left, by, start, step, makes, [(name, rest[name], growth(rest[name], turn, growing)) for name in order])


def exclusive_or(body, at):
    """The loop that begins at an instruction, if it is such a loop."""
    depth, end = 1, at + 1
    while depth:
        depth += 1 if body[end][0] in (BLOCK, LOOP, IF) else -1 if body[end][0] == END else 0
        end += 1
    try:
        return followed(body[at + 1 : end - 1])
    except Other:
        return None
