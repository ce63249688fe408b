"""Writes blocks, jumps and calls."""

import dataclasses

from arithmetic import NEVER
from frames import set_in_loop
from loops import exclusive_or
from memory import Memory
from values import Value, constant
from wasm import ELSE, I32, I64, IF, LOOP, NO_RESULT, Unfit


@dataclasses.dataclass
class Block:
    """An open block: the instruction that began it, its label, the values below it, its result, and whether anything
    jumps to the label or can come here; and what is known about places on each path to its end."""

    code: int
    label: int
    height: int
    gives: list
    is_used: bool = False
    is_reached: bool = True
    is_folded: bool = False
    known: list = dataclasses.field(default_factory=list)


class Jumps(Memory):
    """Writes what decides which instruction comes next."""

    def begin(self, code, gives):
        """Begins a block, a loop or a condition."""
        if gives not in (NO_RESULT, I32, I64):
            raise Unfit("a block takes something, or has several results")
        condition = self.pop() if code == IF else None
        self.settle_all()
        self.labels += 1
        block = Block(code, self.labels, len(self.stack), [] if gives == NO_RESULT else [gives])
        if code == LOOP:
            for name in self.changed_here():
                self.near.changed(name)
            block.is_folded = self.folded(block)
            self.say(f"again{block.label}:;")
        self.blocks.append(block)
        if condition or block.is_folded:
            block.known.append(self.near.known)
        if condition:
            self.say(f"if ({self.holds(condition)[0]}) {{")

    def changed_here(self):
        """The variables that the loop here sets."""
        return set_in_loop(self.function.body, self.at)

    def folded(self, block):
        """Writes the result of a loop that makes an exclusive-or of octets, for octets in one piece. Returns whether it
        is such a loop. If so, the loop itself follows unchanged, in braces."""
        loop = exclusive_or(self.function.body, self.at) if self.passes.folded else None
        if not loop:
            return False
        count, name = f"n{block.label}", f"q{block.label}"
        self.spans += [(count, "u64"), (name, "const u8 *")]
        self.say(f"{count} = {loop.left.text()};")
        self.say(f"{name} = span(m, {loop.start.text()}, {count}, {loop.by}, {loop.step});")
        self.say(f"if ({name}) {{")
        self.say(f"{count} /= {loop.by};" if loop.by > 1 else "")
        self.say(f"v{loop.makes} ^= exclusive_or({name}, ({count} + 1u) * {loop.step});")
        for place, value, grown in loop.others:
            self.say(f"v{place} = {value.text()}{f' + {constant(grown, I64)} * {count}' if grown else ''};")
        self.say("} else {")
        return True

    def leave(self, block):
        """Puts the result of a block into its place."""
        if block.gives:
            value = self.pop()
            del self.stack[block.height :]
            self.stack.append(value)
            self.keep(block.height)

    def otherwise(self):
        """Begins the part for a condition that doesn't hold."""
        block = self.blocks[-1]
        otherwise = block.known.pop(0)
        if block.is_reached:
            self.leave(block)
            block.known.append(self.near.known)
        self.near.known = otherwise
        del self.stack[block.height :]
        block.code, block.is_reached = ELSE, True
        self.say("} else {")

    def end(self):
        """Ends a block."""
        block = self.blocks[-1]
        if block.is_reached:
            self.leave(block)
            block.known.append(self.near.known)
        self.near.known = frozenset.intersection(*block.known) if block.known else frozenset()
        del self.stack[block.height :]
        if block.code in (IF, ELSE):
            self.say("}")
        self.blocks.pop()
        if block.is_folded:
            self.say("}")
        is_reached = block.is_reached or block.code == IF or (block.is_used and block.code != LOOP)
        if block.is_used and block.code != LOOP:
            self.say(f"after{block.label}:;")
        if not is_reached:
            self.dead = 1
            return
        for kind in block.gives:
            name = f"{'t' if kind == I32 else 'w'}{block.height}"
            self.used.add((name, kind))
            self.stack.append(Value(name, kind, frozenset([name])))

    def way(self, depth):
        """The words in C that jump to the label of an open block, with the result in its place."""
        if depth == len(self.blocks) - 1:
            return f"return {self.stack[-1].text};" if self.function.gives else "return;"
        block = self.blocks[-1 - depth]
        block.is_used = True
        if block.code == LOOP:
            return f"goto again{block.label};"
        block.known.append(self.near.known)
        if block.gives and self.stack[-1].text != self.slot(block):
            raise Unfit("a jump brings a result from another place")
        return f"goto after{block.label};"

    def slot(self, block):
        return f"{'t' if block.gives[0] == I32 else 'w'}{block.height}"

    def bring(self, depth):
        """Puts the result that a jump brings into its place."""
        block = self.blocks[-1 - depth]
        if depth == len(self.blocks) - 1 or block.code == LOOP or not block.gives:
            return
        value, name = self.stack[-1], self.slot(block)
        if value.text != name:
            self.settle(name)
            value = self.stack[-1]
            self.say(f"{name} = {value.text};" if value.text != name else "")
            self.used.add((name, value.type))
            self.stack[-1] = Value(name, value.type, frozenset([name]))

    def jump(self, depth):
        self.bring(depth)
        self.say(self.way(depth))
        self.dead = 1

    def jump_if(self, depth):
        condition = self.pop()
        if condition.text == NEVER:
            return
        if depth < len(self.blocks) - 1 and self.blocks[-1 - depth].gives:
            self.stack.append(condition)
            self.keep(len(self.stack) - 1)
            condition = self.pop()
            self.bring(depth)
        self.say(f"if ({self.holds(condition)[0]}) {{ {self.way(depth)} }}")

    def jump_by_table(self, ways):
        choice = self.pop()
        for depth in ways:
            if depth < len(self.blocks) - 1 and self.blocks[-1 - depth].gives:
                raise Unfit("a table of jumps brings a result")
        self.say(f"switch ({choice.text}) {{")
        for number, depth in enumerate(ways[:-1]):
            if depth != ways[-1]:
                self.say(f"case {number}: {self.way(depth)}")
        self.say(f"default: {self.way(ways[-1])}")
        self.say("}")
        self.dead = 1

    def back(self, _):
        self.say(f"return {self.pop().text};" if self.function.gives else "return;")
        self.dead = 1

    def never(self, _):
        self.say("UNREACHABLE;")
        self.dead = 1

    def call(self, place):
        """Writes a call of another function."""
        called = self.module.functions[place]
        self.settle_reads()
        count = len(called.takes)
        given = [it.text for it in self.stack[len(self.stack) - count :]]
        del self.stack[len(self.stack) - count :]
        text = f"{self.names[place]}({', '.join(['m', *given])})"
        if not called.gives:
            self.say(f"{text};")
            return
        self.stack.append(Value(text, called.gives[0], reads=True, is_plain=True))
        self.keep(len(self.stack) - 1)
