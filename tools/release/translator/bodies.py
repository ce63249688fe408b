"""Writes the functions of a module as C, instruction by instruction.

`Writer` writes the body of one function. It stands on a class for each sort of instruction: jumps.py, memory.py and
arithmetic.py, which write into the values and lines of values.py.
"""

from jumps import Block, Jumps
from loops import ALL, Sum
from memory import LOADED, STORED
from values import Value, constant
from wasm import (BLOCK, BR, BR_IF, BR_TABLE, CALL, DROP, ELSE, END, GLOBAL_GET, GLOBAL_SET, I32, I32_CONST, I64,
                  I64_CONST, IF, LOCAL_GET, LOCAL_SET, LOCAL_TEE, LOOP, MEMORY_COPY, MEMORY_FILL, NOP, RETURN, SELECT,
                  UNREACHABLE)


class Writer(Jumps):
    """Writes one function."""

    def write(self):
        """The lines of the function's body."""
        self.blocks.append(Block(BLOCK, 0, 0, self.function.gives))
        for self.at, (code, said) in enumerate(self.function.body):
            if self.dead:
                self.skip(code)
            else:
                self.one(code, said)
        if not self.dead and self.function.gives:
            self.say(f"return {self.pop().text};")
        return self.lines

    def skip(self, code):
        """Skips an instruction that nothing reaches."""
        if code in (BLOCK, LOOP, IF):
            self.dead += 1
        elif code == END or (code == ELSE and self.dead == 1):
            self.dead -= 1
            if self.dead == 0:
                self.blocks[-1].is_reached = False
                self.end() if code == END else self.otherwise()

    def one(self, code, said):
        """Writes an instruction."""
        if code in RUN_ENDS:
            self.near.ended()
        if code in (BLOCK, LOOP, IF):
            self.begin(code, said)
        elif code == END:
            self.end()
        elif code == ELSE:
            self.otherwise()
        elif code in JUMPS:
            JUMPS[code](self, said)
        elif code in LOADED:
            self.load(code, said)
        elif code in STORED:
            self.store(code, said)
        elif code in PLAIN:
            PLAIN[code](self, said)
        else:
            self.count(code)


JUMPS = {BR: Writer.jump, BR_IF: Writer.jump_if, BR_TABLE: Writer.jump_by_table, RETURN: Writer.back,
         UNREACHABLE: Writer.never, CALL: Writer.call}
PLAIN = {NOP: lambda self, _: None, DROP: lambda self, _: self.pop(), SELECT: Writer.choose,
         LOCAL_GET: Writer.get, LOCAL_SET: Writer.set, LOCAL_TEE: Writer.tee, GLOBAL_GET: Writer.get_global,
         GLOBAL_SET: Writer.set_global, MEMORY_COPY: Writer.copy, MEMORY_FILL: Writer.fill,
         I32_CONST: lambda self, said: self.push(Value(constant(said, I32), I32)),
         I64_CONST: lambda self, said: self.push(Value(constant(said, I64), I64, sum=Sum({}, said % ALL)))}
RUN_ENDS = {LOOP, IF, ELSE, END, *JUMPS} - {CALL}
