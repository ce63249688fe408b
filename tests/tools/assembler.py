"""A small assembler for modules of WebAssembly with 64-bit memory, for the tests of tools/release/translator. It has its
own list of codes, from the standard (WebAssembly 2.0, clause 5.4), so that it repeats no mistake of the translator."""

import dataclasses

I32, I64 = 0x7F, 0x7E
TYPES = {"i32": I32, "i64": I64}
# the codes of instructions without an operand
PLAIN = {
    "unreachable": 0x00, "nop": 0x01, "else": 0x05, "end": 0x0B, "return": 0x0F, "drop": 0x1A, "select": 0x1B,
    "i32.eqz": 0x45, "i32.eq": 0x46, "i32.ne": 0x47, "i32.lt_s": 0x48, "i32.lt_u": 0x49, "i32.gt_s": 0x4A,
    "i32.gt_u": 0x4B, "i32.le_s": 0x4C, "i32.le_u": 0x4D, "i32.ge_s": 0x4E, "i32.ge_u": 0x4F,
    "i64.eqz": 0x50, "i64.eq": 0x51, "i64.ne": 0x52, "i64.lt_s": 0x53, "i64.lt_u": 0x54, "i64.gt_s": 0x55,
    "i64.gt_u": 0x56, "i64.le_s": 0x57, "i64.le_u": 0x58, "i64.ge_s": 0x59, "i64.ge_u": 0x5A,
    "i32.clz": 0x67, "i32.ctz": 0x68, "i32.popcnt": 0x69, "i32.add": 0x6A, "i32.sub": 0x6B, "i32.mul": 0x6C,
    "i32.div_s": 0x6D, "i32.div_u": 0x6E, "i32.rem_s": 0x6F, "i32.rem_u": 0x70, "i32.and": 0x71, "i32.or": 0x72,
    "i32.xor": 0x73, "i32.shl": 0x74, "i32.shr_s": 0x75, "i32.shr_u": 0x76, "i32.rotl": 0x77, "i32.rotr": 0x78,
    "i64.clz": 0x79, "i64.ctz": 0x7A, "i64.popcnt": 0x7B, "i64.add": 0x7C, "i64.sub": 0x7D, "i64.mul": 0x7E,
    "i64.div_s": 0x7F, "i64.div_u": 0x80, "i64.rem_s": 0x81, "i64.rem_u": 0x82, "i64.and": 0x83, "i64.or": 0x84,
    "i64.xor": 0x85, "i64.shl": 0x86, "i64.shr_s": 0x87, "i64.shr_u": 0x88, "i64.rotl": 0x89, "i64.rotr": 0x8A,
    "i32.wrap_i64": 0xA7, "i64.extend_i32_s": 0xAC, "i64.extend_i32_u": 0xAD, "i32.extend8_s": 0xC0,
    "i32.extend16_s": 0xC1, "i64.extend8_s": 0xC2, "i64.extend16_s": 0xC3, "i64.extend32_s": 0xC4,
}
# the codes of instructions with an unsigned number, a signed number, a block's result, and an offset
NUMBERED = {"br": 0x0C, "br_if": 0x0D, "call": 0x10, "local.get": 0x20, "local.set": 0x21, "local.tee": 0x22,
            "global.get": 0x23, "global.set": 0x24}
SIGNED = {"i32.const": 0x41, "i64.const": 0x42}
BLOCKS = {"block": 0x02, "loop": 0x03, "if": 0x04}
MOVED = {
    "i32.load": 0x28, "i64.load": 0x29, "i32.load8_s": 0x2C, "i32.load8_u": 0x2D, "i32.load16_s": 0x2E,
    "i32.load16_u": 0x2F, "i64.load8_s": 0x30, "i64.load8_u": 0x31, "i64.load16_s": 0x32, "i64.load16_u": 0x33,
    "i64.load32_s": 0x34, "i64.load32_u": 0x35, "i32.store": 0x36, "i64.store": 0x37, "i32.store8": 0x3A,
    "i32.store16": 0x3B, "i64.store8": 0x3C, "i64.store16": 0x3D, "i64.store32": 0x3E,
}
MANY = {"memory.copy": bytes((0xFC, 0x0A, 0, 0)), "memory.fill": bytes((0xFC, 0x0B, 0))}
NO_RESULT = 0x40


@dataclasses.dataclass
class Function:
    """A function: its name, what it takes, returns and has as variables, as types between blanks, and its text."""

    name: str
    takes: str
    gives: str
    variables: str
    text: str
    is_exported: bool = True


def unsigned(number):
    """A number in LEB128."""
    found = bytearray()
    while number > 0x7F:
        found.append(number & 0x7F | 0x80)
        number >>= 7
    return bytes([*found, number])


def signed(number):
    """A signed number in LEB128."""
    found = bytearray()
    while not -64 <= number < 64:
        found.append(number & 0x7F | 0x80)
        number >>= 7
    return bytes([*found, number & 0x7F])


def words_of(text):
    """The words of a text, each instruction with its operands. A block has its result, or nothing, as in `if:i64`."""
    words = iter(text.split())
    for word in words:
        name, _, operand = word.partition(":")
        if name in PLAIN:
            yield bytes((PLAIN[name],))
        elif name in MANY:
            yield MANY[name]
        elif name in BLOCKS:
            yield bytes((BLOCKS[name], TYPES.get(operand, NO_RESULT)))
        elif name in MOVED:
            yield bytes((MOVED[name], 0)) + unsigned(int(operand or "0"))
        elif name in NUMBERED:
            yield bytes((NUMBERED[name],)) + unsigned(int(next(words)))
        elif name in SIGNED:
            yield bytes((SIGNED[name],)) + signed(int(next(words), 0))
        elif name == "br_table":
            ways = [int(it) for it in operand.split(",")]
            yield bytes((0x0E,)) + unsigned(len(ways) - 1) + b"".join(map(unsigned, ways))
        else:
            raise ValueError(word)


def listed(parts):
    """A list of parts, with their number before it."""
    return unsigned(len(parts)) + b"".join(parts)


def section(number, content):
    return bytes((number,)) + unsigned(len(content)) + content


def sized(octets):
    return unsigned(len(octets)) + octets


def types(text):
    return listed([bytes((TYPES[it],)) for it in text.split()])


def module(functions, data=b"", first=65536):
    """The octets of a module with these functions. Its global variables are the place of the stack and a mark."""
    kinds = [b"\x60" + types(it.takes) + types(it.gives) for it in functions]
    names = [sized(it.name.encode()) + b"\0" + unsigned(at) for at, it in enumerate(functions) if it.is_exported]
    variables = [listed([unsigned(1) + bytes((TYPES[kind],)) for kind in it.variables.split()]) for it in functions]
    bodies = [sized(own + b"".join(words_of(it.text)) + b"\x0b") for own, it in zip(variables, functions)]
    globals_ = [bytes((I64, 1, 0x42)) + signed(first) + b"\x0b", bytes((I32, 1, 0x41)) + signed(0) + b"\x0b"]
    constants = [b"\0\x42" + signed(first) + b"\x0b" + sized(data)]
    parts = [(1, listed(kinds)), (3, listed([unsigned(at) for at in range(len(functions))])), (5, listed([b"\4\2"])),
             (6, listed(globals_)), (7, listed(names)), (10, listed(bodies)), (11, listed(constants))]
    return b"\0asm\1\0\0\0" + b"".join(section(*it) for it in parts)
