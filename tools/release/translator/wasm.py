"""Reads a module of WebAssembly: its sections and, if tools/release/wasm made it, its functions, constants and
globals."""

import dataclasses

CUSTOM, TYPES, IMPORTS, FUNCTIONS, TABLES, MEMORIES, GLOBALS, EXPORTS, START, ELEMENTS, CODE, DATA = range(12)
I32, I64 = 0x7F, 0x7E
BLOCK, LOOP, IF, ELSE, END, BR, BR_IF, BR_TABLE = 0x02, 0x03, 0x04, 0x05, 0x0B, 0x0C, 0x0D, 0x0E
UNREACHABLE, NOP, RETURN, CALL, DROP, SELECT = 0x00, 0x01, 0x0F, 0x10, 0x1A, 0x1B
LOCAL_GET, LOCAL_SET, LOCAL_TEE, GLOBAL_GET, GLOBAL_SET = range(0x20, 0x25)
I32_CONST, I64_CONST, MORE = 0x41, 0x42, 0xFC
MEMORY_COPY, MEMORY_FILL = 0xFC0A, 0xFC0B
LOADS, STORES = range(0x28, 0x36), range(0x36, 0x3F)

# the instructions on numbers and memory, in the order of their codes: the first code, and the names
LISTED = [
    (0x28, "i32.load i64.load f32.load f64.load i32.load8_s i32.load8_u i32.load16_s i32.load16_u i64.load8_s i64.load8_u "
           "i64.load16_s i64.load16_u i64.load32_s i64.load32_u i32.store i64.store f32.store f64.store i32.store8 "
           "i32.store16 i64.store8 i64.store16 i64.store32"),
    (0x45, "i32.eqz i32.eq i32.ne i32.lt_s i32.lt_u i32.gt_s i32.gt_u i32.le_s i32.le_u i32.ge_s i32.ge_u"),
    (0x50, "i64.eqz i64.eq i64.ne i64.lt_s i64.lt_u i64.gt_s i64.gt_u i64.le_s i64.le_u i64.ge_s i64.ge_u"),
    (0x67, "i32.clz i32.ctz i32.popcnt i32.add i32.sub i32.mul i32.div_s i32.div_u i32.rem_s i32.rem_u i32.and i32.or "
           "i32.xor i32.shl i32.shr_s i32.shr_u i32.rotl i32.rotr"),
    (0x79, "i64.clz i64.ctz i64.popcnt i64.add i64.sub i64.mul i64.div_s i64.div_u i64.rem_s i64.rem_u i64.and i64.or "
           "i64.xor i64.shl i64.shr_s i64.shr_u i64.rotl i64.rotr"),
    (0xA7, "i32.wrap_i64"),
    (0xAC, "i64.extend_i32_s i64.extend_i32_u"),
    (0xC0, "i32.extend8_s i32.extend16_s i64.extend8_s i64.extend16_s i64.extend32_s"),
]
NAMES = {first + at: name for first, names in LISTED for at, name in enumerate(names.split())}
CODES = {name: code for code, name in NAMES.items()}
# the comparisons, by their names without a type: the operator in C, and whether numbers are signed
COMPARED = {"eq": ("==", 0), "ne": ("!=", 0), "lt_s": ("<", 1), "lt_u": ("<", 0), "gt_s": (">", 1), "gt_u": (">", 0),
            "le_s": ("<=", 1), "le_u": ("<=", 0), "ge_s": (">=", 1), "ge_u": (">=", 0)}
ONE_NUMBER = {BR, BR_IF, CALL, LOCAL_GET, LOCAL_SET, LOCAL_TEE, GLOBAL_GET, GLOBAL_SET}
NO_RESULT = 0x40


class Unfit(Exception):
    """A module with a wrong form, and why."""


def number(octets, at):
    """An unsigned number in LEB128, and where it ends."""
    value, shift = 0, 0
    while True:
        octet = octets[at]
        value, shift, at = value | (octet & 0x7F) << shift, shift + 7, at + 1
        if octet < 0x80:
            return value, at


def signed(octets, at):
    """A signed number in LEB128, and where it ends."""
    value, end = number(octets, at)
    bits = 7 * (end - at)
    return value - (1 << bits) if value >> (bits - 1) else value, end


def sections(module):
    """The sections of a module: the number of each, and its octets."""
    if module[:8] != b"\0asm\1\0\0\0":
        raise Unfit("it is no module")
    at = 8
    while at < len(module):
        kind = module[at]
        count, at = number(module, at + 1)
        yield kind, module[at : at + count]
        at += count


@dataclasses.dataclass
class Function:
    """A function: what it takes and returns, its own variables, and its instructions, each with its operand."""

    name: str
    takes: list
    gives: list
    variables: list
    body: list


@dataclasses.dataclass
class Module:
    """The functions by number, the numbers of the exported ones by name, the types and first values of the global
    variables, and the constants with their first place."""

    functions: list
    exports: dict
    globals: list
    constants: bytes
    first: int


def text(octets, at):
    """A name, and where it ends."""
    count, at = number(octets, at)
    return octets[at : at + count].decode(), at + count


def each(octets):
    """The rows of a section: how many there are, and where the first begins."""
    count, at = number(octets, 0)
    return range(count), at


def several(octets, at):
    """A list of numbers, and where it ends."""
    count, at = number(octets, at)
    found = []
    for _ in range(count):
        value, at = number(octets, at)
        found.append(value)
    return found, at


def types_of(octets):
    """What the functions of each type take and return."""
    rows, at = each(octets)
    types = []
    for _ in rows:
        takes, at = several(octets, at + 1)
        gives, at = several(octets, at)
        types.append((takes, gives))
    return types


def globals_of(octets):
    """The type of each global variable and the number that it begins with."""
    rows, at = each(octets)
    found = []
    for _ in rows:
        value, end = signed(octets, at + 3)
        found.append((octets[at], value))
        at = end + 1
    return found


def exports_of(octets):
    """The names of the functions that are exported, each with its number."""
    rows, at = each(octets)
    found = {}
    for _ in rows:
        name, at = text(octets, at)
        kind = octets[at]
        place, at = number(octets, at + 1)
        if kind == 0:
            found[name] = place
    return found


def data_of(octets):
    """The constants and their first place: the pieces of a memory, with 0 between them."""
    rows, at = each(octets)
    pieces = []
    for _ in rows:
        flags, at = number(octets, at)
        if flags or octets[at] not in (I32_CONST, I64_CONST):
            raise Unfit("a constant has no fixed place")
        place, at = signed(octets, at + 1)
        count, at = number(octets, at + 1)
        pieces.append((place, octets[at : at + count]))
        at += count
    first = min((place for place, _ in pieces), default=0)
    made = bytearray(max((place + len(piece) for place, piece in pieces), default=0) - first)
    for place, piece in pieces:
        made[place - first : place - first + len(piece)] = piece
    return bytes(made), first


def instruction(octets, at):
    """An instruction with its operand, and where it ends."""
    code, at = octets[at], at + 1
    if code == MORE:
        more, at = number(octets, at)
        code = MORE << 8 | more
        return (code, None), at + {MEMORY_COPY: 2, MEMORY_FILL: 1}.get(code, 0)
    if code in (BLOCK, LOOP, IF):
        said, at = octets[at], at + 1
    elif code in ONE_NUMBER:
        said, at = number(octets, at)
    elif code in (I32_CONST, I64_CONST):
        said, at = signed(octets, at)
    elif code in LOADS or code in STORES:
        _, at = number(octets, at)
        said, at = number(octets, at)
    elif code == BR_TABLE:
        ways, at = several(octets, at)
        last, at = number(octets, at)
        said = [*ways, last]
    else:
        said = None
    return (code, said), at


def body_of(octets):
    """The types of a function's own variables, and its instructions without the last `end`."""
    rows, at = each(octets)
    variables, body = [], []
    for _ in rows:
        count, at = number(octets, at)
        variables += [octets[at]] * count
        at += 1
    while at < len(octets):
        one, at = instruction(octets, at)
        # an assignment of a variable to itself is left out
        if one[0] != LOCAL_TEE or body[-1] != (LOCAL_GET, one[1]):
            body.append(one)
    return variables, body[:-1]


def names_of(octets):
    """The names of functions that a section of names has."""
    _, at = text(octets, 0)
    while at < len(octets):
        kind = octets[at]
        count, at = number(octets, at + 1)
        if kind == 1:
            rows, place = each(octets[at : at + count])
            found = {}
            for _ in rows:
                function, place = number(octets[at : at + count], place)
                found[function], place = text(octets[at : at + count], place)
            return found
        at += count
    return {}


def read(octets):
    """A module that imports nothing and has no table."""
    parts, names = {}, {}
    for kind, part in sections(octets):
        if kind == CUSTOM and text(part, 0)[0] == "name":
            names = names_of(part)
        parts[kind] = part
    for kind, what in ((IMPORTS, "imports something"), (ELEMENTS, "has a table"), (START, "begins by itself")):
        if kind in parts and number(parts[kind], 0)[0]:
            raise Unfit(f"it {what}")
    types, (which, _) = types_of(parts[TYPES]), several(parts[FUNCTIONS], 0)
    rows, at = each(parts[CODE])
    functions = []
    for place in rows:
        count, at = number(parts[CODE], at)
        functions.append(Function(names.get(place, ""), *types[which[place]], *body_of(parts[CODE][at : at + count])))
        at += count
    constants, first = data_of(parts[DATA]) if DATA in parts else (b"", 0)
    return Module(functions, exports_of(parts[EXPORTS]), globals_of(parts[GLOBALS]), constants, first)
