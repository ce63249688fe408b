"""Reads the calls, structs, enums and constants of include/scard.h, and lays the structs out as the module has them."""

import dataclasses
import re

from wasm import Unfit

COMMENT = re.compile(r"/\*.*?\*/", re.S)
STRUCT = re.compile(r"^struct (\w+) \{\n(.*?)^\};", re.M | re.S)
CONSTANT = re.compile(r"^#define (\w+) (\d+)\s*$", re.M)
ENUM = re.compile(r"^enum (\w+)\s*\{([^}]*)\};", re.M)
NUMBERED = re.compile(r"\s*(\w+) = (\d+)\s*")
# the part of a header that a library without memory lacks
GUARDED = re.compile(r"^#ifndef SCARD_NO_HANDLES\n(.*?)^#endif /\* SCARD_NO_HANDLES \*/\n", re.M | re.S)
CALL = re.compile(r"^((?:struct \w+|u?int\d+_t|bool|void|size_t)) (scard_\w+)\(([^;{]*?)\);", re.M)
# the octets of each type; a pointer has as many as a size
NUMBERS = {"uint8_t": 1, "bool": 1, "char": 1, "uint16_t": 2, "uint32_t": 4, "uint64_t": 8, "size_t": 8,
           "scard_size": 8}
POINTER = 8
# the names that a number of elements has, after the pointer to them
COUNT = re.compile(r"(.*_)?(count|room|length|size|tags)$")


@dataclasses.dataclass
class Field:
    """A number or a pointer of a struct: where it is named, its first octet in the module, and its octets."""

    path: str
    place: int
    octets: int
    is_pointer: bool
    type: str


@dataclasses.dataclass
class Member:
    """What a struct declares: a type and a name, how many elements an array has, and its first octet in the module."""

    type: str
    name: str
    count: int
    place: int
    is_pointer: bool
    is_const: bool

    def said(self):
        """The type and the name in C."""
        kind = f"{'const ' if self.is_const else ''}{self.type}{' *' if self.is_pointer else ''}"
        return kind, self.name + (f"[{self.count}]" if self.count else "")


@dataclasses.dataclass
class Struct:
    """A struct: its numbers and pointers, those of structs and arrays in it too; its octets and alignment; what it
    declares; and the types and names in C of that."""

    name: str
    fields: list
    octets: int
    aligned: int
    members: list
    said: list

    def has_pointers(self):
        return any(it.is_pointer for it in self.fields)

    def lies_otherwise(self):
        """Whether its octets lie elsewhere than in the module on some machine."""
        return any(it.octets > 1 for it in self.fields)


@dataclasses.dataclass
class Taken:
    """An argument: its type without `const`, its name, whether it is a pointer, and whether to what isn't changed."""

    type: str
    name: str
    is_pointer: bool
    is_const: bool


@dataclasses.dataclass
class Call:
    """A call: its result, its name, its arguments, and its text in the header."""

    gives: str
    name: str
    takes: list
    said: str


def declared(text):
    """The type, name and number of elements of each field that a line of a struct declares."""
    kind, rest = re.match(r"((?:const )?(?:struct )?\w+)\s+(.*)", text, re.S).groups()
    for one in rest.split(","):
        name, count = re.match(r"\s*(\**\w+)(?:\[(\d+)\])?\s*$", one).groups()
        yield kind.removeprefix("const "), name, int(count) if count else None


def placed(kind, path, known):
    """The fields of one value of a type at place 0, its octets and its alignment."""
    if kind.startswith("struct "):
        inner = known[kind.removeprefix("struct ")]
        return [(it.path, it.place, it.octets, it.is_pointer, it.type) for it in inner.fields], inner.octets, inner.aligned
    if kind not in NUMBERS:
        raise Unfit(f"the field {path} has the type {kind}")
    return [("", 0, NUMBERS[kind], False, kind)], NUMBERS[kind], NUMBERS[kind]


def struct_of(name, body, known, pointer):
    """A struct by its declaration."""
    fields, place, most, members = [], 0, 1, []
    for line in filter(None, (it.strip() for it in body.split(";"))):
        for kind, said, count in declared(line):
            field = said.lstrip("*")
            if kind in ("size_t", "uint64_t"):
                raise Unfit(f"struct {name}: {field} has the type {kind}, whose octets or alignment differ from machine to "
                            "machine: take scard_size")
            if said.startswith("*"):
                parts, octets, aligned = [("", 0, pointer, True, kind)], pointer, pointer
            else:
                parts, octets, aligned = placed(kind, f"{name}.{field}", known)
            place = -(-place // aligned) * aligned
            members.append(Member(kind, field, count, place, said.startswith("*"), line.startswith("const ")))
            for at in range(1 if count is None else count):
                path = field + ("" if count is None else f"[{at}]")
                fields += [Field(path + (f".{it[0]}" if it[0] else ""), place + it[1], *it[2:]) for it in parts]
                place += octets
            most = max(most, aligned)
    return Struct(name, fields, -(-place // most) * most, most, members, [it.said() for it in members])


def taken(text):
    """An argument of a call, by its declaration."""
    if text.strip() == "void":
        return []
    found = []
    for one in text.split(","):
        kind, star, name = re.match(r"\s*((?:const )?(?:struct )?\w+)\s+(\**)\s*(\w+)\s*$", one).groups()
        if len(star) > 1:
            raise Unfit(f"the argument {name} is a pointer to a pointer")
        found.append(Taken(kind.removeprefix("const "), name, bool(star), kind.startswith("const ")))
    return found


def constants_of(text):
    """The constants of a header that are numbers, by their names."""
    return {name: int(value) for name, value in CONSTANT.findall(COMMENT.sub("", text))}


def enums_of(text):
    """The enums of a header by their names: the numbers of each, by name."""
    found = {}
    for name, body in ENUM.findall(COMMENT.sub("", text)):
        rows = [NUMBERED.fullmatch(it) for it in body.split(",")]
        if not all(rows):
            raise Unfit(f"enum {name} has a name without a number")
        found[name] = {it[1]: int(it[2]) for it in rows}
    return found


def guarded(text):
    """The names of the calls that a library without memory lacks."""
    return {it.name for part in GUARDED.findall(text) for it in read(part)[1]}


def read(text, pointer=POINTER):
    """The structs of a header by their names, and its calls in their order. A pointer has so many octets."""
    constants = constants_of(text)
    text = COMMENT.sub("", text)
    text = re.sub(r"\[(\w+)\]", lambda it: f"[{constants.get(it[1], it[1])}]", text)
    structs = {}
    for name, body in STRUCT.findall(text):
        structs[name] = struct_of(name, body, structs, pointer)
    calls = [Call(gives, name, taken(args), re.sub(r"\s+", " ", args).strip()) for gives, name, args in CALL.findall(text)]
    return structs, calls
