"""Writes the calls of the header over the functions of a module, as C: each has the prototype of the header, and lends
the caller's octets and structs to the module's function as windows (machine.h)."""

import re
import textwrap

from apart import is_apart
from bodies import Writer
from constants import Constants, rows
from frames import frames_of, looks_at_stack, own_frame
from header import COUNT, NUMBERS
from passes import Passes
from values import TYPES
from wasm import CALL, GLOBAL_GET, I32, I64, Unfit

# the windows of machine.h: the first one for a pointer of the caller, and how many there are
FIRST_GIVEN, WINDOWS = 2, 8
# the limit of a message or forest, and the length of a value that isn't an argument: neither counts elements
OTHER_NUMBERS = ("max", "len")
KINDS = {"size_t": I64, "uint64_t": I64, "uint8_t": I32, "bool": I32, "uint16_t": I32, "uint32_t": I32}


def wrapped(head, words, end):
    """A line, broken after a comma if it is too long."""
    return "\n".join(textwrap.wrap(head + words + end, 118, subsequent_indent="    ", break_long_words=False))


def expected(call):
    """The types of the module's function for a call of the header."""
    takes = [I64] if call.gives.startswith("struct ") else []
    takes += [I64 if it.is_pointer else KINDS[it.type] for it in call.takes]
    gives = [] if call.gives == "void" or call.gives.startswith("struct ") else [KINDS[call.gives]]
    return takes, gives


def counted(call, place):
    """The argument that counts the elements at a pointer, or None if there is only one."""
    one = call.takes[place]
    after = call.takes[place + 1] if place + 1 < len(call.takes) else None
    is_size = after and after.type == "size_t" and not after.is_pointer
    if is_size and COUNT.match(after.name):
        return after.name
    if one.type.startswith("struct ") and (not is_size or after.name in OTHER_NUMBERS):
        return None
    raise Unfit(f"{call.name}: nothing says how long {one.name} is")


class Depths:
    """How many octets of the module's stack each function takes, with all that it calls."""

    def __init__(self, module):
        self.module, self.known, self.open = module, {}, []

    def of(self, place):
        if place in self.open:
            raise Unfit("a function calls itself")
        if place not in self.known:
            self.open.append(place)
            body = self.module.functions[place].body
            frames = frames_of(self.module.functions[place])
            own = sum(frames.values())
            takes = [at for at, it in enumerate(body) if it == (GLOBAL_GET, 0) and not looks_at_stack(body, at)]
            if len(takes) != len(frames):
                raise Unfit(f"function {place} takes a frame in a way that isn't known")
            self.known[place] = own + max((self.of(said) for code, said in body if code == CALL), default=0)
            self.open.pop()
        return self.known[place]


def octets_of(struct):
    """Where each octet of a struct of the module lies on a machine, lowest first or last. An octet outside all fields
    keeps its place: the module copies whole structs."""
    lowest, highest = list(range(struct.octets)), list(range(struct.octets))
    for it in struct.fields:
        for place in range(it.octets):
            lowest[it.place + place] = 0xFFF0 + place if it.is_pointer else it.place + place
            highest[it.place + place] = 0xFFF0 + place if it.is_pointer else it.place + it.octets - 1 - place
    return lowest, highest


def layout(struct):
    """Has the compiler refuse a machine on which a field lies elsewhere."""
    name = struct.name.removeprefix("scard_")
    so = [f"sizeof(struct {struct.name}) == {struct.octets}"]
    so += [f"offsetof(struct {struct.name}, {it.path}) == {it.place}" for it in struct.fields if "[" not in it.path]
    lines = textwrap.wrap(" && ".join(so), 108, initial_indent="    ", subsequent_indent="    ", break_long_words=False)
    return f"typedef char {name}_lies_as_in_the_module[\n" + "\n".join(lines) + "\n    ? 1 : -1];\n"


def element_of(struct):
    """What the pointer in a struct points to, if it has one."""
    pointers = [it for it in struct.fields if it.is_pointer]
    if not pointers:
        return "NULL", ""
    after = [it for it in struct.fields if it.place == pointers[0].place + pointers[0].octets]
    if len(pointers) > 1 or pointers[0].type != "uint8_t" or not after or NUMBERS.get(after[0].type) != 8:
        raise Unfit(f"struct {struct.name} has pointers whose lengths aren't known")
    name = "element_of_" + struct.name.removeprefix("scard_")
    return name, f"""APART const u8 *{name}(const u8 *at, u64 *size)
{{
    struct {struct.name} one;
    memcpy(&one, at, sizeof one);
    *size = one.{pointers[0].path} ? one.{after[0].path} : 0u;
    return one.{pointers[0].path};
}}
"""


def shape(struct):
    """What machine.h needs for a struct whose octets lie elsewhere on some machine."""
    name = struct.name.removeprefix("scard_")
    lowest, highest = octets_of(struct)
    element, function = element_of(struct)
    return f"""{function}
static const uint16_t octets_of_{name}[] = {{
#if HIGHEST_FIRST
{rows(highest)}
#else
{rows(lowest)}
#endif
}};

INLINE struct shaped shape_of_{name}(u32 leads_to)
{{
    struct shaped one;
    one.at = NULL;
    one.count = 0;
    one.each = sizeof octets_of_{name} / sizeof octets_of_{name}[0];
    one.octet = octets_of_{name};
    one.element = {element};
    one.leads_to = leads_to;
    return one;
}}
"""


class Calls:
    """Writes the calls of a header over a module."""

    def __init__(self, module, structs, calls, passes=Passes(), apart=()):
        self.module, self.structs, self.passes, self.apart = module, structs, passes, tuple(apart)
        self.calls = [it for it in calls if it.name in module.exports]
        self.absent = [it.name for it in calls if it.name not in module.exports]
        if len(self.calls) != len(module.exports):
            raise Unfit(f"the header lacks {', '.join(set(module.exports) - {it.name for it in self.calls})}")
        self.names = self.named()
        for function in module.functions if passes.own_frames else []:
            own_frame(function)
        self.depths, self.constants, self.parts = Depths(module), Constants(module, passes.parted), set()
        self.shaped = self.reached({module.exports[it.name] for it in self.calls if self.is_shaped(it)})

    def named(self):
        """The names of the functions in C: what the module calls them, or `module_` and the name of a call."""
        exported = {place: f"module_{name}" for name, place in self.module.exports.items()}
        names = [exported.get(at) or re.sub(r"\W+", "_", it.name).strip("_") or f"function_{at}"
                 for at, it in enumerate(self.module.functions)]
        return [it if names.count(it) == 1 else f"{it}_{at}" for at, it in enumerate(names)]

    def is_shaped(self, call):
        """Whether a call gets structs with pointers, whose octets lie elsewhere on every machine."""
        lent = [self.structs[it.type.removeprefix("struct ")] for it in call.takes
                if it.is_pointer and it.is_const and it.type.startswith("struct ")]
        return any(it.has_pointers() for it in lent)

    def reached(self, places):
        """Some functions, with all that they call."""
        found, new = set(), set(places)
        while new:
            found |= new
            new = {said for place in new for code, said in self.module.functions[place].body if code == CALL} - found
        return found

    def writer(self, place):
        """The writer of a function. If no octets that it reaches lie elsewhere on every machine, it holds accesses to
        their windows together."""
        first = Writer(self.module, place, self.names, passes=self.passes)
        if place in self.shaped or not self.passes.together:
            return first
        first.write()
        return Writer(self.module, place, self.names, first.near.planned(), self.passes)

    def head(self, place):
        """The head of a function of the module."""
        function = self.module.functions[place]
        takes = [f"{TYPES[kind]} v{at}" for at, kind in enumerate(function.takes)]
        gives = TYPES[function.gives[0]] if function.gives else "void"
        kept = "KEPT" if is_apart(self.names[place], self.apart) else "static"
        return wrapped(f"{kept} {gives} {self.names[place]}(", ", ".join(["struct call *m", *takes]), ")")

    def function(self, place):
        """Writes a function of the module."""
        function = self.module.functions[place]
        writer = self.writer(place)
        lines = writer.write()
        idle = [name for name in writer.frames if sum(f"f{name}" in re.findall(r"\w+", it) for it in lines) == 1]
        lines = [it for it in lines if not any(it.startswith(f"f{name} = ") for name in idle)]
        text = "\n".join(lines)
        names = [(f"v{at}", kind) for at, kind in enumerate(writer.types)][len(function.takes) :]
        names = sorted(names, key=lambda it: it[1]) + sorted(writer.used)
        own = [f"    {TYPES[kind]} {name} = 0;" for name, kind in names if re.search(rf"\b{name}\b", text)]
        own += [f"    u8 *f{name} = NULL;" for name in writer.frames if name not in idle]
        held = sorted({int(it) for it in re.findall(r"\bp(\d+)\b", text)})
        own += [f"    u8 *p{at} = NULL;" for at in held]
        own += [f"    {kind}{'' if kind.endswith('*') else ' '}{name};" for name, kind in writer.spans]
        own += ["    (void)m;"] if not re.search(r"\bm\b", text) else []
        own += [f"    (void)v{at};" for at in range(len(function.takes)) if not re.search(rf"\bv{at}\b", text)]
        return "\n".join([self.head(place), "{", *own, *indented(lines), "}", ""])

    def lent(self, call):
        """The lines that lend what a call's pointers point to, the words for its arguments, and the windows that are
        structs."""
        lines, given, window = [], [], FIRST_GIVEN
        shaped = 0
        copied = self.copied(call)
        for place, one in enumerate(call.takes):
            if one.name in copied:
                given.append(one.name)
                continue
            if not one.is_pointer:
                given.append(f"(u{64 if KINDS[one.type] == I64 else 32}){one.name}" if one.type != "bool" else
                             f"({one.name} ? 1u : 0u)")
                continue
            count = counted(call, place)
            struct = self.structs.get(one.type.removeprefix("struct "))
            given.append(f"ADDRESS({window})")
            if not struct:
                lines.append(f"lend(&m, {window}, {one.name}, {count});")
            elif struct.has_pointers() and one.is_const:
                leads_to = window + 1
                lines.append(f"lend_shaped(&m, {window}, {one.name}, {count or 1}, "
                             f"shape_of_{struct.name.removeprefix('scard_')}({leads_to}));")
                window, shaped = leads_to, 2
            elif struct.has_pointers():
                if count or call.gives != "void":
                    raise Unfit(f"{call.name}: it may leave pointers as they were")
                lines.append(f"lend(&m, {window}, image, sizeof image);")
            elif struct.lies_otherwise():
                lines.append(f"LEND(&m, {window}, {one.name}, {count or 1}, "
                             f"shape_of_{struct.name.removeprefix('scard_')}(0));")
                shaped = max(shaped, 1)
            else:
                size = f"(u64){count} * sizeof *{one.name}" if count else f"sizeof *{one.name}"
                lines.append(f"lend(&m, {window}, {one.name}, {size});")
            window += 1
        if window >= WINDOWS:
            raise Unfit(f"{call.name} has too many pointers")
        return lines, given, shaped

    def copied(self, call):
        """The names of the arguments that are copied to the stack of the call, and their structs: as many as don't have a
        window of their own. The call only reads them, and they have no pointers."""
        few = FIRST_GIVEN + sum(it.is_pointer for it in call.takes) + 1 - WINDOWS
        structs = ((it.name, self.structs.get(it.type.removeprefix("struct "))) for place, it in enumerate(call.takes)
                   if it.is_pointer and it.is_const and not counted(call, place))
        fit = [(name, struct) for name, struct in structs if struct and not struct.has_pointers()]
        return dict(sorted(fit, key=lambda it: it[1].octets)[:max(few, 0)])

    def image(self, call):
        """The struct with pointers that a call writes, and its argument."""
        found = [(self.structs[it.type.removeprefix("struct ")], it.name) for it in call.takes
                 if it.is_pointer and not it.is_const and it.type.startswith("struct ")
                 and self.structs[it.type.removeprefix("struct ")].has_pointers()]
        if len(found) > 1:
            raise Unfit(f"{call.name} writes two structs with pointers")
        return found[0] if found else None

    def call(self, call):
        """Writes a call of the header."""
        function = self.module.exports[call.name]
        of_module = self.module.functions[function]
        if (of_module.takes, of_module.gives) != expected(call):
            raise Unfit(f"{call.name}: the header and the module differ")
        lines, given, shaped = self.lent(call)
        gives = self.structs.get(call.gives.removeprefix("struct "))
        room = gives.octets if gives else 0
        copied = self.copied(call)
        taken = sum(-(-it.octets // 16) * 16 for it in copied.values())
        depth = -(-(self.depths.of(function) + room + taken) // 16) * 16
        image = self.image(call)
        own = ["struct call m;", f"u8 stack[{max(depth, 16)}];"]
        own += [["struct shaped *shaped = NULL;", "SHAPED_HERE", "struct shaped shaped[WINDOWS];"][shaped]]
        own += [f"u8 image[{image[0].octets}];"] if image else []
        own += [f"struct {gives.name} result;"] if gives else []
        part = self.constants.of(self.reached({function}))
        self.parts.add(part)
        constants = [f"lend(&m, 0, {part}, sizeof {part});"] if part else []
        lines = ["begin(&m, stack, sizeof stack, shaped);", *constants, *lines]
        place = max(depth, 16)
        for name, struct in copied.items():
            place -= -(-struct.octets // 16) * 16
            lines += self.packed(struct, name, place)
            given[given.index(name)] = f"ADDRESS(1) + {place}u"
        if copied:
            lines.append(f"m.g0 -= {taken};")
        if gives:
            lines.append(f"m.g0 -= {room};")
            given.insert(0, "m.g0")
        made = f"{self.names[function]}({', '.join(['&m', *given])})"
        lines += self.ended(call, made, gives, place - room, image)
        own = [it for it in own if it]
        text = [wrapped(f"{call.gives} {call.name}(", call.said, ")"), "{", *("    " + it for it in own)]
        return "\n".join([*text, *(broken(it) for it in lines), "}", ""])

    def ended(self, call, made, gives, place, image):
        """The lines that make the module's call, and return its result."""
        if gives:
            return [f"{made};", *self.unpacked(gives, "result.", f"stack + {place}"), "return result;"]
        if image:
            return [f"{made};", *self.unpacked(image[0], f"{image[1]}->", "image")]
        if call.gives == "void":
            return [f"{made};"]
        return [f"return {made} != 0;" if call.gives == "bool" else f"return ({call.gives}){made};"]

    def packed(self, struct, name, place):
        """The lines that copy the fields of a struct to a place of the stack, as the module has them."""
        puts = {1: "stack[{}] = {};", 2: "put16(stack + {}, {});", 4: "put32(stack + {}, {});", 8: "put64(stack + {}, {});"}
        return [puts[it.octets].format(place + it.place, f"{name}->{it.path}") for it in struct.fields]

    def unpacked(self, struct, to, image):
        """The lines that read the fields of a struct of the module from octets."""
        lines = []
        for it in struct.fields:
            read = f"get{8 * it.octets}({image}{f' + {it.place}' if it.place else ''})"
            if it.is_pointer:
                lines.append(f"{to}{it.path} = (const {it.type} *)constant_at({read});")
            else:
                lines.append(f"{to}{it.path} = ({it.type}){read};")
        return lines


def broken(line, depth=1):
    """A line at this depth, indented further where it continues."""
    first, more = "    " * depth, "    " * (depth + 1)
    return "\n".join(textwrap.wrap(line, 118, initial_indent=first, subsequent_indent=more, break_long_words=False))


def indented(lines):
    """The lines of a function's body, each indented by its braces. A label is at the margin."""
    depth, found = 1, []
    for line in lines:
        if line.startswith("}"):
            depth -= 1
        found.append(line if re.match(r"(again|after)\d+:;$", line) else broken(line, depth))
        if line.endswith("{"):
            depth += 1
    return found
