"""Turns the compiler's module for WebAssembly, whose pointers have 64 bits, into one for Cortex-M, whose pointers have 32.

Both have the lowest octet first, and numbers of 64 bits at places that 8 divides. A pointer in memory keeps its place of
8 octets: the module writes all of it, and reads the lower half. LLVM lays a few values out by their types, and those
with pointers are written otherwise here. A struct of the header lies as in the module too, since each of its pointers
has 4 octets behind it that are no field. The calls get their sizes in 32 bits, as C hands them over there."""

import re

from wasm import Unfit

FROM, LAYOUT_FROM = "wasm64-unknown-unknown", "e-m:e-p:64:64-p10:8:8-p20:8:8-i64:64-i128:128-n32:64-S128-ni:1:10:20"
LAYOUT = "e-m:e-p:32:32-Fi8-i64:64-v128:64:128-a:0:32-n32-S64"
# what is said about one processor, and about how far its stack may grow
OF_PROCESSOR = re.compile(r'"(?:target-cpu|target-features|probe-stack|stack-probe-size)"="[^"]*"')
STORED = re.compile(r"^(\s+)store ptr (\S+), ptr (.*)$", re.M)
# a function between a call and what it does, which the module keeps apart
BETWEEN = re.compile(r'^(define internal [^@]*@"rattle::export [^"]*"\([^)]*\)) #\d+', re.M)
# a pointer read with an octet before it
PAIR = re.compile(r"^(\s+)(%\S+) = load \{ i8, ptr \}, ptr (\S+), align (\d+)$", re.M)
# a constant with pointers: its name, its type and its value
CONSTANT = re.compile(r"^(@\S+ = private constant )<\{ (.*?) \}> <\{ (.*) \}>(, align \d+)$", re.M)
# what LLVM lays out by its type: values of several parts in memory, and constants
LAID = re.compile(r"\b(?:load|store|alloca) (\{[^}]*\}|<\{[^}]*\}>|\[\d+ x ptr\])|^@.* = .*?constant (.*)$", re.M)
# of these, the ones with a pointer that lie in one way for pointers of 32 and of 64 bits
ALIKE = "{ ptr, i64 }"
EXPORT = re.compile(r"^define (?!internal )([^@]*)@(\w+)\(", re.M)
# the types in LLVM of what a call of the header takes or returns, in the module and for C
TYPES = {"size_t": ("i64", "i32"), "uint64_t": ("i64", "i64"), "uint32_t": ("i32", "i32"), "uint16_t": ("i16", "i16"),
         "uint8_t": ("i8", "i8"), "bool": ("i1", "i1"), "void": ("void", "void")}
# no call may be in another one: the compiler's module asks for that, and a stack of its own answers it
ONE_AT_A_TIME = {
    "declare noundef zeroext i1 @__rattle_enter()": "define internal i1 @__rattle_enter() alwaysinline {\n  ret i1 false\n}\n;",
    "declare void @__rattle_leave()": "define internal void @__rattle_leave() alwaysinline {\n  ret void\n}\n;",
    "declare void @__rattle_trap()": "declare void @scard_trap()\n\n"
                                     "define internal void @__rattle_trap() {\n  call void @scard_trap()\n  ret void\n}\n;",
}


def with_wide_pointers(text):
    """Has the module write all 8 octets of a pointer's place."""
    count = 0

    def wide(found):
        nonlocal count
        count += 1
        indent, value, place = found.groups()
        return (f"{indent}%wide{count} = ptrtoint ptr {value} to i64\n"
                f"{indent}store i64 %wide{count}, ptr {place}")

    return STORED.sub(wide, re.sub(r"\balloca ptr\b", "alloca i64", text))


def with_pairs_apart(text):
    """Has the module read an octet and a pointer by themselves."""
    return PAIR.sub(r"""\1\2.octet = load i8, ptr \3, align \4
\1\2.place = getelementptr i8, ptr \3, i64 8
\1\2.pointer = load ptr, ptr \2.place, align \4
\1\2.half = insertvalue { i8, ptr } poison, i8 \2.octet, 0
\1\2 = insertvalue { i8, ptr } \2.half, ptr \2.pointer, 1""", text)


def parts(text):
    """The parts of a constant's value, of which each may have commas in brackets and in strings."""
    found, depth, is_string = [""], 0, False
    for it in text:
        is_string ^= it == '"'
        depth += 0 if is_string else (it in "([{") - (it in ")]}")
        if it == "," and not depth and not is_string:
            found.append("")
        else:
            found[-1] += it
    return [it.strip() for it in found]


def with_wide_constants(text):
    """Gives each pointer in a constant its place of 8 octets."""

    def wide(found):
        head, types, value, end = found.groups()
        types = re.sub(r"\bptr\b", "ptr, [4 x i8]", types)
        value = ", ".join(f"{it}, [4 x i8] zeroinitializer" if it.startswith("ptr ") else it for it in parts(value))
        return f"{head}<{{ {types} }}> <{{ {value} }}>{end}"

    return CONSTANT.sub(wide, text)


def wrapper(call, is_struct):
    """A function that C calls, in LLVM: it makes 64 bits of the sizes, and calls the module's."""
    takes = [("ptr", "ptr", "result")] if is_struct else []
    takes += [("ptr", "ptr", it.name) if it.is_pointer else (*TYPES[it.type], it.name) for it in call.takes]
    inner, outer = TYPES["void" if is_struct else call.gives]
    extended = "zeroext " if outer in ("i1", "i8", "i16") else ""
    said = ", ".join(f"{kind} {'zeroext ' if kind == 'i1' else ''}%{name}" for _, kind, name in takes)
    lines = [f"define {extended}{outer} @{call.name}({said}) #exported {{"]
    given = []
    for kind, said, name in takes:
        if kind != said:
            lines.append(f"  %{name}.wide = zext {said} %{name} to {kind}")
        given.append(f"{kind} %{name}{'.wide' if kind != said else ''}")
    made = f'call {inner} @"module {call.name}"({", ".join(given)})'
    if inner == "void":
        return "\n".join([*lines, f"  {made}", "  ret void", "}", ""])
    lines.append(f"  %given = {made}")
    if inner != outer:
        lines.append(f"  %given.narrow = trunc {inner} %given to {outer}")
    return "\n".join([*lines, f"  ret {outer} %given{'.narrow' if inner != outer else ''}", "}", ""])


def with_calls(text, calls, structs):
    """Gives the module the calls of the header in place of its own."""
    exported = {name for _, name in EXPORT.findall(text)}
    known = {it.name: it for it in calls if it.name in exported}
    if exported != set(known):
        raise Unfit(f"the header lacks {', '.join(sorted(exported - set(known)))}")
    text = EXPORT.sub(r'define internal \1@"module \2"(', text)
    return text + "\n" + "\n".join(wrapper(it, it.gives.removeprefix("struct ") in structs) for it in known.values())


def look_at(text, structs, narrow):
    """Refuses a module whose pointers couldn't be narrowed so, and a header whose structs lie otherwise."""
    if f'target datalayout = "{LAYOUT_FROM}"' not in text or f'target triple = "{FROM}"' not in text:
        raise Unfit("the compiler's module isn't one for WebAssembly as expected")
    if "inttoptr" in text:
        raise Unfit("the compiler's module makes pointers of numbers")
    rest = CONSTANT.sub("", PAIR.sub("", text))
    for laid in LAID.finditer(rest):
        if re.search(r"\bptr\b", laid[1] or laid[2]) and laid[1] != ALIKE:
            raise Unfit(f"the compiler's module has pointers in {laid[0][:60]}")
    for name, wide in structs.items():
        if [(it.path, it.place) for it in wide.fields] != [(it.path, it.place) for it in narrow[name].fields]:
            raise Unfit(f"struct {name} lies otherwise where a pointer has 4 octets")


def narrowed(text, triple, calls, structs):
    """A module of LLVM in text, for a Cortex-M."""
    text = text.replace(f'"{LAYOUT_FROM}"', f'"{LAYOUT}"').replace(f'"{FROM}"', f'"{triple}"')
    text = OF_PROCESSOR.sub("", text)
    for old, new in ONE_AT_A_TIME.items():
        text = text.replace(old, new)
    # the module doesn't know where the stack ends
    text = re.sub(r"= call ptr @llvm\.frameaddress\.p0\(i32 0\)", "= getelementptr i8, ptr null, i64 65536", text)
    text = text.replace("ptrtoaddr ", "ptrtoint ")
    text = with_wide_constants(with_pairs_apart(with_wide_pointers(text)))
    text = with_calls(text, calls, structs)
    text = re.sub(r"^(attributes #\d+ = \{ )((?:alwaysinline |noinline |cold )*)nounwind", r"\1\2optsize nounwind", text, flags=re.M)
    text = BETWEEN.sub(r"\1 #exported", text)
    return text.replace("#exported", "#1000") + "\nattributes #1000 = { optsize nounwind }\n"
