"""Reads a crate's sources as `rt fmt` lays them out: items with their documentation, their text and their clauses, the
functions in them, and which of them a caller sees."""

import dataclasses
import re

from stack import folder_of

KINDS = "struct|enum|trait|const|static|type|impl|mod|use|ghost"
HEAD = re.compile(rf"""(?P<shown>pub(?:\(\w+\))? )?"""
                  rf"""(?:(?:const |unsafe |extern "C" )*(?P<fn>fn) |(?P<kind>{KINDS})\b)""")
NAME = re.compile(r"(?:fn|struct|enum|trait|const|static|type|mod) (\w+)")
IMPL = re.compile(r"impl(?:<.*?>)? (?:(?P<trait>[\w:]+(?:<.*>)?) for )?&?(?P<type>\w+)")
STRING = re.compile(r'"(?:\\.|[^"\\])*"', re.S)
CLAUSE = re.compile(r" *(?:ensures|requires)\*?(?: (\w+))? \{")
CITED = re.compile(r"ghost use Rattle\.(\w+)\.specs\.((?!declared)[\w.]+?)(?:\.\{(.*)\})?(?: as .*)?;")


@dataclasses.dataclass(eq=False)
class Item:
    """An item: what it is, its name, the type or trait that it is in, and its lines."""

    kind: str
    name: str
    owner: str
    # the trait of the impl around it
    of: str
    docs: list
    # its text, without the body of a function
    code: list
    body: str
    file: str
    first: int
    last: int
    # whether it is `pub` to all
    shown: bool
    inner: tuple


class Crate:
    """What the sources of a crate have: its documentation, its items and its modules that a caller sees."""

    def __init__(self, name):
        self.name, folder = name, folder_of(name) / "src"
        root = (folder / "lib.rt").read_text()
        self.docs = [line[4:] for line in root.splitlines() if line.startswith("//!")]
        self.modules = re.findall(r"^(pub )?mod (\w+);", root, re.M)
        self.exported = exported(root)
        order = [module for _, module in self.modules]
        files = sorted(folder.rglob("*.rt"), key=lambda it: place_of(it.relative_to(folder), order))
        self.items = [item for it in files for item in items_of(it, f"src/{it.relative_to(folder).as_posix()}")]
        self.cited = {f"src/{it.relative_to(folder).as_posix()}": [*cited_in(it.read_text())] for it in files}

    def is_open(self, file):
        """Whether a file's module is one that a caller can name."""
        module = file.removeprefix("src/").removesuffix(".rt").split("/")
        return module == ["lib"] or (len(module) == 1 and ("pub ", module[0]) in self.modules)

    def is_shown(self, item):
        """Whether a caller sees an item that stands in a module by itself."""
        return item.shown and (self.is_open(item.file) or item.name in self.exported)


def place_of(path, order):
    """The place of a file among a crate's files: in the order of the modules, a file before those below it."""
    first = path.parts[0].removesuffix(".rt")
    return (order.index(first) if first in order else -1, len(path.parts), path.as_posix())


def exported(root):
    """The names that a crate's root exports, by the path of each."""
    names = {}
    for path, several, one in re.findall(r"^pub use ([\w:]+?)::(?:\{([^}]*)\}|(\w+));", root, re.M):
        for part in re.split(r",\s*", (several or one).strip()):
            if part.strip():
                old, _, new = part.strip().partition(" as ")
                names[new or old] = f"{path}::{old}"
    return names


def cited_in(text):
    """The definitions that a text names, each with its crate and its file."""
    for crate, module, names in CITED.findall(text):
        for name in (names or module.split(".")[-1]).split(","):
            yield name.strip().split(" as ")[-1].strip(), crate, module


def items_of(path, file, lines=None, indent=0, first=0, owner="", of=""):
    """The items of some lines of a file that stand at one indent."""
    lines = path.read_text().splitlines() if lines is None else lines
    docs, began, at = [], None, first
    while at < len(lines):
        line = lines[at]
        text = line[indent:]
        is_here = line.startswith(" " * indent) and text[:1] not in ("", " ", "}")
        if is_here and text.startswith("///"):
            docs.append(text[4:])
        found = HEAD.match(text) if is_here else None
        if is_here and began is None:
            began = at
        if found:
            item, end = item_at(path, file, lines, at, indent, began, docs, owner, of, found)
            yield item
            at = end
        if found or text == "":
            docs, began = [], None
        if line == " " * (indent - 4) + "}" and indent:
            return
        at += 1


def item_at(path, file, lines, at, indent, began, docs, owner, of, found):
    """The item whose head is in a line, and the line that it ends in."""
    kind = found["fn"] or found["kind"]
    text = lines[at][indent:]
    named, headed = NAME.search(text), IMPL.match(text)
    name = headed["type"] if kind == "impl" and headed else named[1] if named else text.split(" ")[1]
    code_end, end = span(lines, at, indent, kind)
    attributes = [it[indent:] for it in lines[began:at] if it[indent:].startswith("#[")]
    code = attributes + [it[indent:] for it in lines[at:code_end]]
    inner = ()
    if kind in ("impl", "trait") and end > at:
        inside = headed["trait"] or "" if kind == "impl" and headed else ""
        inner = tuple(items_of(path, file, lines[: end + 1], indent + 4, at + 1, name, inside))
    shown = found["shown"] == "pub " or kind == "impl"
    body = "\n".join(lines[code_end : end + 1]) if kind == "fn" else ""
    return Item(kind, name, owner, of, docs, code, body, file, began, end, shown, inner), end


def span(lines, at, indent, kind):
    """Where the text of an item without a function's body ends, and the line that the item ends in."""
    close = " " * indent + "}"
    if kind == "fn":
        return function_span(lines, at, indent)
    has_body = kind in ("struct", "enum", "trait", "impl")
    for end in range(at, len(lines)):
        line = lines[end]
        if (line.endswith("{}") and end == at) or (line == close and has_body):
            return end + 1, end
        if line.endswith(";") and (end == at or not has_body) and not any(opened(lines[at : end + 1])):
            return end + 1, end
    raise ValueError(f"no end of: {lines[at]}")


def function_span(lines, at, indent):
    """Where the signature and the clauses of a function end, and the line that its body ends in."""
    close, has_clauses = " " * indent, False
    for it in range(at, len(lines)):
        line = lines[it]
        has_clauses = has_clauses or bool(CLAUSE.match(line) and line.startswith(close + "    "))
        if it > at and line in (close + "{", close + "{}"):
            return it, next(end for end in range(it, len(lines)) if lines[end] in (close + "}", close + "{}"))
        if line.endswith(";") and not any(opened(lines[at : it + 1])):
            return it + 1, it
        if not has_clauses and line.endswith(("{", "{}")):
            end = it if line.endswith("{}") else next(end for end in range(it, len(lines)) if lines[end] == close + "}")
            return it + 1, end
    raise ValueError(f"no end of: {lines[at]}")


def opened(lines):
    """How many brackets of each kind are open after some lines, except those in strings."""
    text = STRING.sub("", "\n".join(lines))
    return [text.count(a) - text.count(b) for a, b in ("()", "{}", "[]")]


def clauses_of(item):
    """The names of a function's clauses; a clause without a name has the empty name."""
    return [found[1] or "" for found in map(CLAUSE.match, item.code) if found]
