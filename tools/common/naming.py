"""Finds which functions a function of a crate calls, and which tests name it, by names alone."""

import re

from sources import items_of
from stack import TOP, crates, folder_of

CALLED = re.compile(r"(?:(?P<owner>\w+)::|(?P<self>\bself\.)(?:(?P<field>\w+)\.)?|(?P<dot>\.))?"
                    r"(?P<name>\b[a-z]\w*)(?:::<[^>()]*>)?(?P<call>\()?")
FIELD = re.compile(r"^    (?:pub(?:\(\w+\))? )?(\w+): &?(?:'\w+ )?(?:mut )?(\w+)", re.M)
WORD = re.compile(r"\w+")
# Code calls the functions of these traits without their names: a test tries them if its own name matches.
TELLS = {"Display": re.compile("print|named"), "Debug": re.compile("show"), "PartialEq": re.compile("equal")}
# The test modules that don't have the name of their crate without its '_core'.
MODULES = {"test_support": "helpers"}
NEVER = re.compile(r"(?!)")


class Calls:
    """The functions of a crate that each of its functions calls."""

    def __init__(self, items):
        self.functions, self.fields = {}, {}
        for item in items:
            if item.kind == "fn":
                self.functions.setdefault(item.name, []).append(item)
            elif item.kind == "struct":
                self.fields[item.name] = dict(FIELD.findall("\n".join(item.code)))

    def named_by(self, item):
        """What a function's body calls: for each function its type, None if that isn't known, and its name."""
        for found in CALLED.finditer(item.body):
            owner = item.owner if found["self"] or found["owner"] == "Self" else found["owner"] or ""
            if found["field"]:
                owner = self.fields.get(item.owner, {}).get(found["field"])
            if found["call"] or found["owner"]:
                yield None if found["dot"] else owner, found["name"]

    def callees(self, item):
        """The functions that a function calls."""
        text = set(WORD.findall("\n".join([*item.code, item.body])))
        for owner, name in self.named_by(item):
            named = self.functions.get(name, [])
            if owner is None:
                owners = {it.owner for it in named if it.owner}
                owners = owners if len(owners) == 1 else owners & (text | set(self.fields.get(item.owner, {}).values()))
                yield from (it for it in named if {it.owner} == owners and item.name != "fmt")
            elif owner[:1].isupper():
                yield from (it for it in named if it.owner == owner)
            else:
                yield from (it for it in named if not it.owner)

    def below(self, item):
        """The functions that a function depends on, nearest first."""
        found, turn = [], [item]
        while turn:
            turn = [it for up in turn for it in self.callees(up) if it is not item and it not in found]
            turn = list(dict.fromkeys(turn))
            found += turn
        return found


class Tests:
    """The tests of a crate, which are a module of a crate of tests: each with its text and that of its helpers."""

    def __init__(self, name):
        module = MODULES.get(name, name.removesuffix("_core"))
        homes = [folder_of(it) / "src" / f"{module}.rt" for it in crates() if it.endswith("_tests")]
        self.homes = [it.relative_to(TOP) for it in homes if it.exists()]
        self.tests = [test for it in self.homes for test in tests_in(TOP / it)]

    def naming(self, item, kind):
        """The names of the tests that name a function of a type or a trait, or a free one."""
        return [name for name, _, text, words in self.tests if names(item, kind, name, text, words)]


def names(item, kind, name, text, words):
    """Whether a test names a function in its text, or by its own name if code calls the function by a sign."""
    if not item.owner:
        return item.name in words
    if item.owner not in words:
        return False
    if kind in ("Display", "Debug", "PartialEq", "From"):
        return bool(TELLS.get(kind, NEVER).search(name))
    return f"{item.owner}::{item.name}" in text or f".{item.name}(" in text


def shared_with(home):
    """The files of a crate of tests that serve all its modules: without tests or modules of their own."""
    beside = (it for it in sorted(home.parent.glob("*.rt")) if it not in (home, home.with_name("lib.rt")))
    return [it for it in beside if not it.with_suffix("").is_dir() and "#[test]" not in it.read_text()]


def tests_in(home):
    """The tests of a module: name, first line of documentation, whole text and the words in it."""
    texts, tests = {}, []
    for path in [home, *sorted(home.with_suffix("").rglob("*.rt")), *shared_with(home)]:
        for item in items_of(path, path.name):
            text = "\n".join([*item.code, item.body])
            if "#[test]" in item.code:
                tests.append((item, text))
            elif item.kind not in ("use", "ghost", "mod"):
                inner = "\n".join("\n".join([*it.code, it.body]) for it in item.inner)
                texts.setdefault(item.name, []).append(text + "\n" + inner)
    for item, text in tests:
        text = whole(text, texts)
        yield item.name, item.docs, text, set(WORD.findall(text))


def whole(text, texts):
    """A test's text, with that of each item of its module that it names."""
    seen, turn = set(), text
    while turn:
        named = (set(WORD.findall(turn)) & texts.keys()) - seen
        seen |= named
        turn = "\n".join(part for it in sorted(named) for part in texts[it])
        text += "\n" + turn
    return text


def c_tests():
    """The text of each test in C, by the name of its file."""
    return {it.stem: it.read_text() for it in sorted((TOP / "tests/c").glob("*.c"))}
