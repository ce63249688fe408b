"""Reads the edits in crates/*/more-edits for the scripts: a line 'file:', then pairs of lines 'old:' and 'new:', and
the function that each replaced text is in."""

import collections
import re

from stack import TOP

FUNCTION = re.compile(r"""( *)(?:pub(?:\(\w+\))? )?(?:const |unsafe |extern "C" )*fn (\w+)""")
OWNER = re.compile(r" *impl(?:<.*?>)? (?:(?:\w+::)*(?P<trait>\w+)(?:<(?P<of>\w*).*>)? for )?&?(?:'\w+ )?(?P<name>\w+)")

Function = collections.namedtuple("Function", "file name owner first last")
Edit = collections.namedtuple("Edit", "name pairs functions")


# The edits that the gate tries.
FIRST = TOP / "tools/gate/first-edits.txt"


class Unusable(Exception):
    """An edit that can't be tried, and why."""


def function_at(file, lines, at):
    """The function that a line is in, if any: from its attributes to the next closing brace with its own indent."""
    for head in range(at, -1, -1):
        found = FUNCTION.match(lines[head])
        if found:
            first = head
            while lines[first - 1].startswith(f"{found[1]}#["):
                first -= 1
            last = next((it for it in range(head, len(lines)) if lines[it] == found[1] + "}"), -1)
            owner = owner_of(lines, head, len(found[1]))
            return Function(file, found[2], owner, first, last) if last >= at else None
    return None


def owner_of(lines, first, indent):
    """The checker's name of the impl that a function is in, such as `Stop`, `StopDisplay` or `RefusedFromStop`."""
    heads = (OWNER.match(lines[it]) for it in range(first, -1, -1) if indent and not lines[it].startswith(" " * indent))
    head = next((it for it in heads if it), None)
    # The checker calls the function of an `impl Drop` by the type alone.
    trait = "" if not head or head["trait"] == "Drop" else head["trait"] or ""
    return f"{head['name']}{trait}{head['of'] or ''}" if head else ""


def read_edit(path, folder):
    """An edit of a crate, with the functions that it is in."""
    file, old, pairs, functions = "", "", [], []
    for line in path.read_text().splitlines():
        if line.startswith("file: "):
            file = line[6:].strip()
        elif line.startswith("old: "):
            old = line[5:]
        elif line.startswith("new:"):
            text = (folder / file).read_text()
            if text.count(old) != 1:
                raise Unusable(f"an 'old:' text is in {file} {text.count(old)} times, and not once")
            pairs.append((file, old, line[4:].removeprefix(" ")))
            functions.append(function_at(file, text.splitlines(), text[: text.index(old)].count("\n")))
    if not pairs:
        raise Unusable("it has no 'old:' and 'new:' pair")
    return Edit(path.stem, pairs, functions)


def edits_of(folder):
    """The files of a crate's edits."""
    return sorted((folder / "more-edits").glob("*.edit"))


def first_edits():
    """The edits that the gate tries, by crate. A line that begins with a space continues the one before."""
    rows = [it.split("#")[0].partition(":") for it in FIRST.read_text().replace("\n ", " ").splitlines()]
    return {name.strip(): edits.split() for name, _, edits in rows if edits}


def read_edits(name, chosen):
    """The edits of a crate, all or those that are chosen, and a line for each that can't be made."""
    folder, edits = TOP / "crates" / name, []
    paths = edits_of(folder)
    lost = [it for it in chosen or () if it not in {path.stem for path in paths}]
    wrong = [f"{name}/{it}: BAD EDIT: there is no such file" for it in lost]
    for path in paths:
        try:
            edits += [read_edit(path, folder)] if not chosen or path.stem in chosen else []
        except (Unusable, OSError) as why:
            wrong.append(f"{name}/{path.stem}: BAD EDIT: {why}")
    return edits, wrong
