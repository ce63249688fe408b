"""What is proved of each call of the library for C in plain words: the texts of docs/calls.txt."""

import fnmatch
import re

from stack import TOP

FILE = TOP / "docs/calls.txt"
TITLE = "What is proved of each call"
ITEM = re.compile(r"^- ((?:`[\w*]+`(?:,\s+)?)+):", re.M)


def texts(text):
    """The text for each crate, by its name."""
    lines = [line for line in text.splitlines() if not line.startswith("#")]
    parts = re.split(r"^(\w+)\n", "\n".join(lines), flags=re.M)[1:]
    return {name: re.sub(r"^  ", "", body, flags=re.M).strip() for name, body in zip(parts[::2], parts[1::2])}


def unlike(text, calls):
    """What the items of a text and the calls of its crate don't have in common: calls that no item or several items
    name, and names of no call."""
    names = [re.findall(r"[\w*]+", item) for item in ITEM.findall(text)]
    for call in calls:
        count = sum(any(fnmatch.fnmatchcase(call, it) for it in item) for item in names)
        if count != 1:
            yield f"{count} items name {call}"
    yield from (f"no call {it}" for item in names for it in item if not fnmatch.filter(calls, it))
