"""The evidence of the promises: the rows of docs/promises.txt, and the page docs/reference/promises.md."""

import collections
import functools
import re
import textwrap

from edits import first_edits
from pages import anchor_of
from stack import TOP

FILE = TOP / "docs/promises.txt"
PROMISES = TOP / "docs/PROMISES.md"
NAME = "promises.md"
HEAD = """\
# Evidence of the promises

`tools/daily/reference` writes this page from [promises.txt](../promises.txt). For each promise of
[PROMISES.md](../PROMISES.md) it names the public calls and laws that keep it. In parentheses are the clauses that carry
it; if a call has none there, all of its clauses do. *Definitions* say what the promise means. *Edits* are planted bugs
that the prover refuses; the gate tries those in bold. `tools/gate/check-promises` checks that each name is there.
"""

PROMISE = re.compile(r"^\*\*\[([^\]]+)\]\(reference/promises\.md#([\w-]+)\)\.\*\*", re.M)
# A row has its kind, what it is about (a call, a file, a crate or a path), and names: clauses, definitions or edits.
Row = collections.namedtuple("Row", "kind of names")


class Unreadable(Exception):
    """A line that is no row."""


def evidence(text):
    """The rows of each promise, by its title and in the order of the text."""
    lines = [line for line in text.splitlines() if line and not line.startswith("#")]
    found, rows = {}, []
    for line in re.sub(r"\n {4,}", " ", "\n".join(lines)).splitlines():
        if not line.startswith(" "):
            rows = found.setdefault(line, [])
            continue
        row = re.fullmatch(r"  (call|defined|edits|test) (\S+?)(?:: (\w+(?:, \w+)*))?", line)
        if not row:
            raise Unreadable(f"{FILE.name}: no row is {line.strip()}")
        rows.append(Row(row[1], row[2], row[3].split(", ") if row[3] else []))
    return found


def promises(text):
    """The promises of the page, each with its anchor on the page of evidence and the heading that it is below."""
    for part in re.split(r"^## ", text, flags=re.M)[1:]:
        heading, _, body = part.partition("\n")
        yield from ((title, anchor, heading) for title, anchor in PROMISE.findall(body))


@functools.cache
def anchors_of(text):
    """The anchors of a page of the reference by the names of the items, of which the first one counts."""
    outside, found, taken = re.sub(r"^```.*?^```", "", text, flags=re.M | re.S), {}, set()
    for title in re.findall(r"^#+ (.*)", outside, re.M):
        anchor = anchor_of(title, taken)
        taken.add(anchor)
        found.setdefault(title.strip("`").split(", of ")[0], anchor)
    return found


def place_of(call, pages):
    """The page and the anchor of a call, by the texts of the pages of the reference. If there is no such call, the
    anchor is empty."""
    crate, _, item = call.partition("::")
    return f"{crate}.md", anchors_of(pages.get(f"{crate}.md", "")).get(item, "")


def code(names):
    """Names as code, in parentheses."""
    return f" ({', '.join(f'`{it}`' for it in names)})" if names else ""


def calls_of(rows, pages):
    """The lines of the calls of a promise, one for each crate."""
    by_crate = {}
    for row in (it for it in rows if it.kind == "call"):
        file, anchor = place_of(row.of, pages)
        link = f"[{row.of.partition('::')[2]}]({file}#{anchor})"
        by_crate.setdefault(file, []).append(link + code(row.names))
    return [f"[{file.removesuffix('.md')}]({file}): {', '.join(links)}." for file, links in by_crate.items()]


def definitions_of(rows):
    """The line of the definitions of a promise."""
    found = []
    for row in (it for it in rows if it.kind == "defined"):
        crate, _, file = row.of.partition("/")
        found.append(f"[{row.of}](../../crates/{crate}/specs/{file}.antt)" + code(row.names))
    return [f"Definitions: {', '.join(found)}."] if found else []


def edits_of_promise(rows):
    """The lines of the edits of a promise, one for each crate."""
    first = first_edits()
    for row in (it for it in rows if it.kind == "edits"):
        names = [f"**`{it}`**" if it in first.get(row.of, ()) else f"`{it}`" for it in row.names]
        yield f"Edits of {row.of}: {', '.join(names)}."


def wrapped(text, indent):
    """The lines of a text within the width of a page, the lines after the first with an indent."""
    return textwrap.wrap(text, 120, break_long_words=False, break_on_hyphens=False, subsequent_indent=indent)


def part_of(title, rows, heading, pages):
    """The part of the page for one promise."""
    tests = [f"[{it.of}](../../{it.of})" for it in rows if it.kind == "test"]
    facts = [*calls_of(rows, pages), *definitions_of(rows), *edits_of_promise(rows)]
    facts += [f"Tests: {', '.join(tests)}."] if tests else []
    lines = [line for fact in facts for line in wrapped(f"- {fact}", "  ")]
    above = wrapped(f"The promise is below [{heading}](../PROMISES.md#{anchor_of(heading, ())}).", "")
    return "\n".join(["", f"## {title}", "", *above, "", *lines]) + "\n"


def page_of(pages):
    """The text of the page of evidence. `pages` has the texts of the other pages of the reference."""
    heading = {title: it for title, _, it in promises(PROMISES.read_text())}
    found = evidence(FILE.read_text())
    return HEAD + "".join(part_of(it, rows, heading.get(it, ""), pages) for it, rows in found.items())
