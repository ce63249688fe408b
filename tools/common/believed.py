"""The definitions that no proof checks: the page docs/BELIEVE.md, from the files that each specs/Lib.antt lists."""

import re
import textwrap

from sources import Crate, clauses_of
from stack import TOP, crates, folder_of, is_program

PAGE = TOP / "docs/BELIEVE.md"
MARK = "-- to be believed"
EMV = "EMV 4.3 Book 3"
CLAUSE = re.compile(r"\b[1-9]\d?(?:\.[1-9]\d?)+\b(?!\.\d)|(?<=clause )\d+\b")
HEAD = """\
# What has to be believed

No proof shows that the definitions say what the standards say: a person has to read them. `tools/daily/reference` lists
them here, the lowest crate first. A row has a file of `crates/CRATE/specs`, its lines without comments, its clauses,
and its first sentence. The clauses are those of ISO/IEC 7816-3:2006, in tlv_core of EMV Book 3, in apdu_core of 7816-4.
*(own)* in a file marks a choice of ours. What code [keeps](#what-the-code-keeps-between-calls) is apart.
"""
KEPT = """\
## What the code keeps between calls

To read a contract of a public function, read the files that it cites of these too.

| Crate | File | Lines | What it says |
|---|---|---|---|
"""
WORD = re.compile(r"[\w'-]+")


def files_of(name):
    """The files of a crate that have to be believed, in their order."""
    listed = (folder_of(name) / "specs/Lib.antt").read_text().splitlines()
    if any(line.startswith(MARK) for line in listed):
        first = next(place for place, line in enumerate(listed) if line.startswith(MARK))
        rest = listed[first + 1:]
        end = next((place for place, line in enumerate(rest) if line.startswith("--")), len(rest))
        listed = rest[:end]
    return [line.split()[-1] for line in listed if "mod " in line]


def file_of(name, file):
    """The path of a file of definitions. Some names are of definitions that the toolchain writes."""
    return folder_of(name) / f"specs/{file.replace('.', '/')}.antt"


def sentence_of(text):
    """The first sentence of a file's first remark."""
    remark = []
    for line in text.splitlines():
        if not line.startswith("--"):
            break
        remark.append(line[2:].strip())
    whole = " ".join(remark)
    found = re.match(r".*?[.:](?= |$)", whole)
    return (found.group(0) if found else whole).rstrip(":. ").replace("|", "\\|")


def lines_of(text):
    """The number of a file's lines without remarks."""
    return sum(bool(line.strip()) and not line.lstrip().startswith("--") for line in text.splitlines())


def row_of(name, file):
    """The row of a file."""
    text = file_of(name, file).read_text()
    remarks = " ".join(line for line in text.splitlines() if line.lstrip().startswith("--"))
    clauses = sorted(set(CLAUSE.findall(remarks.replace(EMV, "EMV"))), key=lambda it: list(map(int, it.split("."))))
    clauses += [standard for standard in ("EMV", "7816-4") if standard in remarks]
    shown = ", ".join(clauses[:8]) + (" .." if len(clauses) > 8 else "")
    said = re.sub(r" \((?:ISO/IEC|EMV)[^)]*\)", "", sentence_of(text))
    return f"| `{file}` | {lines_of(text)} | {shown} | {textwrap.shorten(said, 130, placeholder=' ..')} |"


def functions(items):
    """The functions among items and in them."""
    for item in items:
        if item.kind == "fn":
            yield item
        yield from functions(item.inner)


def is_public(crate, item):
    """Whether a caller sees an item, or the type that it is an impl of."""
    types = {it.name for it in crate.items if it.kind in ("struct", "enum") and crate.is_shown(it)}
    return crate.is_shown(item) if item.kind != "impl" else item.name in types


def cited_by(name):
    """The files of definitions that the contracts of a crate's public functions cite, each with its crate."""
    crate = Crate(name)
    for item in (it for it in crate.items if is_public(crate, it)):
        for function in (it for it in functions([item]) if (it.shown or it.of) and clauses_of(it)):
            words = set(WORD.findall("\n".join(function.code)))
            yield from ((place, file) for named, place, file in crate.cited[function.file] if named in words)


def kept_of(names):
    """The files that public contracts cite and that no list of a crate has, in the order of the crates."""
    listed = {(name, file) for name in names for file in files_of(name)}
    cited = {it for name in crates() if not is_program(name) for it in cited_by(name) if file_of(*it).exists()}
    return [it for name in names for it in sorted(cited - listed) if it[0] == name]


def kept_row(name, file):
    """The row of such a file."""
    text = file_of(name, file).read_text()
    return f"| {name} | `{file}` | {lines_of(text)} | {textwrap.shorten(sentence_of(text), 130, placeholder=' ..')} |"


def page_of(names):
    """The text of the page."""
    lines, names = [HEAD], [it for it in names if (folder_of(it) / "specs/Lib.antt").exists()]
    for name in names:
        rows = [row_of(name, file) for file in files_of(name)]
        lines += [f"## {name}", "| File | Lines | Clauses | What it says |", "|---|---|---|---|", *rows, ""]
    return "\n".join([*lines, KEPT + "\n".join(kept_row(*it) for it in kept_of(names)), ""])
