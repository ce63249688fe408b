"""Captures or devices side by side: a table with a column for each."""
from __future__ import annotations

import re
from typing import Dict, List, NamedTuple, Sequence

from ..suite.runner import Run
from .captures import Capture

# what the judge's last line counts, in the order of the table
COUNTS = {
    "blocks": re.compile(r"(\d+) blocks?\b"),
    "damaged, terminal": re.compile(r"damaged terminal (\d+) card \d+"),
    "damaged, card": re.compile(r"damaged terminal \d+ card (\d+)"),
    "unseen": re.compile(r"unseen (\d+)"),
    "deviations": re.compile(r"(\d+) deviations?:"),
    "late": re.compile(r"late (\d+)"),
    "early": re.compile(r"early (\d+)"),
}
LAST = re.compile(r"(?:piece \d+: )?(?:ok |unsure )?\d+ blocks?\b")
BROKEN = re.compile(r"rule ([^:]+): terminal kept \d+ broken (\d+), card kept \d+ broken (\d+)$")


class Table(NamedTuple):
    """A table of texts. The first cell of a row names it, and the others are of the columns."""

    heading: List[str]
    rows: List[List[str]]


def counts(it: Capture) -> Dict[str, int]:
    """What the judge counts in a capture, and how many blocks of each end broke each rule, if any did."""
    last = [line for line in it.said if LAST.match(line)]
    found = {name: sum(int(one) for line in last for one in form.findall(line)) for name, form in COUNTS.items()}
    for line in it.counted:
        broken = BROKEN.match(line)
        for end, number in zip(("terminal", "card"), broken.groups()[1:] if broken else ()):
            if broken and int(number):
                name = f"{broken[1]}, {end}"
                found[name] = found.get(name, 0) + int(number)
    return found


def of_captures(found: Sequence[Capture]) -> Table:
    """Captures side by side: the verdict, and what the judge counts."""
    numbers = [counts(it) for it in found]
    names = list(dict.fromkeys(name for it in numbers for name in it))
    rows = [[name, *(str(it.get(name, 0)) for it in numbers)] for name in names]
    return Table(["", *(it.name for it in found)], [["verdict", *(it.verdict for it in found)], *rows])


def of_runs(runs: Sequence[Run]) -> Table:
    """Devices side by side: the verdict of each scenario. The runs are of the same scenarios."""
    verdicts = [{it.scenario.identity: it.verdict for it in run.results} for run in runs]
    names = list(dict.fromkeys(name for it in verdicts for name in it))
    return Table(["scenario", *(run.name for run in runs)],
                 [[name, *(it.get(name, "") for it in verdicts)] for name in names])


def lines_of(table: Table) -> List[str]:
    """The table as lines, in columns."""
    cells = [table.heading, *table.rows]
    widths = [max(len(row[at]) for row in cells) for at in range(len(table.heading))]
    return ["  ".join(f"{cell:{width}}" for cell, width in zip(row, widths)).rstrip() for row in cells]
