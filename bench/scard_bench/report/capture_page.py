"""The page of HTML about captures."""
from __future__ import annotations

import html
from typing import Sequence

from . import side
from .captures import Capture
from .page import page, table, verdict


def part(it: Capture) -> str:
    """The report on a capture as HTML."""
    lists = (("What the judge says", it.said), ("The import", it.summary), ("The answer to reset", it.about_atr),
             ("The exchanges", it.exchanges), ("What the trace exercises", it.counted), ("The trace", it.trace))
    body = f"<h2>{html.escape(it.name)}: {verdict(it.verdict)}</h2>\n"
    for title, lines in lists:
        text = html.escape("\n".join(lines))
        is_open = " open" if title == lists[0][0] else ""
        body += f"<details{is_open}><summary>{title}</summary><pre>{text}</pre></details>\n"
    return body + it.picture


def html_of(found: Sequence[Capture]) -> str:
    """The page about captures: a table with a column for each, and then each by itself."""
    columns = side.of_captures(found)
    rows = [["verdict", *(verdict(it.verdict) for it in found)]]
    rows += [[html.escape(cell) for cell in row] for row in columns.rows[1:]]
    return page("scard-bench: captures", table(columns.heading, rows) + "".join(map(part, found)))
