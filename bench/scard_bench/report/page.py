"""A report as one page of HTML, which loads nothing."""
from __future__ import annotations

import html
import re
from typing import List, Sequence

from ..program import Program
from ..suite.runner import Run
from ..suite.verdict import FAIL, Result
from . import side
from .text import VERDICTS, counts, exercised, known, never

STYLE = """
:root { color-scheme: light dark }
body { font: 15px/1.4 system-ui, sans-serif; margin: 2em auto; max-width: 72em; padding: 0 1em }
table { border-collapse: collapse; width: 100% }
td, th { border-bottom: 1px solid #8886; padding: .25em .6em; text-align: left; vertical-align: top }
pre { overflow-x: auto; font-size: 13px } .fail { color: #c22; font-weight: bold } .pass { color: #282 }
.inconclusive { color: #a60 } svg { max-width: 100%; height: auto }
"""
TITLE = "scard-bench"
# a block that arrived as it was sent, which the file of an exchange writes in a shorter way
WHOLE = re.compile(r"([tc] (\w+)) as \2$")
LONGEST_DRAWING = 400
MOMENTS = ("at ", "until ")


def table(heading: Sequence[str], rows: Sequence[Sequence[str]]) -> str:
    """A table of cells that are HTML."""
    head = "".join(f"<th>{html.escape(it)}</th>" for it in heading)
    body = "".join("<tr>" + "".join(f"<td>{cell}</td>" for cell in row) + "</tr>\n" for row in rows)
    return f"<table><thead><tr>{head}</tr></thead>\n<tbody>{body}</tbody></table>\n"


def verdict(text: str) -> str:
    """A verdict in its colour."""
    return f'<span class="{text.split()[0]}">{html.escape(text)}</span>'


def drawing(program: Program, atr: str, trace: Sequence[str]) -> str:
    """The ladder of a trace, by `scard draw --svg`, or its lines if it can't be drawn."""
    session: List[str] = []
    for line in trace[:LONGEST_DRAWING]:
        if line == "reset":
            session = []
        elif not line.startswith(MOMENTS):
            session.append(WHOLE.sub(r"\1", line))
    text = "".join(f"{line}\n" for line in ["scard-exchange 2", f"atr {atr or 'none'}", *session])
    picture, status = program.answers(["draw", "--svg"], text)
    return picture if status == 0 else "<pre>" + html.escape("\n".join(trace)) + "</pre>"


def shown(program: Program, it: Result) -> str:
    """The part about a scenario that didn't pass."""
    why = "".join(f"<li>{html.escape(one)}</li>" for one in it.reasons)
    head = f"<h3 id={it.scenario.identity!r}>{it.scenario.identity}: {html.escape(it.scenario.title)}</h3>"
    picture = drawing(program, it.atr, it.trace) if it.verdict == FAIL else ""
    return f"{head}<p>{html.escape(it.scenario.clause)}</p><ul>{why}</ul>\n{picture}"


def page(title: str, body: str) -> str:
    """A page."""
    return (f'<!doctype html>\n<html lang="en"><meta charset="utf-8"><title>{html.escape(title)}</title>\n'
            f"<style>{STYLE}</style>\n<h1>{html.escape(title)}</h1>\n{body}</html>\n")


def side_by_side(runs: Sequence[Run]) -> str:
    """The table of the scenarios, with a column for each device."""
    titles = {it.scenario.identity: it.scenario.title for run in runs for it in run.results}
    found = side.of_runs(runs)
    return table([found.heading[0], "what it tries", *found.heading[1:]],
                 [[name, html.escape(titles[name]), *(verdict(it) if it else "" for it in cells)]
                  for name, *cells in found.rows])


def text_of(program: Program, runs: Sequence[Run]) -> str:
    """The page of runs, side by side: the verdicts first, then each scenario, then what failed."""
    heads = [html.escape(f"{run.name or run.role}, {run.profile}: {' '.join(run.command)}") for run in runs]
    body = table(["device", *VERDICTS, "exercised"],
                 [[head, *(str(sum(it.verdict == name for it in run.results)) for name in VERDICTS),
                   f"{len(exercised(run.results))} of {len(known(run.results))}"] for head, run in zip(heads, runs)])
    body += side_by_side(runs) if len(runs) > 1 else ""
    for head, run in zip(heads, runs):
        body += f"<h2>{head}</h2><p>{html.escape('; '.join([counts(run.results), *run.notes]))}</p>\n"
        body += table(["scenario", "clause", "what it tries", "verdict", "blocks"],
                      [[it.scenario.identity, html.escape(it.scenario.clause), html.escape(it.scenario.title),
                        verdict(it.verdict), str(it.blocks)] for it in run.results])
        body += "".join(shown(program, it) for it in run.results if it.reasons)
        body += "<h3>Never exercised</h3><p>" + html.escape(", ".join(never(run.results)) or "nothing") + "</p>\n"
    return page(TITLE, body)
