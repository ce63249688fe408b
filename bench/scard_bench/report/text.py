"""A report as lines."""
from __future__ import annotations

import collections
from typing import List, Sequence, Set

from ..suite.runner import Run
from ..suite.verdict import FAIL, INCONCLUSIVE, NOT_APPLICABLE, PASS, Result
from . import side

VERDICTS = (PASS, FAIL, INCONCLUSIVE, NOT_APPLICABLE)


def line_of(it: Result) -> str:
    """A scenario in a line, with its reasons below it."""
    name = f"{it.verdict:14} {it.scenario.identity:26} {it.scenario.title}"
    return "\n".join([name, *(f"{'':15}{why}" for why in it.reasons if it.verdict != PASS)])


def counts(results: List[Result]) -> str:
    """How many scenarios have each verdict."""
    found = collections.Counter(it.verdict for it in results)
    return ", ".join(f"{found[name]} {name}" for name in VERDICTS)


def never(results: List[Result]) -> List[str]:
    """The rules and states that no scenario exercised, if the judge was asked."""
    return sorted(known(results) - exercised(results))


def exercised(results: List[Result]) -> Set[str]:
    """The rules and states that some scenario exercised."""
    return {name for it in results for name in it.exercised}


def known(results: List[Result]) -> Set[str]:
    """All rules and states that the judge lists."""
    return {name for it in results for name in it.listed}


def summary(run: Run) -> List[str]:
    """The last lines of a report."""
    done = exercised(run.results)
    lines = [f"exercised at the {run.role}: {len(done)} of {len(known(run.results))} rules and states"]
    lines += [f"never exercised: {', '.join(never(run.results)) or 'none'}"]
    if run.waits and not run.notes:
        shortest, longest = run.waits
        lines.append(f"its blocks began {shortest} to {longest} microseconds after the end of the block before")
    return [*run.notes, *lines, f"{run.role}, profile {run.profile}: {counts(run.results)}"]


def of_runs(runs: Sequence[Run]) -> List[str]:
    """The report on several devices: a table with a column for each, and why what failed."""
    lines = side.lines_of(side.of_runs(runs))
    lines += [f"{run.name}: {it.scenario.identity}: {why}" for run in runs for it in run.results
              if it.verdict in (FAIL, INCONCLUSIVE) for why in it.reasons]
    return lines + [f"{run.name}: {line}" for run in runs for line in summary(run)]
