"""A report as JSON."""
from __future__ import annotations

import json
from typing import Any, Dict, Sequence

from ..suite.runner import Run
from . import side
from .captures import Capture
from .text import VERDICTS, exercised, known, never


def of_captures(found: Sequence[Capture]) -> str:
    """The file about captures."""
    objects = [{**{name: value for name, value in it._asdict().items() if name != "picture"},
                "counts": side.counts(it)} for it in found]
    return written({"version": 1, "kind": "captures", "captures": objects, "table": side.of_captures(found)._asdict()})


def written(found: Dict[str, Any]) -> str:
    """The text of an object."""
    return json.dumps(found, indent=1) + "\n"


def of_runs(runs: Sequence[Run]) -> str:
    """The file about one device, or about several side by side."""
    if len(runs) == 1:
        return text_of(runs[0])
    return written({"version": 1, "kind": "suites", "table": side.of_runs(runs)._asdict(),
                    "suites": [object_of(run) for run in runs]})


def text_of(run: Run) -> str:
    """The file about one device."""
    return written(object_of(run))


def object_of(run: Run) -> Dict[str, Any]:
    """The object of a run."""
    return {
        "version": 1, "kind": "suite", "name": run.name, "role": run.role, "profile": run.profile,
        "command": run.command, "notes": list(run.notes), "waits": list(run.waits),
        "verdicts": {name: sum(it.verdict == name for it in run.results) for name in VERDICTS},
        "exercised": len(exercised(run.results)), "listed": len(known(run.results)), "never": never(run.results),
        "scenarios": [{"id": it.scenario.identity, "clause": it.scenario.clause, "topic": it.scenario.topic,
                       "title": it.scenario.title,
                       "verdict": it.verdict, "reasons": list(it.reasons), "atr": it.atr, "blocks": it.blocks,
                       "trace": list(it.trace)} for it in run.results],
    }
