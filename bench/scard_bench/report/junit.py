"""A report as JUnit's XML, which servers of continuous integration read."""
from __future__ import annotations

import re
from typing import List, Sequence
from xml.sax.saxutils import escape, quoteattr

from ..suite.runner import Run
from ..suite.verdict import FAIL, INCONCLUSIVE, NOT_APPLICABLE, Result
from . import side
from .captures import OK, UNSURE, Capture

HEAD = '<?xml version="1.0" encoding="UTF-8"?>'

# characters that XML can't have
FORBIDDEN = re.compile("[^\t\n\r -\ud7ff\ue000-\ufffd]")


def clean(text: str) -> str:
    """A text that XML can have."""
    return FORBIDDEN.sub("?", text)


def place_of(run: Run) -> str:
    """The name under which servers list the scenarios of a run."""
    return ".".join(filter(None, (run.role, run.profile, run.name)))


def case(run: Run, it: Result) -> List[str]:
    """The lines of a scenario."""
    name = f"{it.scenario.identity}: {it.scenario.title} ({it.scenario.clause})"
    head = f"  <testcase classname={quoteattr(clean(place_of(run)))} name={quoteattr(clean(name))}"
    why = clean("; ".join(it.reasons))
    trace = clean("\n".join(it.trace))
    if it.verdict == FAIL:
        return [f"{head}>", f"    <failure message={quoteattr(why)}>{escape(trace)}</failure>", "  </testcase>"]
    if it.verdict in (INCONCLUSIVE, NOT_APPLICABLE):
        return [f"{head}>", f"    <skipped message={quoteattr(f'{it.verdict}: {why}')}/>", "  </testcase>"]
    return [f"{head}/>"]


def suite_of(name: str, cases: List[List[str]], said: Sequence[str] = ()) -> List[str]:
    """The element of some cases, with a text after them."""
    texts = ["\n".join(it) for it in cases]
    failed, skipped = (sum(f"<{word} " in it for it in texts) for word in ("failure", "skipped"))
    out = [f"  <system-out>{escape(clean(chr(10).join(said)))}</system-out>"] if said else []
    return [f'<testsuite name={quoteattr(clean(name))} tests="{len(texts)}" failures="{failed}" errors="0" '
            f'skipped="{skipped}">', *texts, *out, "</testsuite>"]


def file_of(lines: List[str]) -> str:
    """The file of an element."""
    return "\n".join([HEAD, *lines, ""])


def of_captures(found: Sequence[Capture]) -> str:
    """The file about captures, each of them a case."""
    cases = []
    for it in found:
        head = f"  <testcase classname=\"capture\" name={quoteattr(clean(it.name))}"
        why = quoteattr(clean("; ".join(it.said)))
        inside = [f"    <failure message={why}>{escape(clean(chr(10).join(it.trace)))}</failure>"]
        inside = [f"    <skipped message={why}/>"] if it.verdict == UNSURE else inside
        cases.append([f"{head}/>"] if it.verdict == OK else [f"{head}>", *inside, "  </testcase>"])
    return file_of(suite_of("scard-bench captures", cases, side.lines_of(side.of_captures(found))))


def of_run(run: Run) -> List[str]:
    """The element of a run."""
    return suite_of(f"scard-bench {place_of(run).replace('.', ' ')}", [case(run, it) for it in run.results])


def of_runs(runs: Sequence[Run]) -> str:
    """The file about one device, or about several: an element for each."""
    if len(runs) == 1:
        return text_of(runs[0])
    return file_of(["<testsuites>", *(line for run in runs for line in of_run(run)), "</testsuites>"])


def text_of(run: Run) -> str:
    """The file about one device."""
    return file_of(of_run(run))
