"""Runs the scenarios of a role with a device."""
from __future__ import annotations

from typing import Callable, List, NamedTuple, Optional, Sequence, Tuple

from ..program import Program
from .device import Broken, Talks
from .play import PLAYS
from .scenario import Declaration, Scenario
from .verdict import FAIL, NOT_APPLICABLE, Result, broken, result


class Run(NamedTuple):
    """A run of the suite: the role, the profile, the device's command, the results in order, the device's name, which
    is empty if it is the only one, and what is said about a port."""

    role: str
    profile: str
    command: List[str]
    results: List[Result]
    name: str = ""
    notes: Tuple[str, ...] = ()

    @property
    def waits(self) -> Tuple[int, ...]:
        """The shortest and the longest wait of the device before a block, in microseconds, or nothing."""
        found = [one for it in self.results for one in it.waits]
        return (min(found), max(found)) if found else ()

    @property
    def status(self) -> int:
        """0 if nothing failed and something passed, 1 if a scenario failed or no scenario passed."""
        verdicts = [it.verdict for it in self.results]
        return 0 if FAIL not in verdicts and "pass" in verdicts and "inconclusive" not in verdicts else 1


def played(program: Program, device: Talks, scenario: Scenario, declaration: Declaration) -> Result:
    """The result of one scenario."""
    lacks = [it for it in scenario.needs if it in declaration.without]
    if lacks:
        return Result(scenario, NOT_APPLICABLE, (f"declared without {', '.join(lacks)}",))
    play = PLAYS[scenario.role](program, device, scenario, declaration)
    try:
        play.runs()
    except Broken as why:
        device.ends()
        return broken(play, str(why))
    if play.problems:
        # the device may be within an exchange
        device.ends()
    return result(program, play)


def results(program: Program, device: Talks, found: Sequence[Scenario], declaration: Declaration,
            shown: Optional[Callable[[Result], None]] = None, is_first: bool = False) -> List[Result]:
    """The results of scenarios. With `is_first` no scenario comes after one that failed."""
    done: List[Result] = []
    try:
        for scenario in found:
            done.append(played(program, device, scenario, declaration))
            if shown:
                shown(done[-1])
            if is_first and done[-1].verdict == FAIL:
                break
    finally:
        device.ends()
    return done
