"""What a played scenario is worth: the judge names nothing, and the outcome is right."""
from __future__ import annotations

import re
from typing import Dict, List, NamedTuple, Tuple

from ..program import Program
from .play import Play
from .scenario import Scenario

PASS, FAIL, INCONCLUSIVE, NOT_APPLICABLE = "pass", "fail", "inconclusive", "not applicable"
SIDES = {"card": "c", "terminal": "t"}
MOST_REASONS = 6
LATE = re.compile(r"block \d+ card: late, (\d+) microseconds after block \d+, permitted (\d+) ")
ELSEWHERE = re.compile(r"block \d+ (card|terminal): another logical connection, not judged ")
LEFT_OPEN = re.compile(r"unsure \d+ blocks, not judged (\d+)(?:, damaged .*)?$")
COUNTED = re.compile(r"(rule|state) ([^:]+): (?:never|(?:terminal|card) .*)$")


class Result(NamedTuple):
    """A scenario with its verdict: why, the answer to reset, the trace, what of the rules it exercised, and how long the
    device waited before its blocks, if its times are its own."""

    scenario: Scenario
    verdict: str
    reasons: Tuple[str, ...] = ()
    atr: str = ""
    trace: Tuple[str, ...] = ()
    exercised: Tuple[str, ...] = ()
    listed: Tuple[str, ...] = ()
    waits: Tuple[int, ...] = ()

    @property
    def blocks(self) -> int:
        """How many blocks were sent."""
        return sum(line[:2] in ("t ", "c ") for line in self.trace)


class Judged(NamedTuple):
    """What the judge says: its lines about blocks, its last line, and what was exercised."""

    lines: Tuple[str, ...]
    last: str
    exercised: Tuple[str, ...]
    listed: Tuple[str, ...]


MEMORY: Dict[Tuple[str, str, int, str], Judged] = {}


def judged(program: Program, role: str, atr: str, clock: int, trace: List[str]) -> Judged:
    """What the judge says about one end of a trace, whose card has a clock of so many cycles in a second."""
    text = "".join(f"{line}\n" for line in trace)
    key = (role, atr, clock, text)
    if key not in MEMORY:
        words = ["judge", atr, "--end", role, "--clock", str(clock), "--rules"]
        *lines, last = program.answers(words, text)[0].splitlines() or ["nothing"]
        counted = [line for line in lines if COUNTED.match(line)]
        MEMORY[key] = Judged(tuple(line for line in lines if not COUNTED.match(line)), last,
                             tuple(line.split(":")[0] for line in counted if is_exercised(line, role)),
                             tuple(line.split(":")[0] for line in counted))
    return MEMORY[key]


def is_exercised(line: str, role: str) -> bool:
    """Whether a line of `--rules` counts blocks of this end."""
    found = re.search(rf"{role} (?:kept )?(\d+)(?: broken (\d+))?", line)
    return found is not None and any(int(it) for it in found.groups("0"))


def not_whole(program: Program, blocks: List[bytes]) -> List[str]:
    """The blocks of the device that aren't blocks: their LEN or their check octet is wrong."""
    lines = program.checked("block", blocks)
    return [f"it sent {it.hex().upper()[:80]}, which isn't a block: {line}" for it, line in zip(blocks, lines)
            if line != f"ok {len(it)} octets"]


def is_elsewhere(line: str, sides: Tuple[str, ...]) -> bool:
    """Whether a line of the judge names a block of one of these ends in another logical connection."""
    found = ELSEWHERE.match(line)
    return found is not None and found[1] in sides


def left_open(role: str, found: Judged) -> List[str]:
    """Why the judge isn't sure. The tester's blocks in another logical connection don't count: the scenario says what
    answers them."""
    tester = tuple(side for side in SIDES if side != role)
    rest = [it for it in found.lines if not is_elsewhere(it, tester)]
    only = LEFT_OPEN.match(found.last)
    if found.last.startswith("ok ") or only is not None and int(only[1]) == len(found.lines) - len(rest):
        return []
    return [*rest, found.last]


def unsure(play: Play, found: Judged) -> List[str]:
    """Why nothing can be said: the judge isn't sure, or a fault of the scenario never came."""
    late = [at for at in play.scenario.faults.at if at > play.line.count]
    lines = left_open(play.scenario.role, found)
    return lines + ([f"fault at block {min(late)} of {play.line.count}: it never came"] if late else [])


def is_within(line: str, tolerance: int) -> bool:
    """Whether a line of the judge names a card as late by no more than the port may have added."""
    found = LATE.match(line)
    return found is not None and int(found[1]) - int(found[2]) <= tolerance


def shortened(lines: List[str]) -> List[str]:
    """The first lines, each once, and how many more there are."""
    lines = list(dict.fromkeys(lines))
    more = len(lines) - MOST_REASONS
    return [*lines[:MOST_REASONS], f"and {more} more"] if more > 0 else lines


def result(program: Program, play: Play) -> Result:
    """The verdict on a scenario that was played to its end."""
    scenario, line = play.scenario, play.line
    atr = play.atr.hex().upper()
    found = judged(program, scenario.role, atr, play.device.timing.clock, line.lines)
    named = found.lines if not found.last.startswith(("ok ", "unsure ")) else ()
    reasons = [it for it in named if not is_within(it, play.device.tolerance) and not is_elsewhere(it, tuple(SIDES))]
    reasons += [found.last] if found.last.startswith(("refused", "fault")) else []
    reasons += play.problems + not_whole(program, line.sent_by(SIDES[scenario.role]))
    if scenario.most is not None and line.count > scenario.most:
        reasons.append(f"{line.count} blocks were sent, where {scenario.most} are enough")
    open_ = unsure(play, found)
    verdict = FAIL if reasons else INCONCLUSIVE if open_ else PASS
    said = shortened(reasons or open_)
    return Result(scenario, verdict, tuple(said), atr, tuple(line.lines), found.exercised, found.listed,
                  tuple(line.waits))


def broken(play: Play, why: str) -> Result:
    """The verdict on a scenario in which the device broke off."""
    return Result(play.scenario, FAIL, (why,), play.atr.hex().upper(), tuple(play.line.lines))
