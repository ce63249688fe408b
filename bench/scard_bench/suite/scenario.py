"""Scenarios are data: files of JSON in bench/scenarios. A declaration says what a device has and does."""
from __future__ import annotations

import json
import pathlib
from typing import Any, Dict, List, NamedTuple, Optional, Tuple

from ..errors import Wrong

FOLDER = pathlib.Path(__file__).resolve().parents[2] / "scenarios"
ROLES, PROFILES = ("card", "terminal"), ("iso", "emv")
NEEDS = ("abort", "node addresses", "ifs request", "wtx", "chained commands", "chained answers", "count", "repeats")
# what a device has only if its declaration says so
OPTIONAL = ("own times",)
TOPICS = ("node address", "rules 1 and 2.1", "chains", "WTX", "IFS", "RESYNCH", "rule 7.1", "rule 7.2", "rule 7.3",
          "rule 7.4", "ABORT", "times")
# those whose scenarios are tried over a serial port
PORT_TOPICS = ("rules 1 and 2.1", "times")
FIELDS = {"id", "clause", "topic", "title", "steps", "faults", "most", "needs", "profiles", "atr", "first"}
STEPS = {"exchange", "ifsd", "raw", "reply", "fresh", "reset", "send", "answer", "time", "ifsc", "may fail", "card",
         "blocks", "pauses"}
# microseconds that a terminal with times of its own waits at most for a silent card, unless it declares another number
LONGEST_WAIT = 10_000_000


class Faults(NamedTuple):
    """What the line does to blocks: by the number of a block, and to each block from a number on, 0 for none."""

    at: Dict[int, Any]
    since: int = 0
    rest: Any = None

    def of(self, number: int) -> Any:
        """The fault at a block."""
        return self.rest if self.since and number >= self.since else self.at.get(number)


def faults_of(it: Dict[str, Any]) -> Faults:
    """The faults of an object, whose keys are numbers. `5-` means the block 5 and all after it."""
    since = [key for key in it if key.endswith("-")]
    at = {int(key): fault for key, fault in it.items() if key not in since}
    return Faults(at, int(since[0][:-1]), it[since[0]]) if since else Faults(at)


class Scenario(NamedTuple):
    """A scenario: what the tester does, what happens on the line, and what has to come of it. `faults` is by the number
    of the block, of both ends, counted from 1. `most` is the most blocks that may be sent. `first` is a pattern of the
    first block of a terminal after a reset."""

    identity: str
    role: str
    clause: str
    topic: str
    title: str
    steps: List[Dict[str, Any]]
    faults: Faults
    most: Optional[int]
    needs: Tuple[str, ...]
    profiles: Tuple[str, ...]
    atr: str
    first: Optional[str]


def scenario_of(role: str, it: Dict[str, Any]) -> Scenario:
    """The scenario of an object."""
    name = it.get("id", "?")
    odd = sorted(set(it) - FIELDS) + sorted({key for step in it.get("steps", []) for key in step} - STEPS)
    odd += sorted(set(it.get("needs", [])) - {*NEEDS, *OPTIONAL})
    odd += sorted(set(it.get("profiles", [])) - set(PROFILES)) + sorted({it.get("topic", "no topic")} - set(TOPICS))
    if odd:
        raise Wrong(f"scenario {name}: unknown: {', '.join(odd)}")
    try:
        return Scenario(it["id"], role, it["clause"], it["topic"], it["title"], it["steps"],
                        faults_of(it.get("faults", {})), it.get("most"), tuple(it.get("needs", ())), tuple(it.get("profiles", PROFILES)),
                        it.get("atr", "3B808131204555"), it.get("first"))
    except (KeyError, ValueError) as error:
        raise Wrong(f"scenario {name}: {error}") from None


def scenarios(role: str, profile: str) -> List[Scenario]:
    """The scenarios of a role and a profile, in order."""
    found = [scenario_of(role, it) for it in loaded(FOLDER / f"{role}.json")["scenarios"]]
    if len({it.identity for it in found}) != len(found):
        raise Wrong(f"two scenarios of the {role} have one identity")
    return [it for it in found if profile in it.profiles]


def loaded(path: pathlib.Path) -> Dict[str, Any]:
    """The object of a file."""
    try:
        found = json.loads(path.read_text())
    except (OSError, ValueError) as error:
        raise Wrong(f"{path}: {error}") from None
    if not isinstance(found, dict):
        raise Wrong(f"{path}: no object")
    return found


class Declaration(NamedTuple):
    """What a device does: what it doesn't have, by the words of NEEDS and OPTIONAL, its commands with their answers by
    name, and how many microseconds it waits at most for a silent card."""

    without: Tuple[str, ...]
    commands: Dict[str, Tuple[bytes, bytes]]
    longest_wait: int = LONGEST_WAIT

    @property
    def has_own_times(self) -> bool:
        """Whether the device says itself how long it waits."""
        return "own times" not in self.without


def declaration(path: Optional[str]) -> Declaration:
    """The declaration in a file, over that of the card of bench/devices."""
    own = loaded(pathlib.Path(path)) if path else {}
    odd = sorted(set(own) - {"without", "with", "commands", "longest wait"})
    odd += sorted(set(own.get("without", [])) - set(NEEDS)) + sorted(set(own.get("with", [])) - set(OPTIONAL))
    if odd:
        raise Wrong(f"{path}: unknown: {', '.join(odd)}")
    commands = {**loaded(FOLDER / "commands.json")["commands"], **own.get("commands", {})}
    try:
        pairs = {name: (bytes.fromhex(one), bytes.fromhex(two)) for name, (one, two) in commands.items()}
    except (TypeError, ValueError):
        raise Wrong(f"{path}: a command is a list of two texts in hexadecimal") from None
    longest = own.get("longest wait", LONGEST_WAIT)
    if type(longest) is not int or longest < 1:
        raise Wrong(f"{path}: the longest wait is a number of microseconds above 0")
    lacks = [it for it in OPTIONAL if it not in own.get("with", ())]
    return Declaration((*own.get("without", ()), *lacks), pairs, longest)
