"""The trace of a line: sessions with the lines that `scard judge` reads, and a count of the octets."""
from __future__ import annotations

import collections
import re
from typing import Counter, Iterator, List, Optional

from .errors import Wrong

TERMINAL, CARD = "t", "c"
# what is written for octets that came with an error and that the capture doesn't show: a wrong check octet
DAMAGED = bytes.fromhex("00000001")
BLOCK = re.compile(r"[tc] ([0-9A-F]+)")
RESET = re.compile(r"# atr ([0-9A-F]+)")


class Session:
    """What was on a line after a reset of the card. `atr` is None if the capture begins later."""

    def __init__(self, atr: Optional[bytes]) -> None:
        self.atr = atr
        self.lines: List[str] = []
        self.at: Optional[int] = None


class Trace:
    """Sessions, what was guessed of them, and where each octet of the capture is."""

    def __init__(self, has_times: bool = False) -> None:
        self.sessions: List[Session] = []
        self.guesses: Counter[str] = collections.Counter()
        self.left: Counter[str] = collections.Counter()
        self.read = self.added = 0
        self.has_times = has_times

    # ---- what was on the line

    def reset(self, atr: bytes) -> None:
        """The card was reset, and answered."""
        self.sessions.append(Session(atr))

    def session(self) -> Session:
        """The session that runs."""
        if not self.sessions:
            self.sessions.append(Session(None))
        return self.sessions[-1]

    def moment(self, microseconds: Optional[int]) -> None:
        """What comes next began at this moment."""
        if self.has_times and microseconds is not None:
            self.session().at = max(microseconds, 0)

    def block(self, side: str, octets: bytes, arrived: Optional[bytes] = None) -> None:
        """Octets of an end, and what of them arrived if it is known."""
        came = "" if arrived is None else f" as {arrived.hex().upper()}"
        session = self.session()
        if session.at is not None:
            session.lines.append(f"at {session.at}")
            session.at = None
        session.lines.append(f"{side} {octets.hex().upper()}{came}")

    def unseen(self, side: str, why: str) -> None:
        """An end sent octets that the capture doesn't show."""
        text = DAMAGED.hex().upper()
        self.guess(why, f"{why}, and the capture doesn't show the octets: {text} is written for them")
        self.added += len(DAMAGED)
        self.block(side, DAMAGED)

    def quiet(self) -> None:
        """The terminal's waiting time ended."""
        self.session().lines.append("quiet")

    # ---- what is said about it

    def remark(self, text: str) -> None:
        """A remark before what comes next."""
        self.session().lines.append(f"# {text}")

    def guess(self, kind: str, text: str, count: int = 1) -> None:
        """A remark about what the capture doesn't show."""
        self.guesses[kind] += count
        self.remark(f"guessed: {text}")

    def leave(self, name: str, octets: int) -> None:
        """Octets of the capture that are in no block."""
        if octets:
            self.left[name] += octets

    # ---- what comes out

    def text_of(self, session: Session) -> Iterator[str]:
        """The lines of a session."""
        if session.atr is None:
            yield "begins unknown"
        else:
            yield f"# atr {session.atr.hex().upper()}"
        yield from session.lines

    def check(self) -> None:
        """Compares the octets that came in with those that go out."""
        out = sum(written(line) for session in self.sessions for line in self.text_of(session)) - self.added
        left = sum(self.left.values())
        if self.read != out + left:
            raise Wrong(f"{self.read} octets came in, but {out} are in the trace and {left} outside of it")

    def summary(self) -> List[str]:
        """What is said at the end: the octets, and what was guessed."""
        left = sum(self.left.values())
        lines = [f"{self.read} octets in, {self.read - left} in the trace, {left} outside of it"]
        lines += [f"  outside: {count} octets of {name}" for name, count in sorted(self.left.items())]
        lines += [f"{sum(self.guesses.values())} guessed"]
        return lines + [f"  guessed: {count} times {kind}" for kind, count in sorted(self.guesses.items())]


def written(line: str) -> int:
    """How many octets of the capture a line of a trace has."""
    found = BLOCK.match(line) or RESET.match(line)
    return len(found[1]) // 2 if found else 0
