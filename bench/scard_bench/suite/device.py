"""The device under test: a command that talks lines on its standard streams (docs/BENCH.md)."""
from __future__ import annotations

import re
import selectors
import subprocess
import time
from typing import List, NamedTuple, Optional, Protocol

from ..errors import Wrong
from .line import Timing

BLOCK = re.compile(r"(?:[0-9A-Fa-f]{2})+$")
LINE = re.compile(r"(?:(answer) ((?:[0-9A-Fa-f]{2})+)|(failed|reset|-)|((?:[0-9A-Fa-f]{2})+))$")
WAIT = re.compile(r"wait (\d{1,12})$")
# more lines `wait` in a row than a device needs
MOST_WAITS = 1000
LONGEST_LINE = 1 << 20


class Broken(Exception):
    """The device said nothing within the limit, ended, or said what is no line of the form."""


class Reply(NamedTuple):
    """What a device says: the microseconds that it waited, a word, octets, and what was wrong with how they came."""

    waited: int
    word: str
    octets: bytes = b""
    problem: str = ""

    @property
    def is_block(self) -> bool:
        """Whether it sends octets."""
        return self.word == "block"


class Talks(Protocol):
    """What the suite talks with. `tolerance` is how many microseconds its waits may seem longer than they are."""

    timing: Timing
    tolerance: int

    def asks(self, line: str) -> Reply:
        """Says a line to the device, and returns its reply."""

    def ends(self) -> None:
        """Ends the device. The next line starts it again."""


def reply_of(line: str, waited: int) -> Reply:
    """The reply in a line."""
    found = LINE.match(line)
    if not found:
        raise Broken(f"it said {line[:60]!r}, which is no line of the form")
    if found[1]:
        return Reply(waited, "answer", bytes.fromhex(found[2]))
    if found[3]:
        return Reply(waited, {"-": "nothing"}.get(found[3], found[3]))
    return Reply(waited, "block", bytes.fromhex(found[4]))


class Device:
    """A running device. `limit` is the real time in seconds within which it has to say a line."""

    timing, tolerance = Timing(), 0

    def __init__(self, command: List[str], limit: float) -> None:
        self.command, self.limit = command, limit
        self.process: Optional[subprocess.Popen[bytes]] = None
        self.rest = b""

    def starts(self) -> None:
        """Starts the device unless it runs."""
        if self.process is not None:
            return
        try:
            self.process = subprocess.Popen(self.command, stdin=subprocess.PIPE, stdout=subprocess.PIPE, bufsize=0)
        except OSError as error:
            raise Wrong(f"{self.command[0]}: {error.strerror}") from None
        self.rest = b""

    def asks(self, line: str) -> Reply:
        """Says a line to the device, and returns its reply."""
        self.starts()
        assert self.process is not None and self.process.stdin is not None
        try:
            self.process.stdin.write(f"{line}\n".encode())
        except OSError:
            raise Broken("it ended") from None
        waited = 0
        for _ in range(MOST_WAITS):
            said = self.reads(line)
            found = WAIT.match(said)
            if not found:
                return reply_of(said, waited)
            waited += int(found[1])
        raise Broken(f"it said `wait` {MOST_WAITS} times in a row")

    def reads(self, asked: str) -> str:
        """One line of the device."""
        end = time.monotonic() + self.limit
        assert self.process is not None and self.process.stdout is not None
        with selectors.DefaultSelector() as selector:
            selector.register(self.process.stdout, selectors.EVENT_READ)
            while b"\n" not in self.rest:
                left = end - time.monotonic()
                if left <= 0 or not selector.select(left):
                    raise Broken(f"it said nothing within {self.limit:g} seconds after `{asked[:60]}`")
                octets = self.process.stdout.read(65536)
                if not octets:
                    raise Broken("it ended")
                self.rest += octets
                if len(self.rest) > LONGEST_LINE:
                    raise Broken("its line has no end")
        line, self.rest = self.rest.split(b"\n", 1)
        return line.decode("latin-1").strip()

    def ends(self) -> None:
        """Ends the device."""
        if self.process is not None:
            self.process.kill()
            self.process.communicate()
            self.process = None
