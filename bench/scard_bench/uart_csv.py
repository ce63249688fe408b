"""Tables of a logic analyser's decoder for a UART: Saleae Logic 1 and 2, and sigrok-cli."""
from __future__ import annotations

import csv
import re
import sys
from array import array
from typing import IO, Callable, Dict, Iterator, List, NamedTuple, Optional, Sequence, Tuple

from .errors import Wrong

MICRO = 1_000_000
# more seconds than any capture has
LONGEST = 1e8
MOST_CHANNELS = 16
PARITY, FRAMING = "parity error", "framing error"


class Seen(NamedTuple):
    """A character on the line: when it began, its octet, what is wrong with it, and which channel had it. The time is
    in microseconds, or in samples if nobody said how many samples are in a second."""

    start: int
    octet: int
    errors: Tuple[str, ...] = ()
    channel: str = ""
    line: int = 0

    @property
    def place(self) -> str:
        """Where it is in the file."""
        return f"line {self.line}"


def seconds(text: str, place: str) -> int:
    """A time in seconds as microseconds."""
    try:
        found = float(text)
        if not abs(found) < LONGEST:
            raise ValueError
        return int(found * MICRO)
    except ValueError:
        raise Wrong(f"{place}: not a time in seconds: {text[:30]!r}") from None


def octet(text: str, place: str) -> int:
    """An octet as these programs write it: 0x3B, 0b00111011 or 59. A character isn't read: not each octet has one."""
    text = text.strip().replace(" ", "")
    try:
        value = int(text, 0) if text[:2].lower() in ("0x", "0b") else int(text, 10)
    except ValueError:
        raise Wrong(f"{place}: not an octet in hexadecimal, binary or decimal digits: {text[:30]!r}") from None
    if not 0 <= value <= 255:
        raise Wrong(f"{place}: {text[:30]} isn't an octet")
    return value


def fields(row: Sequence[str], count: int, place: str) -> List[str]:
    """The fields of a row, which has as many as its heading."""
    if len(row) != count:
        raise Wrong(f"{place}: {len(row)} fields, where the heading has {count}")
    return list(row)


# ---- Saleae

def saleae_1(rows: Iterator[List[str]], heading: List[str]) -> Iterator[Seen]:
    """Rows of Logic 1: a time, a value, and a word in a column for each error."""
    for number, row in enumerate(rows, 2):
        if row:
            place = f"line {number}"
            time, value, parity, framing = fields(row, len(heading), place)[:4]
            errors = tuple(name for text, name in ((parity, PARITY), (framing, FRAMING)) if text.strip())
            yield Seen(seconds(time, place), octet(value, place), errors, "", number)


def saleae_2(rows: Iterator[List[str]], heading: List[str]) -> Iterator[Seen]:
    """Rows of Logic 2: the names of their columns are in the heading."""
    at = {name: place for place, name in enumerate(heading)}
    for number, row in enumerate(rows, 2):
        if not row:
            continue
        place = f"line {number}"
        values = fields(row, len(heading), place)
        if values[at["type"]] != "data":
            raise Wrong(f"{place}: the type of a frame of a UART is data, not {values[at['type']][:30]!r}")
        said = values[at["error"]].lower() if "error" in at else ""
        errors = tuple(name for word, name in (("parity", PARITY), ("framing", FRAMING)) if word in said)
        if said and not errors:
            raise Wrong(f"{place}: an unknown error: {said[:30]!r}")
        yield Seen(seconds(values[at["start_time"]], place), octet(values[at["data"]], place), errors,
                   sys.intern(values[at["name"]]), number)


HEADINGS: Dict[str, Callable[[Iterator[List[str]], List[str]], Iterator[Seen]]] = {
    "time [s],value,parity error,framing error": saleae_1, "name,type,start_time,duration,data": saleae_2}


# ---- sigrok

SIGROK = re.compile(r"(?:(?P<from>\d+)-\d+ )?(?P<name>uart-\d+): (?:(?P<kind>[rt]x-[a-z-]+): )?(?P<text>.*)$")
HEX = re.compile(r"[0-9A-F]{2}$")
ERRORS = {"Parity error": PARITY, "Frame error": FRAMING, "Parity err": PARITY, "Frame err": FRAMING}
# annotations that are no character, and say nothing wrong
QUIET = re.compile(r"(?:Start|Stop|Parity) bit|Break condition|Parity ok|[01]$")


def sigrok(lines: Iterator[str], rate: Optional[int]) -> Iterator[Seen]:
    """Lines of `sigrok-cli --protocol-decoder-samplenum -A uart`. An error is said before or after its character."""
    held: Optional[Seen] = None
    early: Dict[str, List[str]] = {}
    for number, line in enumerate(lines, 1):
        place = f"line {number}"
        if not line.strip():
            continue
        row = SIGROK.match(line.rstrip())
        if row is None or row["from"] is None:
            raise Wrong(f"{place}: no line of sigrok-cli --protocol-decoder-samplenum: {line.strip()[:40]!r}")
        channel = f"{row['name']} {(row['kind'] or 'rx')[:2]}"
        if row["text"] in ERRORS:
            early.setdefault(channel, []).append(ERRORS[row["text"]])
            continue
        if HEX.match(row["text"]):
            if held is not None:
                yield flagged(held, early)
            start = int(row["from"])
            held = Seen(start * MICRO // rate if rate else start, int(row["text"], 16), (), sys.intern(channel), number)
        elif not QUIET.match(row["text"]):
            raise Wrong(f"{place}: an unknown annotation: {row['text'][:40]!r}")
    if held is not None:
        yield flagged(held, early)


def flagged(it: Seen, early: Dict[str, List[str]]) -> Seen:
    """A character with the errors that came after it."""
    return it._replace(errors=tuple(early.pop(it.channel, ())))


# ---- all of them

class Table:
    """The characters of a file in the order of their times, each by its number, and whether the times are
    microseconds."""

    def __init__(self, has_times: bool) -> None:
        self.has_times = has_times
        self.starts, self.lines, self.places = array("q"), array("q"), array("H")
        self.octets = bytearray()
        self.names: List[str] = []
        self.errors: Dict[int, Tuple[str, ...]] = {}

    def __len__(self) -> int:
        return len(self.octets)

    def channel(self, at: int) -> str:
        """The channel of a character."""
        return self.names[self.places[at]]

    def adds(self, it: Seen) -> None:
        """Adds a character."""
        if it.channel not in self.names:
            self.names.append(it.channel)
        if len(self.names) > MOST_CHANNELS:
            raise Wrong(f"{it.place}: more than {MOST_CHANNELS} channels")
        if it.errors:
            self.errors[len(self)] = it.errors
        self.starts.append(it.start)
        self.lines.append(it.line)
        self.places.append(self.names.index(it.channel))
        self.octets.append(it.octet)

    def seen(self, at: int) -> Seen:
        """A character."""
        return Seen(self.starts[at], self.octets[at], self.errors.get(at, ()), self.channel(at), self.lines[at])


def read(file: IO[str], rate: Optional[int]) -> Table:
    """The characters of a file."""
    first = file.readline()
    file.seek(0)
    if SIGROK.match(first.rstrip()):
        return ordered(sigrok(iter(file), rate), rate is not None)
    rows = csv.reader(file)
    try:
        heading = [it.strip().strip('"').lower() for it in next(rows, [])]
        for words, reads in HEADINGS.items():
            if ",".join(heading).startswith(words):
                return ordered(reads(rows, heading), True)
    except csv.Error as error:
        raise Wrong(f"line {rows.line_num}: {error}") from None
    raise Wrong(f"line 1 isn't the heading of a table of Saleae or a line of sigrok-cli: {first.strip()[:60]!r}")


def ordered(seen: Iterator[Seen], has_times: bool) -> Table:
    """Characters whose times never fall; those of several channels are sorted."""
    found = Table(has_times)
    channels: Dict[str, int] = {}
    for it in seen:
        if it.start < channels.get(it.channel, it.start):
            raise Wrong(f"{it.place}: a time before the one above it")
        channels[it.channel] = it.start
        found.adds(it)
    return found if len(channels) < 2 else in_time(found)


def in_time(found: Table) -> Table:
    """The same characters by their times."""
    table = Table(found.has_times)
    for at in sorted(range(len(found)), key=found.starts.__getitem__):
        table.adds(found.seen(at))
    return table
