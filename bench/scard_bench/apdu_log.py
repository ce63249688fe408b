"""Logs of commands and answers, as clients and middleware write them."""
from __future__ import annotations

import re
from typing import IO, Callable, Dict, Iterator, List, NamedTuple, Optional

from .errors import Wrong

PAIRS = re.compile(r"(?:[0-9A-Fa-f]{2}(?: |$))+|(?:[0-9A-Fa-f]{2})+")
OCTET = re.compile(r"[0-9A-Fa-f]{2}")


class Said(NamedTuple):
    """A line of a log: whether it is a command, its first octets, how many octets it says that there are, and how many
    octets it says that end the answer."""

    is_command: bool
    octets: bytes
    told: Optional[int] = None
    status: bytes = b""


class Log:
    """The commands and answers of a log, with the octets that came in."""

    def __init__(self) -> None:
        self.pairs: List[List[bytes]] = []
        self.atr: Optional[bytes] = None
        self.read = self.in_atr = 0

    def check(self) -> None:
        """Compares the octets that came in with those that go out."""
        out = sum(len(it) for pair in self.pairs for it in pair) + self.in_atr
        if self.read != out:
            raise Wrong(f"{self.read} octets came in, and {out} go out")


def octets(text: str, place: str) -> bytes:
    """Octets of two digits, with blanks between them or none."""
    try:
        return bytes.fromhex(text.strip())
    except ValueError:
        raise Wrong(f"{place}: not octets of two digits: {text.strip()[:40]!r}") from None


# ---- each kind of log: what one line of it says

PCSCD = re.compile(r"(?:^|\s)(APDU|SW): ((?:[0-9A-F]{2} ?)*)$")
GP = re.compile(r"A(>>|<<)(?: T=\d)? \((\d+)\+(\d+)\)(?: \(\w+\))? ?(.*)$")
OPENSC = re.compile(r"(Outgoing|Incoming) APDU \((\d+) bytes?\):")
TOOL = re.compile(r"(?:Sending: (.*)|Received \(SW1=0x([0-9A-F]{2}), SW2=0x([0-9A-F]{2})\):?)$")
MARKS = re.compile(r"\s*(?:(=>|>>|->|>)|(<=|<<|<-|<))\s*(.*)$")
RESET = re.compile(r"OK: ((?:[0-9A-F]{2} ?)+)$")


def pcscd(line: str, place: str) -> Optional[Said]:
    """A line of `pcscd --apdu`."""
    found = PCSCD.search(line)
    if found is None and re.search(r"(?:^|\s)(?:APDU|SW): ", line):
        raise Wrong(f"{place}: not octets of two digits: {line.strip()[-40:]!r}")
    return Said(found[1] == "APDU", octets(found[2], place)) if found else None


def global_platform(line: str, place: str) -> Optional[Said]:
    """A line of GlobalPlatformPro with `-d`. A command says how many octets its header and its field have, an answer
    how many come before its status."""
    found = GP.search(line)
    if not found:
        return None
    groups = [octets(it, place) for it in found[4].split()]
    sizes, field = [len(it) for it in groups], int(found[3])
    is_command, all_of_it = found[1] == ">>", b"".join(groups)
    if is_command and not is_command_of(sizes, field):
        raise Wrong(f"{place}: groups of {sizes} octets, where the log says a field of {field}")
    if not is_command and len(all_of_it) != int(found[2]) + field:
        raise Wrong(f"{place}: {len(all_of_it)} octets, where the log says {int(found[2])} and {field}")
    return Said(is_command, all_of_it)


def is_command_of(sizes: List[int], field: int) -> bool:
    """Whether groups of octets are a header, the length of a field, a field of so many octets, and what is expected."""
    least = [4] if field == 0 else [4, sizes[1] if len(sizes) > 1 and sizes[1] in (1, 3) else 0, field]
    return sizes[:len(least)] == least and (sizes[len(least):] in ([], [1], [2], [3]))


def opensc(line: str, place: str) -> Optional[Said]:
    """A line of OpenSC's debug output. The octets are in the lines below it."""
    found = OPENSC.search(line)
    return Said(found[1] == "Outgoing", b"", int(found[2])) if found else None


def opensc_tool(line: str, place: str) -> Optional[Said]:
    """A line of `opensc-tool -s`. The answer without its status is in the lines below it."""
    found = TOOL.match(line.rstrip())
    if not found:
        return None
    if found[1] is not None:
        return Said(True, octets(found[1], place))
    return Said(False, b"", status=octets(found[2] + found[3], place))


def marked(line: str, place: str) -> Optional[Said]:
    """A line that begins with an arrow: pyscard, scriptor and many others. An answer may go on in the lines below."""
    found = MARKS.match(line.rstrip())
    if not found:
        return None
    text = found[3].split(" : ")[0].replace("[]", "").strip()
    if RESET.match(text) or not text or text == "RESET":
        return None
    words = [word.rjust(2, "0") if len(word) == 1 else word for word in text.split()]
    return Said(found[1] is not None, octets("".join(words), place))


KINDS: Dict[str, Callable[[str, str], Optional[Said]]] = {
    "OpenSC's debug output": opensc, "opensc-tool": opensc_tool, "GlobalPlatformPro": global_platform,
    "pcscd": pcscd, "arrows": marked}


def is_of(kind: str, line: str) -> bool:
    """Whether a kind of log has such a line, right or wrong."""
    try:
        return KINDS[kind](line, "") is not None
    except Wrong:
        return True


def kind_of(lines: Iterator[str]) -> str:
    """The first kind of log that a line of the text has, in the order of KINDS."""
    kinds, found = list(KINDS), None
    for line in lines:
        at = next((at for at, kind in enumerate(kinds) if is_of(kind, line)), None)
        if at is not None:
            found, kinds = kinds[at], kinds[:at]
    if found is None:
        raise Wrong("the file has no commands that this program finds")
    return found


def row_of(line: str, most: int) -> bytes:
    """The octets at the front of a row of a dump, at most so many: two digits and a blank each."""
    taken = bytearray()
    while len(taken) < min(most, 16) and OCTET.match(line[3 * len(taken):]):
        place = 3 * len(taken)
        if line[place + 2:place + 3] not in (" ", "\n", ""):
            break
        taken.append(int(line[place:place + 2], 16))
    return bytes(taken)


class Reading:
    """Takes the lines of one kind of log."""

    def __init__(self, kind: str) -> None:
        self.says, self.log = KINDS[kind], Log()
        self.has_rows = kind in ("OpenSC's debug output", "opensc-tool")
        self.goes_on = kind == "arrows"
        self.open: Optional[Said] = None
        self.begun = ""

    def takes(self, line: str, place: str) -> None:
        """Takes a line."""
        said = self.says(line, place)
        if said is not None:
            self.closes()
            self.open, self.begun = said, place
            self.log.read += len(said.octets) + len(said.status)
        elif self.open is not None and (self.has_rows or self.goes_on):
            self.goes(line, place)
        found = RESET.search(line.rstrip()) if self.goes_on else None
        if found:
            self.log.atr = octets(found[1], place)

    def goes(self, line: str, place: str) -> None:
        """A line below the one that is open, which may have more octets of it."""
        said = self.open
        assert said is not None
        room = 16 if said.told is None else said.told - len(said.octets)
        text = line.rstrip().split(" : ")[0] if self.goes_on else line
        more = octets(text, place) if self.goes_on and text and PAIRS.fullmatch(text + " ") else b""
        more = row_of(line, room) if self.has_rows else more
        self.log.read += len(more)
        if more:
            self.open = said._replace(octets=said.octets + more)
        elif said.told is None or said.told > len(said.octets):
            self.closes()

    def closes(self) -> None:
        """The command or answer that is open has all its octets."""
        said, self.open = self.open, None
        if said is None:
            return
        if said.told is not None and said.told != len(said.octets):
            raise Wrong(f"{self.begun}: {len(said.octets)} octets, where the log says {said.told}")
        pairs = self.log.pairs
        if said.is_command:
            if pairs and len(pairs[-1]) == 1:
                raise Wrong(f"{self.begun}: a command, where the answer to the one before has to be")
            pairs.append([said.octets])
        elif pairs and len(pairs[-1]) == 1:
            pairs[-1].append(said.octets + said.status)
        else:
            raise Wrong(f"{self.begun}: an answer without a command")


def read(file: IO[str]) -> Log:
    """The commands and answers of a log."""
    kind = kind_of(iter(file))
    file.seek(0)
    reading = Reading(kind)
    for number, line in enumerate(file, 1):
        reading.takes(line, f"line {number}")
    reading.closes()
    if reading.log.pairs and len(reading.log.pairs[-1]) == 1:
        raise Wrong(f"{reading.begun}: the log ends before the answer")
    return reading.log
