"""What the program says about captures."""
from __future__ import annotations

from typing import List, NamedTuple, Optional, Sequence, Tuple

from ..imports import Imported
from ..program import Program

# the octets of a trace that the program takes, and how many more a piece may have before it is cut within a session
LONGEST, ROOM = 3_900_000, 200_000
COUNTED = ("rule ", "state ")
OK, DEVIATES, UNSURE, REFUSED = "ok", "deviates", "unsure", "refused"


class Capture(NamedTuple):
    """A capture and what the program says about it."""

    name: str
    verdict: str
    atr: str
    about_atr: Tuple[str, ...]
    said: Tuple[str, ...]
    exchanges: Tuple[str, ...]
    counted: Tuple[str, ...]
    summary: Tuple[str, ...]
    picture: str
    trace: Tuple[str, ...]


def sessions_of(text: str) -> List[str]:
    """The sessions of a trace, each without remarks."""
    kept = [line for line in text.splitlines() if not line.startswith("#")]
    found: List[List[str]] = [[]]
    for line in kept:
        if line == "reset":
            found.append([])
        else:
            found[-1].append(line)
    return ["".join(f"{line}\n" for line in it) for it in found if it]


def pieces(text: str) -> List[str]:
    """A trace in pieces that the program takes. A piece that begins within a session says so."""
    found: List[List[str]] = [[]]
    size = 0
    for line in text.splitlines(True):
        if size + len(line) > LONGEST and (line == "reset\n" or size + len(line) > LONGEST + ROOM):
            found.append([] if line == "reset\n" else ["begins unknown\n"])
            size = 0
        found[-1].append(line)
        size += len(line)
    return ["".join(it) for it in found]


def judged(program: Program, atr: str, text: str) -> Tuple[List[str], int]:
    """What the judge says, and its worst status. A trace that is too long is judged in pieces, by name."""
    texts = pieces(text)
    answers = [program.answers(["judge", atr, "--rules"], it) for it in texts]
    lines = [[f"piece {number}: {line}" if len(texts) > 1 and not line.startswith(COUNTED) else line
              for line in said.splitlines()] for number, (said, _) in enumerate(answers, 1)]
    return [line for it in lines for line in it], max(status for _, status in answers)


def recorded(program: Program, atr: str, text: str) -> List[str]:
    """The file of each session that `scard record` follows."""
    files = [program.answers(["record", atr], it.replace("begins unknown\n", "")) for it in sessions_of(text)]
    return [file for file, status in files if status == 0]


def meaning(program: Program, line: str) -> str:
    """A line of `scard apdus` with the note on the status of its answer."""
    answer = line.split(" answer ")[1].split()[0]
    if len(answer) < 4 or not set(answer) <= set("0123456789ABCDEF"):
        return line
    said, _ = program.answers(["show", "response", answer[-4:], "--notes"])
    return f"{line}  {said.splitlines()[-1]}"


def kind_of(last: str) -> str:
    """The verdict of the judge's last line, if its status isn't 0."""
    word = last.split(": ", 1)[1] if last.startswith("piece ") else last
    return UNSURE if word.startswith("unsure") else REFUSED if word.startswith(("refused", "fault")) else DEVIATES


def capture(program: Program, name: str, found: Imported, atr: Optional[str]) -> Capture:
    """What the program says about a capture."""
    answer = atr or (found.atr.hex().upper() if found.atr else "")
    about, _ = program.answers(["show", "atr", answer or "none", "--notes"])
    lines, status = judged(program, answer or "none", found.text)
    counted = [it for it in lines if it.startswith(COUNTED)]
    files = recorded(program, answer, found.text) if answer else []
    exchanges = [line for file in files for line in program.answers(["apdus"], file)[0].splitlines()]
    picture = program.answers(["draw", "--svg"], files[-1])[0] if files else ""
    last = lines[-1] if lines else "refused"
    kind = OK if status == 0 else kind_of(last)
    return Capture(name, kind, answer, tuple(about.splitlines()), tuple(it for it in lines if it not in counted),
                   tuple(meaning(program, it) for it in exchanges), tuple(counted), tuple(found.summary), picture,
                   tuple(found.text.splitlines()))


def status_of(found: Sequence[Capture]) -> int:
    """0 if nothing deviates, 1 if something does or is unsure, 2 if the program refuses a capture."""
    kinds = {it.verdict for it in found}
    return 2 if REFUSED in kinds else 1 if kinds - {OK} else 0


def lines_of(it: Capture) -> List[str]:
    """The report on a capture as lines."""
    return [f"{it.verdict}: {it.name}", *(f"  {line}" for line in it.said), *(f"  {line}" for line in it.summary),
            *(f"  {line}" for line in it.exchanges)]
