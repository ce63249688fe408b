"""`scard-bench import`: a capture becomes a trace, or a list of commands and answers."""
from __future__ import annotations

from typing import IO, Any, List, NamedTuple, Optional

from . import apdu_log, ccid_log, uart, uart_csv, usbmon
from .errors import Wrong
from .program import Program
from .trace import Trace

FORMATS = {
    "ccid-log": "the output of pcscd with the octets of libccid",
    "usbmon": "a capture of USB in a file of pcap or pcapng",
    "uart-csv": "a table of a logic analyser: Saleae Logic 1 and 2, or sigrok-cli",
    "apdu-log": "commands and answers: pcscd, OpenSC, opensc-tool, GlobalPlatformPro, pyscard, scriptor",
}


class Wishes(NamedTuple):
    """The options of an import."""

    reader: Optional[str] = None
    has_times: bool = False
    rate: Optional[int] = None
    choices: uart.Choices = uart.Choices()
    session: Optional[int] = None
    is_plain: bool = False


class Imported(NamedTuple):
    """What an import gives: the text, the answer to reset if the capture has it, and what is said at the end."""

    text: str
    atr: Optional[bytes]
    summary: List[str]


def opened(path: str, mode: str) -> IO[Any]:
    """An open file."""
    try:
        if "b" in mode:
            return open(path, mode)
        return open(path, mode, encoding="latin-1", newline=None)
    except OSError as error:
        raise Wrong(f"{error.strerror}") from None


def traced(name: str, path: str, program: Program, wishes: Wishes) -> Trace:
    """The trace of a capture."""
    with opened(path, "rb" if name == "usbmon" else "r") as file:
        if name == "ccid-log":
            trace = ccid_log.traced(file, wishes.reader, wishes.has_times)
        elif name == "usbmon":
            trace = usbmon.traced(file, wishes.reader, wishes.has_times)
        else:
            trace = uart.traced(uart_csv.read(file, wishes.rate), program, wishes.choices)
    trace.check()
    return trace


def imported(name: str, path: str, program: Program, wishes: Wishes) -> Imported:
    """The text of an import."""
    if name == "apdu-log":
        with opened(path, "r") as file:
            log = apdu_log.read(file)
        log.check()
        text = "".join(f"{command.hex().upper()} {answer.hex().upper()}\n" for command, answer in log.pairs)
        return Imported(text, log.atr, [f"{log.read} octets in, {log.read} in {len(log.pairs)} pairs"])
    return chosen(traced(name, path, program, wishes), wishes)


def chosen(trace: Trace, wishes: Wishes) -> Imported:
    """The sessions that a user asks for. One trace has one answer to reset."""
    sessions = trace.sessions
    if wishes.session is not None:
        if not 1 <= wishes.session <= len(sessions):
            raise Wrong(f"the capture has {len(sessions)} sessions, and no session {wishes.session}")
        sessions = [sessions[wishes.session - 1]]
    answers = {it.atr for it in sessions if it.atr is not None}
    if len(answers) > 1:
        raise Wrong(f"the capture has {len(answers)} different answers to reset: choose a session by --session, "
                    f"1 to {len(sessions)}")
    lines: List[str] = []
    for at, it in enumerate(sessions):
        lines += (["reset"] if at else []) + list(trace.text_of(it))
    if wishes.is_plain:
        lines = [line for line in lines if not line.startswith("#")]
    return Imported("".join(f"{line}\n" for line in lines), next(iter(answers), None), trace.summary())
