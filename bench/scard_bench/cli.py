"""The words of scard-bench."""
from __future__ import annotations

import argparse
import os
import pathlib
import shlex
import sys
from typing import Callable, Dict, List, NamedTuple, Optional

from . import imports, uart
from .errors import Wrong
from .program import Program
from .report import as_json, capture_page, captures, junit, page, side, text
from .suite import runner, scenario, verdict
from .suite.device import Device


def parser() -> argparse.ArgumentParser:
    """What the words may be."""
    top = argparse.ArgumentParser(prog="scard-bench", description=__doc__, allow_abbrev=False)
    top.add_argument("--scard", metavar="PATH",
                     help="the program scard; without it the one beside this command or on the PATH")
    subs = top.add_subparsers(dest="what", required=True)
    one = subs.add_parser("import", help="prints the trace of a capture, which scard judge takes", allow_abbrev=False)
    add_capture(one)
    one.add_argument("--atr", action="store_true", help="print the answer to reset alone")
    one = subs.add_parser("report", help="says what the judge says about captures", allow_abbrev=False)
    add_capture(one, True)
    one.add_argument("--answer", metavar="ATR", help="the answer to reset, if the capture doesn't have it")
    add_files(one)
    add_suite(subs.add_parser("suite", help="tries a device under test by scenarios", allow_abbrev=False))
    return top


def add_suite(one: argparse.ArgumentParser) -> None:
    """The words of the suite."""
    one.add_argument("--role", choices=scenario.ROLES, required=True, help="what the device is")
    one.add_argument("--profile", choices=scenario.PROFILES, default="iso")
    one.add_argument("--declare", action="append", default=[], metavar="[NAME=]FILE",
                     help="what the device has and doesn't have, and its commands; of one device by its name")
    one.add_argument("--device", action="append", default=[], metavar="NAME=COMMAND",
                     help="a device beside others, in place of -- COMMAND; may come again")
    one.add_argument("--serial", metavar="PORT", help="a card at this serial port; its times are judged, and no more")
    one.add_argument("--baud", type=positive, default=9600, metavar="N", help="the speed of the port")
    one.add_argument("--clock", type=positive, metavar="HZ", help="the card's clock at the port, if it isn't 372 x N")
    one.add_argument("--tolerance", type=positive, default=20_000, metavar="US",
                     help="microseconds that the driver of the port may add to a moment")
    one.add_argument("--limit", type=float, default=5.0, metavar="SECONDS", help="real time for a line of the device")
    one.add_argument("--only", action="append", metavar="ID", help="this scenario alone; may come again")
    one.add_argument("--list", action="store_true", help="list the scenarios, and run nothing")
    one.add_argument("--topics", action="store_true", help="list how many scenarios each topic has, and run nothing")
    add_files(one)
    one.add_argument("command", nargs="*", metavar="COMMAND", help="the device, after --")


def add_files(one: argparse.ArgumentParser) -> None:
    """The files that a report may become, beside its text."""
    for name, what in (("junit", "XML of JUnit"), ("json", "JSON"), ("html", "one page that loads nothing")):
        one.add_argument(f"--{name}", metavar="FILE", help=f"write the report as {what} too")


def add_capture(one: argparse.ArgumentParser, is_many: bool = False) -> None:
    """The words about a capture, or about many."""
    one.add_argument("format", choices=list(imports.FORMATS), metavar="FORMAT", help=", ".join(imports.FORMATS))
    if is_many:
        one.add_argument("file", metavar="FILE", nargs="+")
    else:
        one.add_argument("file", metavar="FILE")
    one.add_argument("--session", type=int, metavar="N", help="the Nth session alone, counted from 1")
    one.add_argument("--reader", metavar="NAME", help="the reader, if a capture has several")
    one.add_argument("--times", action="store_true", help="the moments at which the host wrote and read")
    one.add_argument("--plain", action="store_true", help="no remarks, as scard record needs it")
    one.add_argument("--rate", type=positive, metavar="HZ", help="samples in a second, for sigrok-cli")
    one.add_argument("--terminal", metavar="CHANNEL", help="the channel of the terminal")
    one.add_argument("--card", metavar="CHANNEL", help="the channel of the card")
    one.add_argument("--pause", type=positive, metavar="US", help="a longer pause ends a block")
    one.add_argument("--waiting", type=positive, metavar="US", default=uart.Choices().waiting,
                     help="after this silence the terminal's waiting time ended")


def positive(text: str) -> int:
    """A number above 0."""
    value = int(text)
    if value < 1:
        raise argparse.ArgumentTypeError("not above 0")
    return value


def wishes_of(words: argparse.Namespace) -> imports.Wishes:
    """The options about a capture."""
    choices = uart.Choices(words.terminal, words.card, words.pause, words.waiting)
    return imports.Wishes(words.reader, words.times, words.rate, choices, words.session, words.plain)


def read(words: argparse.Namespace, path: str, program: Program) -> imports.Imported:
    """What the import of a file gives."""
    try:
        return imports.imported(words.format, path, program, wishes_of(words))
    except Wrong as wrong:
        raise Wrong(f"{path}: {wrong}") from None


def runs_import(words: argparse.Namespace) -> int:
    """Prints a trace."""
    found = read(words, words.file, Program(words.scard))
    if words.atr:
        if found.atr is None:
            raise Wrong(f"{words.file}: the capture has no answer to reset")
        print(found.atr.hex().upper())
        return 0
    sys.stdout.write(found.text)
    sys.stdout.flush()
    print(*found.summary, sep="\n", file=sys.stderr)
    return 0


def scenarios_of(words: argparse.Namespace) -> List[scenario.Scenario]:
    """The scenarios that the words ask for."""
    found = scenario.scenarios(words.role, words.profile)
    if words.serial:
        found = [it for it in found if it.topic in scenario.PORT_TOPICS]
    unknown = sorted(set(words.only or ()) - {it.identity for it in found})
    if unknown:
        raise Wrong(f"there is no scenario {', '.join(unknown)} of this role and profile"
                    f"{' for a port' if words.serial else ''}")
    return [it for it in found if not words.only or it.identity in words.only]


class Named(NamedTuple):
    """A device under test: its name, which is empty if there is one alone, its command, and its declaration."""

    name: str
    command: List[str]
    declared: scenario.Declaration


def lists(words: argparse.Namespace, found: List[scenario.Scenario]) -> int:
    """Prints the scenarios, or how many each topic has."""
    if words.topics:
        counts = [(topic, sum(it.topic == topic for it in found)) for topic in scenario.TOPICS]
        print(*(f"{topic:16} {count:4}" for topic, count in [*counts, ("all", len(found))]), sep="\n")
    else:
        print(*(f"{it.identity:26} {it.clause:20} {it.topic:16} {it.title}" for it in found), sep="\n")
    return 0


def devices_of(words: argparse.Namespace) -> List[Named]:
    """The devices that the words name."""
    if bool(words.command) == bool(words.device):
        raise Wrong("name the device under test by -- COMMAND, or several by --device NAME=COMMAND")
    commands = {name: text for name, equals, text in (it.partition("=") for it in words.device) if name and equals}
    if len(commands) != len(words.device):
        raise Wrong("a --device is NAME=COMMAND, and each NAME comes once")
    try:
        split = {name: shlex.split(text) for name, text in commands.items()}
    except ValueError as error:
        raise Wrong(f"a --device can't be split into words: {error}") from None
    if not all(split.values()):
        raise Wrong("a --device has no command")
    named = list(split.items()) or [("", words.command)]
    return [Named(name, command, declared(words, name, commands)) for name, command in named]


def declared(words: argparse.Namespace, name: str, names: Dict[str, str]) -> scenario.Declaration:
    """The declaration of a device: the last file that has its name, or else the last that has none."""
    pairs = [it.partition("=")[::2] if it.partition("=")[0] in names else ("", it) for it in words.declare]
    own = [path for of, path in pairs if of == name] or [path for of, path in pairs if not of]
    return scenario.declaration(own[-1] if own else None)


def runs_suite(words: argparse.Namespace) -> int:
    """Runs the suite, and prints its report."""
    found = scenarios_of(words)
    if words.list or words.topics:
        return lists(words, found)
    program = Program(words.scard)
    runs = [runs_port(words, program, found)] if words.serial else runs_devices(words, program, found)
    print(*(text.summary(runs[0]) if not runs[0].name else text.of_runs(runs)), sep="\n")
    writes(words, {"junit": lambda: junit.of_runs(runs), "json": lambda: as_json.of_runs(runs),
                   "html": lambda: page.text_of(program, runs)})
    return max(run.status for run in runs)


def runs_port(words: argparse.Namespace, program: Program, found: List[scenario.Scenario]) -> runner.Run:
    """Tries a card at a serial port."""
    from .suite import serial  # only systems with termios have it
    if words.role != "card" or words.command or words.device:
        raise Wrong("--serial is for one card, without a command")
    port = serial.Port(program, serial.Settings(words.serial, words.baud, words.limit, words.tolerance, words.clock))
    its = declared(words, "", {})
    its = its._replace(without=tuple(it for it in its.without if it != "own times"))
    done = runner.results(program, port, found, its, shows)
    return runner.Run(words.role, words.profile, [words.serial], done, notes=port.notes())


def shows(it: verdict.Result) -> None:
    """Prints a result as soon as it is there."""
    print(text.line_of(it), flush=True)


def runs_devices(words: argparse.Namespace, program: Program, found: List[scenario.Scenario]) -> List[runner.Run]:
    """Tries each device. The results of one alone are printed as they come."""
    runs = []
    for it in devices_of(words):
        device = Device(it.command, words.limit)
        done = runner.results(program, device, found, it.declared, None if it.name else shows)
        runs.append(runner.Run(words.role, words.profile, it.command, done, it.name))
    return runs


def runs_report(words: argparse.Namespace) -> int:
    """Imports captures and prints what the judge says about them."""
    if words.format == "apdu-log":
        raise Wrong("a log of commands has no blocks to judge")
    program = Program(words.scard)
    found = [captures.capture(program, name, read(words, name, program), words.answer) for name in words.file]
    for it in found:
        print(*captures.lines_of(it), sep="\n")
    if len(found) > 1:
        print(*side.lines_of(side.of_captures(found)), sep="\n")
    writes(words, {"junit": lambda: junit.of_captures(found), "json": lambda: as_json.of_captures(found),
                   "html": lambda: capture_page.html_of(found)})
    return captures.status_of(found)


def writes(words: argparse.Namespace, texts: Dict[str, Callable[[], str]]) -> None:
    """Writes the files that the words ask for."""
    for name, made in texts.items():
        path = getattr(words, name)
        if path:
            try:
                pathlib.Path(path).write_text(made())
            except OSError as error:
                raise Wrong(f"{path}: {error.strerror}") from None


Runs = Dict[str, Callable[[argparse.Namespace], int]]
RUNS: Runs = {"import": runs_import, "report": runs_report, "suite": runs_suite}


def main(arguments: List[str], runs: Optional[Runs] = None) -> int:
    """Runs the words. What is wrong with them or with an input is one line on standard error, with status 2."""
    words = parser().parse_args(arguments)
    try:
        return (runs or RUNS)[words.what](words)
    except Wrong as wrong:
        print(f"scard-bench: {wrong}", file=sys.stderr)
        return 2
    except BrokenPipeError:
        os.dup2(os.open(os.devnull, os.O_WRONLY), sys.stdout.fileno())
        return 2
