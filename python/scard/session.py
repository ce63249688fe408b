"""Sessions of T=1: an end with the times, bursts and limits of its line. The library decides all of it. The steps do no
input and no output, and the classes over them only send, wait, and say what happened."""
from __future__ import annotations

import threading
import time
from dataclasses import dataclass
from types import TracebackType
from typing import Any, Callable, Optional, Protocol, Tuple, Type, Union, cast

from . import _scard
from ._errors import CallRefused, InUse, NoAnswer
from ._numbers import Event, TurnKind
from ._octets import Octets, Value
from .atr import T1
from .ends import LONGEST_ANSWER, LONGEST_COMMAND
from .framing import FOREVER

BURST_ROOM = 259
"""How many octets a session asks a line for at once. A line may return more."""

_GOES_ON = (TurnKind.SEND, TurnKind.SESSION_WAIT)


@dataclass(frozen=True)
class Setup:
    """The numbers of a session: the parameters of T=1, the integers Fi and Di in use, and the card's clock in hertz.

    `silence` ends a burst that is a whole block, in microseconds: 0 means BGT, and FOREVER is for a line that delivers
    whole bursts. `most_microseconds` and `most_blocks` limit an exchange of a terminal; 0 means the library's limits.
    `echo` is for a line that returns what is sent on it. `refuses_empty` makes an I-block without information a damaged
    block. With `host_takes_short` the host of a card also gets messages of fewer than four octets. docs/C.md and
    docs/WIRING.md describe all of them.
    """

    t1: T1
    fi: int = 372
    di: int = 1
    hertz: int = 3571200
    silence: int = 0
    most_microseconds: int = 0
    most_blocks: int = 0
    echo: bool = False
    refuses_empty: bool = False
    host_takes_short: bool = False
    command_room: int = LONGEST_COMMAND
    answer_room: int = LONGEST_ANSWER

    def _plain(self, has_clock: bool) -> Tuple[int, ...]:
        return (self.silence, self.most_microseconds, self.hertz, self.most_blocks, self.fi, self.di, self.t1.ifsc,
                self.t1.bwi, self.t1.cwi, has_clock, self.echo, self.refuses_empty, self.host_takes_short)


@dataclass(frozen=True)
class Step(Value):
    """What to do next. At SEND, send `octets`, and then report SENT or FAILED. At SESSION_WAIT, wait for octets, at
    most `wait` microseconds, or without limit if that is FOREVER, and then report another event. At any other kind the
    session rests. At DONE and SESSION_NO_STATUS, `octets` is the answer, or at a card the command."""

    __slots__ = ("kind", "wait", "octets")
    kind: TurnKind
    wait: int
    octets: bytes

    @property
    def rests(self) -> bool:
        """Whether the session rests."""
        return self.kind not in _GOES_ON


class _Steps:
    """What the steps of both ends have in common."""

    __slots__ = ("_session",)
    _session: Any

    @staticmethod
    def _close(session: Any) -> None:
        raise NotImplementedError

    def close(self) -> None:
        """Overwrites the last messages. After it, other calls raise Closed."""
        self._close(self._session)

    def __reduce__(self) -> Any:
        raise TypeError("a session can't be pickled or copied")


class SessionSteps(_Steps):
    """A terminal's session as steps, for a program with a loop of its own. `now` is the program's clock in
    microseconds. Without a clock, pass 0 each time, and set `has_clock` to false.

    >>> steps = SessionSteps(Setup(T1(ifsc=32, bwi=4, cwi=13)))
    >>> steps.exchange(bytes.fromhex("00A4040000"), now=0)
    Step(kind=<TurnKind.SESSION_WAIT: 68>, wait=0, octets=b'')
    >>> steps.step(Event.SILENT, b"", now=0).wait
    2292
    >>> steps.step(Event.SILENT, b"", now=2292).octets.hex()
    '00000500a4040000a5'
    >>> steps.step(Event.SENT, b"", now=13542).wait
    1601146
    """

    __slots__ = ()

    @staticmethod
    def _close(session: Any) -> None:
        _scard.session_close(session)

    def __init__(self, setup: Setup, has_clock: bool = True) -> None:
        self._session = _scard.session_new(setup._plain(has_clock), setup.command_room, setup.answer_room)

    def exchange(self, command: Octets, now: int) -> Step:
        """Begins to send a command."""
        return _scard.session_exchange(self._session, command, 0, now)

    def ask_ifs(self, size: int, now: int) -> Step:
        """Begins to tell the card the largest field that the terminal accepts, 1 to 254 octets."""
        return _scard.session_ask_ifs(self._session, b"", size, now)

    def resync(self, now: int) -> Step:
        """Begins anew with a card that can't be reset."""
        return _scard.session_resync(self._session, b"", 0, now)

    def step(self, event: Event, octets: Octets, now: int) -> Step:
        """Takes what happened. Only CAME and GARBLED have octets."""
        return _scard.session_step(self._session, octets, event, now)


class CardSessionSteps(_Steps):
    """A card's session as steps. At DONE its host owes a reply to the command in `octets`."""

    __slots__ = ()

    @staticmethod
    def _close(session: Any) -> None:
        _scard.card_session_close(session)

    def __init__(self, setup: Setup, has_clock: bool = True) -> None:
        self._session = _scard.card_session_new(setup._plain(has_clock), setup.command_room, setup.answer_room)

    def serve(self, now: int) -> Step:
        """Begins to serve the terminal, or goes on after the line failed."""
        return _scard.card_session_serve(self._session, b"", 0, now)

    def reply(self, octets: Octets, now: int) -> Step:
        """Takes the reply of the host."""
        return _scard.card_session_reply(self._session, octets, 0, now)

    def more_time(self, multiple: int, now: int) -> Step:
        """Asks the terminal for a number of block waiting times."""
        return _scard.card_session_more_time(self._session, b"", multiple, now)

    def ask_ifs(self, size: int, now: int) -> Step:
        """Tells the terminal the largest field that the card accepts, 1 to 254 octets."""
        return _scard.card_session_ask_ifs(self._session, b"", size, now)

    def step(self, event: Event, octets: Octets, now: int) -> Step:
        """Takes what happened. Only CAME and GARBLED have octets."""
        return _scard.card_session_step(self._session, octets, event, now)

    @property
    def granted(self) -> int:
        """How many requests of the host about the present command the terminal granted. If it is 0, the command is
        new."""
        return _scard.card_session_granted(self._session)


class Garbled(bytes):
    """Octets of which the receiver found one damaged, by its parity for example. A line may return them."""


class Line(Protocol):
    """The line of a session. An exception says that it failed.

    `send` returns once the last bit is on the line. `receive` waits for octets, at most `microseconds` or without limit
    if that is None, and returns them as soon as there are any. On a timeout it returns no octets. It may wait longer,
    but never shorter. It returns None if it was interrupted before.
    """

    def send(self, octets: bytes) -> object: ...

    def receive(self, room: int, microseconds: Optional[int]) -> Optional[bytes]: ...


class Functions:
    """A line of two functions."""

    def __init__(self, send: Callable[[bytes], object],
                 receive: Callable[[int, Optional[int]], Optional[bytes]]) -> None:
        self.send = send
        self.receive = receive


class SerialLine:
    """A serial port as a line: any object with `write`, `read`, `flush`, `timeout` and `in_waiting`, as pyserial's. To
    each wait it adds `late`: by how many microseconds an octet may reach the program later than the one before it."""

    def __init__(self, port: Any, late: int = 0) -> None:
        self.port = port
        self.late = late

    def send(self, octets: bytes) -> None:
        """Sends octets, and waits until the port has sent them."""
        self.port.write(octets)
        self.port.flush()

    def receive(self, room: int, microseconds: Optional[int]) -> bytes:
        """Returns what came, or no octets on a timeout."""
        self.port.timeout = None if microseconds is None else (microseconds + self.late) / 1e6
        first = bytes(self.port.read(1))
        return first + bytes(self.port.read(min(room - 1, self.port.in_waiting))) if first else first


AnyLine = Union[Line, Any]
"""A Line, or a serial port as SerialLine takes it."""


def line_of(line: AnyLine) -> Line:
    """A line as it is, or the line of a serial port."""
    return cast(Line, line if hasattr(line, "receive") else SerialLine(line))


def clock() -> int:
    """The time of a clock that never goes back, in microseconds."""
    return time.monotonic_ns() // 1000


def wait_of(step: Step) -> Optional[int]:
    """The wait of a step in microseconds, or None without a limit."""
    return None if step.wait == FOREVER else step.wait


def came(octets: Optional[bytes]) -> Tuple[Event, bytes]:
    """The event that octets of a line are."""
    if octets is None:
        return Event.CAME, b""
    if not octets:
        return Event.SILENT, b""
    return (Event.GARBLED if isinstance(octets, Garbled) else Event.CAME), bytes(octets)


def answer_of(step: Step, wanted: TurnKind) -> bytes:
    """The octets of a step of the wanted kind. Raises for any other."""
    if step.kind.is_refusal:
        raise CallRefused(step.kind)
    if step.kind is not wanted:
        raise NoAnswer(step.kind)
    return step.octets


class _OverLine:
    """The loop of both ends: it sends or waits as a step says, and reports what happened."""

    def __init__(self, line: AnyLine, steps: Union[SessionSteps, CardSessionSteps], now: Callable[[], int]) -> None:
        self._line = line_of(line)
        self._steps = steps
        self._now = now
        self._lock = threading.Lock()

    def _happens(self, step: Step) -> Tuple[Event, bytes]:
        """Does what a step says, and returns what happened."""
        if step.kind is TurnKind.SEND:
            self._line.send(step.octets)
            return Event.SENT, b""
        return came(self._line.receive(BURST_ROOM, wait_of(step)))

    def _rest(self, step: Step) -> Step:
        """Goes on until the session rests. An exception of the line is a failed line. An OSError is the cause of the
        exception that follows, and any other goes on."""
        while not step.rests:
            try:
                event, octets = self._happens(step)
            except BaseException as error:
                step = self._steps.step(Event.FAILED, b"", self._now())
                if isinstance(error, OSError):
                    raise NoAnswer(step.kind) from error
                raise
            step = self._steps.step(event, octets, self._now())
        return step

    def _alone(self) -> _Alone:
        """Raises InUse if another call uses the session."""
        return _Alone(self._lock)

    def close(self) -> None:
        """Overwrites the last messages. After it, other calls raise Closed. The line stays open."""
        with self._alone():
            self._steps.close()

    def __enter__(self) -> Any:
        return self

    def __exit__(self, kind: Optional[Type[BaseException]], error: Optional[BaseException],
                 trace: Optional[TracebackType]) -> None:
        self.close()

    def __reduce__(self) -> Any:
        raise TypeError("a session can't be pickled or copied")


class _Alone:
    """Holds a lock that nobody waits for."""

    def __init__(self, lock: threading.Lock) -> None:
        self._lock = lock

    def __enter__(self) -> None:
        if not self._lock.acquire(blocking=False):
            raise InUse("another call uses the session")

    def __exit__(self, *_: object) -> None:
        self._lock.release()


class Session(_OverLine):
    """A terminal's session over a line. Begin it at a reset of the card: never a new terminal at a card that goes on.

    >>> answers = []
    >>> line = Functions(lambda octets: answers.append(bytes.fromhex("000002900092")),
    ...                  lambda room, microseconds: answers.pop() if answers else b"")
    >>> session = Session(line, Setup(T1(ifsc=32, bwi=4, cwi=13), silence=FOREVER))
    >>> session.exchange(bytes.fromhex("00A4040000")).hex()
    '9000'
    """

    _steps: SessionSteps

    def __init__(self, line: AnyLine, setup: Setup, now: Callable[[], int] = clock) -> None:
        super().__init__(line, SessionSteps(setup), now)

    def exchange(self, command: Octets) -> bytes:
        """Sends a command, and returns its answer. Raises NoAnswer, whose `kind` says how the exchange ended: after
        GIVEN_UP and SESSION_NO_STATUS the session goes on, and after another one it doesn't."""
        with self._alone():
            return answer_of(self._rest(self._steps.exchange(command, self._now())), TurnKind.DONE)

    def ask_ifs(self, size: int) -> None:
        """Tells the card the largest field that the terminal accepts, 1 to 254 octets."""
        with self._alone():
            answer_of(self._rest(self._steps.ask_ifs(size, self._now())), TurnKind.IFS_SET)

    def resync(self) -> None:
        """Begins anew with a card that can't be reset, or after a session that isn't over."""
        with self._alone():
            answer_of(self._rest(self._steps.resync(self._now())), TurnKind.GIVEN_UP)


@dataclass(frozen=True)
class MoreTime:
    """What a host returns that needs a number of block waiting times."""

    multiple: int


@dataclass(frozen=True)
class AskIfs:
    """What a host returns so that its card accepts fields of another size from now on."""

    size: int


Said = Union[Octets, MoreTime, AskIfs, None]
"""What a host returns: a reply, a request, or None to stop serving."""


def host_step(steps: CardSessionSteps, said: Said, now: int) -> Step:
    """The step after what a host said."""
    if isinstance(said, MoreTime):
        step = steps.more_time(said.multiple, now)
    elif isinstance(said, AskIfs):
        step = steps.ask_ifs(said.size, now)
    else:
        step = steps.reply(cast(Octets, said), now)
    if step.kind.is_refusal:
        raise CallRefused(step.kind)
    return step


class CardSession(_OverLine):
    """A card's session over a line. Begin it at a reset of the card."""

    _steps: CardSessionSteps

    def __init__(self, line: AnyLine, setup: Setup, now: Callable[[], int] = clock) -> None:
        super().__init__(line, CardSessionSteps(setup), now)

    def serve(self, host: Callable[[bytes, int], Said]) -> None:
        """Serves the terminal until the host returns None. The host gets a command, and how many of its requests about
        it the terminal granted: 0 at a new command. Raises NoAnswer if the line failed. It may be called again then."""
        with self._alone():
            step = self._rest(self._steps.serve(self._now()))
            while answer_of(step, TurnKind.DONE) is not None:
                said = host(step.octets, self._steps.granted)
                if said is None:
                    return
                step = self._rest(host_step(self._steps, said, self._now()))
