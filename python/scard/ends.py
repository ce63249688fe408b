"""Both ends of T=1, step by step (ISO/IEC 7816-3, clause 11.6). They do no input and no output: each call says what to
do next."""
from __future__ import annotations

from dataclasses import dataclass
from types import TracebackType
from typing import Any, Optional, Type

from . import _scard
from ._errors import CallRefused
from ._numbers import TurnKind
from ._octets import Octets, Value
from .atr import T1

LONGEST_COMMAND = 65544
"""The most octets of a command that an end takes."""

LONGEST_ANSWER = 65538
"""The most octets of an answer that an end takes."""


@dataclass(frozen=True)
class Turn(Value):
    """What an end does next. If `kind` is SEND, send `octets`. Then a terminal waits `wait` times BWT for the other end
    to begin, and a card waits without limit."""

    __slots__ = ("kind", "wait", "octets")
    kind: TurnKind
    wait: int
    octets: bytes


def _taken(turn: Turn) -> Turn:
    """Returns a turn unless the end refused the call."""
    if turn.kind.is_refusal:
        raise CallRefused(turn.kind)
    return turn


class Terminal:
    """A terminal. Begin it at a reset of its card, and at no other time. `command_room` and `answer_room` are the most
    octets of its messages.

    >>> terminal = Terminal(T1(ifsc=32, bwi=4, cwi=13))
    >>> terminal.transmit(bytes.fromhex("00A4040000"))
    Turn(kind=<TurnKind.SEND: 0>, wait=1, octets=b'\\x00\\x00\\x05\\x00\\xa4\\x04\\x00\\x00\\xa5')
    >>> terminal.received(bytes.fromhex("000002900092")).kind
    <TurnKind.DONE: 1>
    >>> terminal.answer.hex()
    '9000'
    """

    __slots__ = ("_end",)

    def __init__(self, t1: T1, *, command_room: int = LONGEST_COMMAND, answer_room: int = LONGEST_ANSWER) -> None:
        self._end = _scard.terminal_new(t1.ifsc, t1.bwi, t1.cwi, command_room, answer_room)

    def transmit(self, command: Octets) -> Turn:
        """Begins an exchange with a command."""
        return _taken(_scard.terminal_transmit(self._end, command))

    def received(self, octets: Octets) -> Turn:
        """Takes what the line delivered as one block, valid or not."""
        return _taken(_scard.terminal_received(self._end, octets))

    def quiet(self) -> Turn:
        """Says that nothing came within the wait of the last turn. Never call it earlier: what is proved of both ends
        rests on their taking turns."""
        return _taken(_scard.terminal_quiet(self._end, 0))

    def ask_ifs(self, size: int) -> Turn:
        """Tells the card the largest field that the terminal accepts, 1 to 254 octets."""
        return _taken(_scard.terminal_ask_ifs(self._end, size))

    @property
    def answer(self) -> Optional[bytes]:
        """The answer, from the turn DONE until the next command. Otherwise None."""
        return _scard.terminal_answer(self._end)

    def close(self) -> None:
        """Overwrites the last command and the last answer. After it, other calls raise Closed."""
        _scard.terminal_close(self._end)

    def __enter__(self) -> Terminal:
        return self

    def __exit__(self, kind: Optional[Type[BaseException]], error: Optional[BaseException],
                 trace: Optional[TracebackType]) -> None:
        self.close()

    def __reduce__(self) -> Any:
        raise TypeError("a terminal can't be pickled or copied")


class Card:
    """A card. Begin it at its reset. At the turn DONE its host has to reply to `command`.

    >>> card = Card(T1(ifsc=32, bwi=4, cwi=13))
    >>> card.received(bytes.fromhex("00000500A4040000A5")).kind
    <TurnKind.DONE: 1>
    >>> card.command.hex()
    '00a4040000'
    >>> card.reply(bytes.fromhex("9000")).octets.hex()
    '000002900092'
    """

    __slots__ = ("_end",)

    def __init__(self, t1: T1, *, command_room: int = LONGEST_COMMAND, answer_room: int = LONGEST_ANSWER) -> None:
        self._end = _scard.card_new(t1.ifsc, t1.bwi, t1.cwi, command_room, answer_room)

    def received(self, octets: Octets) -> Turn:
        """Takes what the line delivered as one block, valid or not."""
        return _taken(_scard.card_received(self._end, octets))

    def reply(self, octets: Octets) -> Turn:
        """Takes the reply of the host."""
        return _taken(_scard.card_reply(self._end, octets))

    def more_time(self, multiple: int) -> Turn:
        """Asks the terminal for a number of block waiting times."""
        return _taken(_scard.card_more_time(self._end, multiple))

    def ask_ifs(self, size: int) -> Turn:
        """Tells the terminal the largest field that the card accepts, 1 to 254 octets."""
        return _taken(_scard.card_ask_ifs(self._end, size))

    @property
    def command(self) -> Optional[bytes]:
        """The command to which the host has to reply. Otherwise None."""
        return _scard.card_command(self._end)

    def close(self) -> None:
        """Overwrites the last command and the last reply. After it, other calls raise Closed."""
        _scard.card_close(self._end)

    def __enter__(self) -> Card:
        return self

    def __exit__(self, kind: Optional[Type[BaseException]], error: Optional[BaseException],
                 trace: Optional[TracebackType]) -> None:
        self.close()

    def __reduce__(self) -> Any:
        raise TypeError("a card can't be pickled or copied")
