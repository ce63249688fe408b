"""scard: a proved smart card stack for contact cards with T=1.

The module has codecs for answers to reset, blocks, commands and responses, data objects and their lists. It also has a
framer, readers of octets in pieces, both ends of a session as steps, a judge of the blocks on a line, and the times of
the line. `answer` runs the program scard on words. Octets go in as any object with a buffer, and come out as bytes.
Values are frozen dataclasses, which can be compared and pickled.

A refusal is an exception: `Refused` with a place and a reason, or `Short` if the octets end too early.
"""
from __future__ import annotations

from . import _begin, _scard
from ._errors import (Argument, CallRefused, Closed, Duplicate, Error, InUse, NoAnswer, NoT1, Refused, Short,
                      TurnError)
from ._names import Kind, note, reasons
from ._numbers import (About, Arrival, Asked, Codec, End, Event, Fault, Format, Judged, Noted, OffTime, Owed, Rule,
                       Shape, Silence, StatusClass, T1Fault, TurnKind)
from ._octets import is_text, lrc
from .aio import AsyncCardSession, AsyncLine, AsyncSession, StreamLine
from .apdu import Command, Response
from .atr import T1, Atr, Indicated, Interface, Rates
from .block import BLOCK_ROOM, Block, Control, cut
from .ends import LONGEST_ANSWER, LONGEST_COMMAND, Card, Terminal, Turn
from .framing import FOREVER, AtrReader, BlockReader, Framer, Receiver, TlvReader
from .judge import Due, Exercise, Judge, Judgment, Timed, Times
from .program import Answer, answer
from .session import (AskIfs, CardSession, CardSessionSteps, Functions, Garbled, Line, MoreTime, SerialLine, Session,
                      SessionSteps, Setup, Step)
from .tlv import LARGEST, DataObject, Dol, Entry, Known, Tlv

__version__: str = _scard.VERSION
del _begin

__all__ = [
    "About", "Answer", "Argument", "Arrival", "AskIfs", "Asked", "AsyncCardSession", "AsyncLine", "AsyncSession", "Atr",
    "AtrReader", "BLOCK_ROOM", "Block", "BlockReader", "CallRefused", "Card", "CardSession", "CardSessionSteps",
    "Closed", "Codec", "Command", "Control", "DataObject", "Dol", "Due", "Duplicate", "End", "Entry", "Error", "Event",
    "Exercise", "FOREVER", "Fault", "Format", "Framer", "Functions", "Garbled", "InUse", "Indicated", "Interface",
    "Judge", "Judged", "Judgment", "Kind", "Known", "LARGEST", "LONGEST_ANSWER", "LONGEST_COMMAND", "Line", "MoreTime",
    "NoAnswer", "NoT1", "Noted", "OffTime", "Owed", "Rates", "Receiver", "Refused", "Response", "Rule", "SerialLine",
    "Session", "SessionSteps", "Setup", "Shape", "Short", "Silence", "StatusClass", "Step", "StreamLine", "T1",
    "T1Fault", "Terminal", "Timed", "Times", "Tlv", "TlvReader", "Turn", "TurnError", "TurnKind", "answer", "cut",
    "is_text", "lrc", "note", "reasons",
]
for _name in __all__:
    if getattr(globals()[_name], "__module__", "").startswith("scard."):
        globals()[_name].__module__ = "scard"
del _name
