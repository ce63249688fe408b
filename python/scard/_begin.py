"""Passes the classes of the package to the module of C, which makes their values."""
from __future__ import annotations

import dataclasses
import enum
from typing import Any, Tuple, Type

from . import _scard, block
from ._errors import Argument, Closed, Duplicate, Refused, Short
from ._numbers import Asked, Judged, OffTime, Owed, Rule, Shape, Silence, TurnKind
from .apdu import Command, Response
from .atr import T1, Atr, Indicated, Interface, Rates
from .ends import Turn
from .judge import Due, Exercise, Judgment, Timed
from .session import Step
from .tlv import DataObject, Entry

# In the order of `enum made` of src/scardmodule.h.
_EXCEPTIONS = (Refused, Short, Argument, Duplicate, Closed)
_VALUES = (Atr, Interface, Indicated, T1, Rates, block.Block, Command, Response, DataObject, Entry, Turn, Due, Judgment,
           Exercise, Timed, Step)
_ENUMS = (Shape, TurnKind, Owed, Asked, Judged, Rule, Silence, OffTime)


def _fields(made: Any) -> Tuple[str, ...]:
    """The names of the fields of a dataclass."""
    return tuple(it.name for it in dataclasses.fields(made))


def _members(made: Type[enum.IntEnum]) -> Tuple[Any, ...]:
    """The members of an enum by their numbers, and None at a number that has none."""
    members = {int(it): it for it in made}
    return tuple(members.get(number) for number in range(max(members) + 1))


def begin() -> None:
    """Passes all classes to the library."""
    _scard.begin(*((it, ()) for it in _EXCEPTIONS), *((it, _fields(it)) for it in _VALUES),
                 *((it, _members(it)) for it in _ENUMS))


begin()
