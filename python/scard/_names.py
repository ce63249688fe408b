"""The kinds of blocks, and what the library says of some numbers."""
from __future__ import annotations

import enum
from typing import Optional, Tuple

from . import _scard
from ._numbers import Codec, Noted


class Kind(enum.Enum):
    """The kind of a block."""

    I = "I-block"  # noqa: E741
    R = "R-block"
    REQUEST = "S-block, request"
    RESPONSE = "S-block, response"


def reasons(codec: Codec) -> Tuple[str, ...]:
    """The names of the reasons for which a codec refuses octets, by their numbers from 1 on.

    >>> reasons(Codec.ATR)
    ('BadTs', 'TooLong', 'BadTck')
    """
    names = (_scard.reason_name(codec, number) for number in range(1, 256))
    return tuple(name for name in names if name)


def note(about: Noted, first: int, second: int = 0) -> Optional[str]:
    """What the standards say of one or two octets, or None if they have no words for them.

    >>> note(Noted.STATUS, 0x6A, 0x82)
    'file or application not found'
    >>> note(Noted.CLASS, 0x03)
    'no secure messaging, channel 3'
    """
    made = _scard.note(about, first, second)
    if isinstance(made, tuple):
        before, number, after = made
        made = f"{before}{number}{after}"
    return made or None
