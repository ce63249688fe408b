"""What this package takes as octets: any object with a buffer, such as bytes, bytearray, memoryview or array."""
from __future__ import annotations

import dataclasses
from typing import TYPE_CHECKING, Any, Tuple, cast

from . import _scard

if TYPE_CHECKING:
    from _typeshed import ReadableBuffer as Octets
else:
    Octets = Any

__all__ = ["Octets", "Value", "lrc", "is_text"]


class Value:
    """What each value of this package is: a frozen dataclass whose fields are in slots."""

    __slots__ = ()

    def __reduce__(self) -> Tuple[Any, ...]:
        return type(self), tuple(getattr(self, it.name) for it in dataclasses.fields(cast(Any, self)))


def lrc(octets: Octets) -> int:
    """The check octet of a block: the exclusive-or of octets.

    >>> lrc(bytes.fromhex("00000500A4040000"))
    165
    """
    return _scard.lrc(octets)


def is_text(octets: Octets) -> bool:
    """Whether octets are text that can be shown beside their hexadecimal digits: 1 to 40 octets, each 20 to 7E.

    >>> is_text(b"1PAY.SYS.DDF01")
    True
    """
    return _scard.is_text(octets)
