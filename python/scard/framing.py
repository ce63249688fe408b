"""Octets that arrive in pieces: bursts, and readers of one value each."""
from __future__ import annotations

from types import TracebackType
from typing import Any, Optional, Type

from . import _scard
from ._numbers import Codec
from ._octets import Octets
from .atr import Atr
from .block import LONGEST_FIELD, Block
from .tlv import LARGEST

FOREVER = 2**64 - 1
"""A time in microseconds that has no limit."""

LONGEST_MESSAGE = 131072
"""The most octets of a message that a receiver of chains takes."""


class Framer:
    """A burst: octets that came without a silence long enough to end it. A block is always a whole burst.

    >>> framer = Framer()
    >>> framer.feed(bytes.fromhex("000005"))
    >>> framer.is_whole, framer.wait(first=1000, inside=50, after=20)
    (False, 50)
    >>> framer.feed(bytes.fromhex("00A4040000A5"))
    >>> framer.is_whole, framer.wait(first=1000, inside=50, after=20), framer.burst.hex()
    (True, 20, '00000500a4040000a5')
    """

    __slots__ = ("_framer",)

    def __init__(self) -> None:
        self._framer = _scard.framer_new()

    def begin(self) -> None:
        """Begins a burst without octets."""
        _scard.framer_begin(self._framer)

    def feed(self, octets: Octets) -> None:
        """Appends octets that arrived."""
        _scard.framer_feed(self._framer, octets)

    @property
    def is_whole(self) -> bool:
        """Whether the burst so far is a whole block, with nothing after it."""
        return _scard.framer_is_whole(self._framer)

    @property
    def count(self) -> int:
        """How many octets came, including those that the framer doesn't keep."""
        return _scard.framer_count(self._framer)

    @property
    def burst(self) -> bytes:
        """The octets to pass to an end once the burst has ended, at most 259."""
        return _scard.framer_burst(self._framer)

    def wait(self, first: int, inside: int, after: int) -> int:
        """How long a silence now ends the burst: `first` before the first octet, `after` once the burst is a whole
        block, and `inside` otherwise."""
        return _scard.framer_wait(self._framer, first, inside, after)

    def __reduce__(self) -> Any:
        raise TypeError("a framer can't be pickled or copied")


class Reader:
    """A reader of one value whose octets come in pieces. `feed` says whether the value is complete."""

    __slots__ = ("_reader",)

    def __init__(self, codec: Codec, ifs: int = LONGEST_FIELD, number: int = 0, most: int = 0) -> None:
        self._reader = _scard.reader_new(codec, ifs, number, most)

    def feed(self, octets: Octets) -> Optional[int]:
        """Takes the next octets. Returns how many of this piece completed the value, or None if more have to come.
        Raises Refused with the place in all octets; later calls raise it again."""
        return _scard.reader_feed(self._reader, octets)

    def finish(self) -> None:
        """Raises Short unless the value is complete, or Refused."""
        _scard.reader_finish(self._reader)

    def close(self) -> None:
        """Overwrites what the reader holds."""
        _scard.reader_close(self._reader)

    def __enter__(self) -> Any:
        return self

    def __exit__(self, kind: Optional[Type[BaseException]], error: Optional[BaseException],
                 trace: Optional[TracebackType]) -> None:
        self.close()

    def __reduce__(self) -> Any:
        raise TypeError("a reader can't be pickled or copied")


class AtrReader(Reader):
    """A reader of one answer to reset.

    >>> reader = AtrReader()
    >>> [reader.feed(bytes([octet])) for octet in bytes.fromhex("3B8080")]
    [None, None, None]
    >>> reader.feed(bytes.fromhex("0101AABB"))
    2
    >>> reader.value.protocols
    (0, 1)
    """

    __slots__ = ()

    def __init__(self) -> None:
        super().__init__(Codec.ATR)

    @property
    def value(self) -> Atr:
        """The answer to reset, once it is complete."""
        return Atr.decode(_scard.reader_octets(self._reader))


class BlockReader(Reader):
    """A reader of one block, by LEN. On a line where octets can be lost or damaged, use a Framer: there LEN may be the
    octet that is wrong."""

    __slots__ = ()

    def __init__(self, ifs: int = LONGEST_FIELD) -> None:
        super().__init__(Codec.BLOCK, ifs)

    @property
    def value(self) -> Block:
        """The block, once it is complete."""
        return Block.decode(_scard.reader_octets(self._reader))


class Receiver(Reader):
    """A receiver of one chain of blocks, whose message has at most `most` octets.

    >>> receiver = Receiver(ifs=2)
    >>> [receiver.feed(block.encode()) for block in cut(b"abc", ifs=2)]
    [None, 5]
    >>> receiver.message
    b'abc'
    >>> receiver.restart()
    >>> receiver.finish()
    Traceback (most recent call last):
    scard.Short: short at 0
    """

    __slots__ = ()

    def __init__(self, ifs: int = LONGEST_FIELD, number: int = 0, most: int = LONGEST_MESSAGE) -> None:
        super().__init__(Codec.CHAIN, ifs, number, most)

    def restart(self, number: int = 0) -> None:
        """Begins anew, for a chain whose first block has a number. The octets of the last message are overwritten."""
        _scard.reader_restart(self._reader, number)

    @property
    def message(self) -> bytes:
        """The message, once the chain is complete."""
        return _scard.reader_octets(self._reader)


class TlvReader(Reader):
    """A check of a forest whose octets come in pieces. It keeps none of them. `feed` always returns None, since a
    forest has no end of its own."""

    __slots__ = ()

    def __init__(self, most: int = LARGEST) -> None:
        super().__init__(Codec.TLV, most=most)
