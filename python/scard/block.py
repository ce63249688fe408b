"""Blocks of T=1 (ISO/IEC 7816-3, clause 11.3), and messages cut into chains of them (clause 11.6)."""
from __future__ import annotations

from dataclasses import dataclass
from typing import Iterator, Optional, Tuple

from . import _scard
from ._errors import Argument
from ._names import Kind
from ._numbers import About, Fault
from ._octets import Octets, Value

BLOCK_ROOM = 258
"""The most octets of a block."""

LONGEST_FIELD = 254
"""The most octets of an information field."""


@dataclass(frozen=True)
class Control:
    """What a PCB says. `number` is that of an I-block, or the one that an R-block expects."""

    kind: Kind
    number: Optional[int] = None
    more: bool = False
    fault: Optional[Fault] = None
    about: Optional[About] = None


@dataclass(frozen=True)
class Block(Value):
    """A block: its node address, its control octet, and its information field.

    >>> block = Block.decode(bytes.fromhex("00000500A4040000A5"))
    >>> block.kind, block.number, block.more, block.inf.hex()
    (<Kind.I: 'I-block'>, 0, False, '00a4040000')
    >>> Block.r(1, Fault.REDUNDANCY).encode().hex()
    '00910091'
    >>> Block.decode(bytes.fromhex("00000500A4040000A4"))
    Traceback (most recent call last):
    scard.Refused: refused at 8: BadLrc
    """

    __slots__ = ("nad", "pcb", "inf")
    nad: int
    pcb: int
    inf: bytes

    @staticmethod
    def decode(octets: Octets, ifs: int = LONGEST_FIELD) -> Block:
        """The block at the start of octets. An I-block has at most `ifs` octets of information. Octets after the block
        are left out."""
        return _scard.block_decode(octets, ifs)

    @staticmethod
    def check(octets: Octets, ifs: int = LONGEST_FIELD) -> int:
        """How many octets the block at the start of octets takes. Raises as `decode` does."""
        return _scard.block_check(octets, ifs)

    @staticmethod
    def i(number: int, inf: Octets = b"", *, more: bool = False, nad: int = 0) -> Block:
        """An I-block. `more` says that more blocks of its chain follow."""
        return _scard.block_decode(_scard.block_i(nad, number, more, inf), LONGEST_FIELD)

    @staticmethod
    def r(number: int, fault: Fault = Fault.FREE, *, nad: int = 0) -> Block:
        """An R-block that expects the I-block with a number."""
        return _scard.block_decode(_scard.block_r(nad, number, fault), LONGEST_FIELD)

    @staticmethod
    def request(about: About, inf: Octets = b"", *, nad: int = 0) -> Block:
        """An S-block that requests."""
        return _scard.block_decode(_scard.block_s(nad, about, False, inf), LONGEST_FIELD)

    @staticmethod
    def response(about: About, inf: Octets = b"", *, nad: int = 0) -> Block:
        """An S-block that responds."""
        return _scard.block_decode(_scard.block_s(nad, about, True, inf), LONGEST_FIELD)

    def encode(self) -> bytes:
        """The octets of the block."""
        return _scard.block_encode(self.nad, self.pcb, self.inf)

    @property
    def control(self) -> Control:
        """What the control octet says."""
        return _control(self.pcb)

    @property
    def kind(self) -> Kind:
        """Whether it is an I-block, an R-block, or an S-block that requests or responds."""
        return self.control.kind

    @property
    def number(self) -> Optional[int]:
        """The number of an I-block, or the one that an R-block expects. None at an S-block."""
        return self.control.number

    @property
    def more(self) -> bool:
        """Whether more blocks of an I-block's chain follow."""
        return self.control.more

    @property
    def fault(self) -> Optional[Fault]:
        """What an R-block reports."""
        return self.control.fault

    @property
    def about(self) -> Optional[About]:
        """What an S-block is about."""
        return self.control.about


def cut(message: Octets, ifs: int, number: int = 0) -> Tuple[Block, ...]:
    """The chain of a message. Each field has `ifs` octets, except the last, which may have fewer. `number` is that of
    the first block.

    >>> [block.inf for block in cut(b"abcde", 2)]
    [b'ab', b'cd', b'e']
    """
    return tuple(_split(_scard.chain_cut(message, ifs, number)))


def _split(octets: bytes) -> Iterator[Block]:
    """The blocks that follow one another in octets."""
    place = 0
    while place < len(octets):
        window = octets[place:place + BLOCK_ROOM]
        yield _scard.block_decode(window, LONGEST_FIELD)
        place += _scard.block_check(window, LONGEST_FIELD)


_KINDS = (Kind.I, Kind.R, Kind.REQUEST, Kind.RESPONSE)
"""The kinds of blocks, from number 1 of the library on."""


def _control(pcb: int) -> Control:
    """What the library says of a control octet."""
    number_of_kind, number, more, fault, about = _scard.block_parts(pcb)
    if number_of_kind == 0:
        raise Argument("no block has this control octet")
    kind = _KINDS[number_of_kind - 1]
    if kind is Kind.I:
        return Control(kind, number, more != 0)
    if kind is Kind.R:
        return Control(kind, number, fault=Fault(fault))
    return Control(kind, about=About(about))
