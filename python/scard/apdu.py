"""Commands and responses (ISO/IEC 7816-3, clause 12, and ISO/IEC 7816-4, clause 5.1)."""
from __future__ import annotations

from dataclasses import dataclass
from typing import Optional

from . import _scard
from ._errors import Argument
from ._names import note
from ._numbers import Noted, Shape, StatusClass
from ._octets import Octets, Value

_SHORT = {(False, False): Shape.CASE_1, (False, True): Shape.CASE_2_SHORT, (True, False): Shape.CASE_3_SHORT,
          (True, True): Shape.CASE_4_SHORT}
_LONG = {(False, True): Shape.CASE_2_LONG, (True, False): Shape.CASE_3_LONG, (True, True): Shape.CASE_4_LONG}


@dataclass(frozen=True)
class Command(Value):
    """A command: its header, its case, its data field, and the most octets that it expects in the response, or None
    without an Le field.

    >>> Command.decode(bytes.fromhex("00A4040002A00000"))
    Command(cla=0, ins=164, p1=4, p2=0, shape=<Shape.CASE_4_SHORT: 4>, data=b'\\xa0\\x00', le=256)
    >>> Command.of(0x00, 0xB0, 0x00, 0x00, le=65536).encode().hex()
    '00b00000000000'
    """

    __slots__ = ("cla", "ins", "p1", "p2", "shape", "data", "le")
    cla: int
    ins: int
    p1: int
    p2: int
    shape: Shape
    data: bytes
    le: Optional[int]

    @staticmethod
    def of(cla: int, ins: int, p1: int, p2: int, data: Octets = b"", le: Optional[int] = None, *,
           extended: bool = False) -> Command:
        """A command in the case that its data field and Le make. Its length fields are short if they can express these
        values and `extended` is false. Raises Argument if no length field can."""
        octets = bytes(data)
        parts = (octets != b"", le is not None)
        shapes = [_SHORT[parts]] if not extended or parts not in _LONG else []
        shapes += [_LONG[parts]] if parts in _LONG else []
        for shape in shapes:
            made = Command(cla, ins, p1, p2, shape, octets, le)
            if made._has_octets():
                return made
        raise Argument("no length field can express these values")

    def _has_octets(self) -> bool:
        """Whether octets encode the command."""
        try:
            return bool(self.encode())
        except Argument:
            return False

    @staticmethod
    def decode(octets: Octets) -> Command:
        """The command that all of the octets are."""
        return _scard.command_decode(octets)

    def encode(self) -> bytes:
        """The octets of the command."""
        return _scard.command_encode(self.cla, self.ins, self.p1, self.p2, self.shape, self.data, self.le)

    @property
    def note(self) -> Optional[str]:
        """What the standard says of CLA and INS."""
        return note(Noted.INSTRUCTION, self.cla, self.ins)


@dataclass(frozen=True)
class Response(Value):
    """A response: its data field and its two status bytes.

    >>> response = Response.decode(bytes.fromhex("6A82"))
    >>> response.status_class, response.note
    (<StatusClass.CHECKING: 4>, 'file or application not found')
    """

    __slots__ = ("data", "sw1", "sw2")
    data: bytes
    sw1: int
    sw2: int

    @staticmethod
    def decode(octets: Octets) -> Response:
        """The response that all of the octets are."""
        return _scard.response_decode(octets)

    def encode(self) -> bytes:
        """The octets of the response."""
        return _scard.response_encode(self.data, self.sw1, self.sw2)

    @property
    def sw(self) -> int:
        """Both status bytes as one number, SW1 first."""
        return self.sw1 << 8 | self.sw2

    @property
    def status_class(self) -> StatusClass:
        """The class of the status bytes."""
        return StatusClass(_scard.status_class(self.sw1, self.sw2))

    @property
    def note(self) -> Optional[str]:
        """What the standard says of the status bytes."""
        return note(Noted.STATUS, self.sw1, self.sw2)
