"""Data objects and data object lists (EMV 4.3 Book 3, Annex B and clause 5.4)."""
from __future__ import annotations

from dataclasses import dataclass
from typing import Any, Iterable, Iterator, Optional, Tuple, Union

from . import _scard
from ._names import note
from ._numbers import Format, Noted
from ._octets import Octets, Value

LARGEST = 1048576
"""The most octets of a forest."""

Path = Union[str, Iterable[bytes]]
"""Tags from the outside in: hexadecimal digits with a slash between two tags, or the octets of each tag."""


Tag = Union[str, bytes]
"""A tag: its hexadecimal digits, or its octets."""

Objects = Iterable[Tuple[Tag, Any]]
"""Data objects: each a tag, and its value. The value is octets or, in a constructed object, `Objects` again."""


def _tag_of(tag: Tag) -> bytes:
    """The octets of a tag."""
    return _scard.hex_decode(tag) if isinstance(tag, str) else tag


def _path_of(path: Path) -> Tuple[bytes, ...]:
    """The tags of a path."""
    if isinstance(path, str):
        return tuple(_tag_of(tag) for tag in path.split("/"))
    return tuple(_tag_of(tag) for tag in path)


def _built(objects: Objects) -> bytes:
    """The octets of data objects, with the shortest length fields."""
    return b"".join(_object(_tag_of(tag), value) for tag, value in objects)


def _object(tag: bytes, value: Any) -> bytes:
    """The octets of a data object."""
    octets = bytes(value) if isinstance(value, (bytes, bytearray, memoryview)) else _built(value)
    return _scard.tlv_header(tag, len(octets)) + octets


class Tlv:
    """A forest: a list of data objects. It is decoded once, and its objects are made when they are asked for. So a
    large forest is cheap if few of its objects are read.

    >>> forest = Tlv.decode(bytes.fromhex("6F07A5059F650201025F2001AA"))
    >>> [str(it) for it in forest]
    ['6F', '5F20']
    >>> found = forest.find("6F/A5/9F65")
    >>> found.start, found.place, found.value.hex()
    (4, 7, '0102')
    >>> [str(it) for it in forest.find("6F")]
    ['A5']
    >>> Tlv.decode(bytes.fromhex("6F03500241"))
    Traceback (most recent call last):
    scard.Refused: refused at 3: Overrun
    """

    __slots__ = ("_octets", "_most", "_parts", "_outermost")
    _octets: bytes
    _most: int
    _parts: Any
    _outermost: Optional[Tuple[DataObject, ...]]

    def __init__(self, octets: Octets, most: int = LARGEST) -> None:
        held = octets if type(octets) is bytes else bytes(memoryview(octets))
        self._parts = _scard.tlv_parts(held, most)
        self._octets = held
        self._most = most
        self._outermost = None

    @staticmethod
    def decode(octets: Octets, most: int = LARGEST) -> Tlv:
        """The forest that all of the octets are, of at most `most` octets."""
        return Tlv(octets, most)

    @staticmethod
    def build(objects: Objects) -> Tlv:
        """The forest of these objects, with the shortest length fields.

        >>> forest = Tlv.build([("6F", [("84", b"\\xA0\\x00"), ("A5", [])]), ("5F20", b"Ada")])
        >>> forest.octets.hex()
        '6f068402a000a5005f2003416461'
        """
        return Tlv(_built(objects))

    @staticmethod
    def check(octets: Octets, most: int = LARGEST) -> None:
        """Raises as `decode` does, and makes nothing."""
        _scard.tlv_check(octets, most)

    @property
    def octets(self) -> bytes:
        """The octets of the forest."""
        return self._octets

    @property
    def objects(self) -> Tuple[DataObject, ...]:
        """The outermost objects."""
        if self._outermost is None:
            self._outermost = _scard.tlv_inside(self._parts, self, 0)
        return self._outermost

    def __iter__(self) -> Iterator[DataObject]:
        return iter(self.objects)

    def __len__(self) -> int:
        return len(self.objects)

    def __getitem__(self, number: int) -> DataObject:
        return self.objects[number]

    def walk(self) -> Iterator[DataObject]:
        """All objects, each before those inside it."""
        return (DataObject(self, index) for index in range(_scard.tlv_count(self._parts)))

    def find(self, path: Path) -> Optional[DataObject]:
        """The first object on a path of tags, or None."""
        return _scard.tlv_first(self._parts, self, 0, _path_of(path))

    def tidy(self) -> bytes:
        """The shortest encoding of the same objects.

        >>> Tlv.decode(bytes.fromhex("008481020102")).tidy().hex()
        '84020102'
        """
        return _scard.tlv_tidy(self._octets, self._most)

    def __eq__(self, other: object) -> bool:
        return isinstance(other, Tlv) and self._octets == other._octets

    def __hash__(self) -> int:
        return hash(self._octets)

    def __repr__(self) -> str:
        return f"Tlv.decode(bytes.fromhex('{self._octets.hex()}'))"

    def __reduce__(self) -> Tuple[Any, ...]:
        return Tlv, (self._octets, self._most)


@dataclass(frozen=True)
class DataObject(Value):
    """An object of a forest: the one with an index, in the order in which their tags come."""

    __slots__ = ("forest", "index")
    forest: Tlv
    index: int

    def __str__(self) -> str:
        return self.tag.hex().upper()

    @property
    def tag(self) -> bytes:
        """The octets of the tag."""
        return _scard.tlv_tag(self.forest._parts, self.index)

    @property
    def depth(self) -> int:
        """1 for an outermost object, at most 16."""
        return _scard.tlv_number(self.forest._parts, self.index, 0)

    @property
    def is_constructed(self) -> bool:
        """Whether the value consists of objects."""
        return _scard.tlv_number(self.forest._parts, self.index, 1) != 0

    @property
    def length_octets(self) -> int:
        """How many octets the length field has, 1 to 5."""
        return _scard.tlv_number(self.forest._parts, self.index, 2)

    @property
    def place(self) -> int:
        """The offset of the value in the forest."""
        return _scard.tlv_number(self.forest._parts, self.index, 3)

    @property
    def length(self) -> int:
        """How many octets the value has."""
        return _scard.tlv_number(self.forest._parts, self.index, 4)

    @property
    def start(self) -> int:
        """The offset of the first octet of the tag."""
        return self.place - self.length_octets - len(self.tag)

    @property
    def end(self) -> int:
        """The offset after the last octet of the value."""
        return self.place + self.length

    @property
    def value(self) -> bytes:
        """The octets of the value."""
        return _scard.tlv_value(self.forest._parts, self.index, self.forest.octets)

    @property
    def octets(self) -> bytes:
        """All octets of the object."""
        return self.forest.octets[self.start:self.end]

    @property
    def objects(self) -> Tuple[DataObject, ...]:
        """The objects directly inside. There are none in a primitive object."""
        return _scard.tlv_inside(self.forest._parts, self.forest, self.index + 1)

    def __iter__(self) -> Iterator[DataObject]:
        return iter(self.objects)

    def find(self, path: Path) -> Optional[DataObject]:
        """The first object on a path of tags inside this one, or None."""
        return _scard.tlv_first(self.forest._parts, self.forest, self.index + 1, _path_of(path))

    @property
    def note(self) -> Optional[str]:
        """What the standard says of the tag's first octet."""
        return note(Noted.TAG, self.tag[0])


@dataclass(frozen=True)
class Entry(Value):
    """An entry of a data object list: a tag, and the length of the value that the list asks for."""

    __slots__ = ("tag", "length")
    tag: bytes
    length: int


@dataclass(frozen=True)
class Known:
    """The value of a tag, and how it is cut or padded."""

    tag: bytes
    value: bytes
    format: Format = Format.OTHER


@dataclass(frozen=True)
class Dol:
    """A data object list.

    >>> dol = Dol.decode(bytes.fromhex("9F02069F1A02"))
    >>> dol.entries
    (Entry(tag=b'\\x9f\\x02', length=6), Entry(tag=b'\\x9f\\x1a', length=2))
    >>> dol.fill([Known(b"\\x9F\\x02", b"\\x12\\x34", Format.NUMERIC)]).hex()
    '0000000012340000'
    """

    octets: bytes
    entries: Tuple[Entry, ...]

    @staticmethod
    def decode(octets: Octets) -> Dol:
        """The list that all of the octets are."""
        held = octets if type(octets) is bytes else bytes(memoryview(octets))
        return Dol(held, _scard.dol_entries(held))

    @staticmethod
    def build(entries: Iterable[Tuple[Tag, int]]) -> Dol:
        """The list that asks for these tags, each with a length of 0 to 255 octets.

        >>> Dol.build([("9F02", 6), ("9F1A", 2)]).octets.hex()
        '9f02069f1a02'
        """
        return Dol.decode(b"".join(_scard.dol_entry(_tag_of(tag), length) for tag, length in entries))

    def fill(self, known: Iterable[Known]) -> bytes:
        """The octets that the list asks for. A tag that isn't known has zeros."""
        return _scard.dol_fill(self.octets, tuple((it.tag, it.value, it.format) for it in known))
