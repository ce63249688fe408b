"""The program scard: all that its words do (docs/PROGRAM.md)."""
from __future__ import annotations

from dataclasses import dataclass
from typing import Iterable, Union

from . import _answer
from ._errors import Argument
from ._octets import Octets, Value


@dataclass(frozen=True)
class Answer(Value):
    """What the program answers: its exit status, and what it writes to standard output."""

    __slots__ = ("status", "octets")
    status: int
    octets: bytes

    @property
    def text(self) -> str:
        """The octets as text."""
        return self.octets.decode()


def _octets_of(text: Union[str, Octets]) -> bytes:
    """The octets of a text in UTF-8, or octets. What Python made of octets that aren't UTF-8 becomes these again."""
    if isinstance(text, str):
        return text.encode(errors="surrogateescape")
    return text if isinstance(text, bytes) else bytes(memoryview(text))


def answer(words: Iterable[Union[str, Octets]], input: Union[str, Octets] = b"") -> Answer:  # noqa: A002
    """Runs the program on words, with a text or octets as standard input. Words that are octets needn't be UTF-8.

    >>> answer(["check", "block", "00000500A4040000A5"])
    Answer(status=0, octets=b'ok 9 octets\\n')
    >>> answer(["check", "--stdin", "lines", "atr"], "3B00\\n3A\\n").text
    'ok 2 octets\\nrefused at 0: BadTs\\n'
    """
    if isinstance(words, (str, bytes, bytearray, memoryview)):
        raise TypeError("words have to be several texts, not one")
    every = [b"scard", *map(_octets_of, words)]
    if any(b"\0" in it for it in every):
        raise Argument("a word has no octet 0")
    return Answer(*_answer.answer(b"\0".join(every), _octets_of(input)))
