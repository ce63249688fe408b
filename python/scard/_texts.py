"""What members of the enums of `_numbers` say besides their numbers."""
from __future__ import annotations

import enum

from . import _scard


class TurnTexts(enum.IntEnum):
    """The kind of a turn."""

    @property
    def label(self) -> str:
        """The library's name of the kind."""
        return _scard.turn_name(self)

    @property
    def is_refusal(self) -> bool:
        """Whether the call was refused, and nothing changed."""
        return self.name.startswith(("REFUSED_", "NO_END", "NO_ROOM"))


class RuleTexts(enum.IntEnum):
    """A rule of T=1."""

    @property
    def text(self) -> str:
        """What breaks the rule, in the library's words: `sequence number`."""
        return _scard.rule_text(self)

    @property
    def clause(self) -> str:
        """The rule's clause in ISO/IEC 7816-3:2006, in the library's words."""
        return _scard.clause_text(self)
