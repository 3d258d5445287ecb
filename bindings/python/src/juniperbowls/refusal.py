"""The reason why a call was refused."""
from __future__ import annotations

from enum import IntEnum
from typing import TYPE_CHECKING

from ._library import LIBRARY

if TYPE_CHECKING:
    from .history import Events


class Refusal(IntEnum):
    """The codes above 100 of include/pie.h."""
    BAD_MOMENT = 101
    BAD_SIZE = 102
    TOO_SOON = 103
    BAD_PARAMS = 107
    BAD_STATE = 110
    BAD_ECN = 111
    BAD_QUEUE = 112
    BAD_PROFILE = 113
    NOT_A_NUMBER = 114
    TOO_PRECISE = 115
    TOO_GREAT = 116
    BAD_CHOICES = 117
    BAD_ARRIVED = 118
    NOT_WAITED = 119
    BAD_LIMITS = 120
    BAD_EVERY = 128


def text_of(code: int) -> str:
    """Returns the library's description of a code."""
    words: bytes = LIBRARY.pie_array_text(code)
    return words.decode()


class Refused(ValueError):
    """A refused call. It changed nothing. The text is the library's description."""

    def __init__(self, code: int, about: str = "", index: int | None = None, events: Events | None = None):
        super().__init__(text_of(code) + (f" ({about})" if about else ""))
        #: which refusal it is
        self.refusal = Refusal(code)
        #: of a call over an array: which of its elements was refused
        self.index = index
        #: of a call over an array: the events that it decided before
        self.events = events
        self._about = about

    def __reduce__(self) -> tuple[type[Refused], tuple[int, str, int | None, Events | None]]:
        return type(self), (int(self.refusal), self._about, self.index, self.events)
