"""The text of a catalogue or of a script's result, and what it says."""

from __future__ import annotations

from dataclasses import dataclass
from typing import NamedTuple, Tuple

from .answers import Reply


class Contents(NamedTuple):
    """The first line of the text.

    `derivations` also counts those into a series that was removed since; they have no line.
    """

    replies: int
    series: int
    derivations: int


class ReplyLine(NamedTuple):
    """A reply, with its turn of the schedule (from 1), its worker and the code of its request."""

    turn: int
    worker: int
    code: int
    reply: Reply


class Derivation(NamedTuple):
    """Two series, of which the second is derived from the first."""

    source: int
    derived: int


@dataclass(frozen=True)
class Listing:
    """What a catalogue holds and, for a script's result, the replies of its workers."""

    contents: Contents
    replies: Tuple[ReplyLine, ...]
    series: Tuple[int, ...]
    derivations: Tuple[Derivation, ...]
    text: str

    @classmethod
    def read(cls, text: str) -> Listing:
        """Parses a text that the library wrote."""
        first, *rest = ([int(word) for word in line.split()] for line in text.splitlines())
        contents = Contents(*first)
        series_at = contents.replies
        derivations_at = series_at + contents.series
        return cls(
            contents=contents,
            replies=tuple(ReplyLine(*line[:3], Reply(line[3])) for line in rest[:series_at]),
            series=tuple(key for (key,) in rest[series_at:derivations_at]),
            derivations=tuple(Derivation(*line) for line in rest[derivations_at:]),
            text=text,
        )
