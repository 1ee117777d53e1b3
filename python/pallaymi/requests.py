"""The requests that a worker takes up.

Each has a code and two keys, as the library takes them. A derivation leads from its source to the
series derived from it.
"""

from __future__ import annotations

from dataclasses import dataclass
from typing import ClassVar, Union


@dataclass(frozen=True)
class Request:
    """A request by its bare numbers: any code, known or not. Codes 1 to 3 have no second key."""

    code: int
    first: int
    second: int = 0


@dataclass(frozen=True)
class _OfSeries:
    """A request about one series."""

    code: ClassVar[int]
    series: int

    @property
    def first(self) -> int:
        return self.series

    @property
    def second(self) -> int:
        return 0


@dataclass(frozen=True)
class _OfDerivation:
    """A request about one derivation."""

    code: ClassVar[int]
    source: int
    derived: int

    @property
    def first(self) -> int:
        return self.source

    @property
    def second(self) -> int:
        return self.derived


class AddSeries(_OfSeries):
    """Add a series. Replies: DONE, SERIES_NOT_SO (it is there already), NO_ROOM."""

    code = 1


class RemoveSeries(_OfSeries):
    """Remove a series with its derivations. Replies: DONE, SERIES_NOT_SO (it is not there)."""

    code = 2


class HasSeries(_OfSeries):
    """Ask for a series. Replies: DONE (it is there), SERIES_NOT_SO (it is not there)."""

    code = 3


class AddDerivation(_OfDerivation):
    """Derive a series from a source.

    Replies: DONE, SERIES_NOT_PRESENT, DERIVATION_ALREADY_PRESENT, WOULD_CLOSE_LOOP, ON_TRIAL,
    NO_ROOM.
    """

    code = 4


class RemoveDerivation(_OfDerivation):
    """Remove a derivation. Replies: DONE, SERIES_NOT_PRESENT, DERIVATION_NOT_PRESENT."""

    code = 5


class HasDerivation(_OfDerivation):
    """Ask for a derivation. Replies: DONE (it is there), SERIES_OR_DERIVATION_NOT_PRESENT."""

    code = 6


AnyRequest = Union[
    Request, AddSeries, RemoveSeries, HasSeries, AddDerivation, RemoveDerivation, HasDerivation
]
