"""A catalogue of series and derivations that can never hold a loop.

    from pallaymi import AddDerivation, AddSeries, Catalogue

    catalogue = Catalogue(workers=2)
    catalogue.ask(0, AddSeries(10))

The proved C library does the work; the command python/build makes it. The variable
PALLAYMI_LIBRARY may name another library file.
"""

from ._library import LibraryMissing
from .answers import (
    BusyRefused,
    CodeRefused,
    Going,
    IdleRefused,
    KeyRefused,
    Refused,
    Reply,
    RoomRefused,
    ScriptRefused,
    TornRefused,
    WorkerRefused,
)
from .catalogue import Call, Catalogue
from .listing import Contents, Derivation, Listing, ReplyLine
from .requests import (
    AddDerivation,
    AddSeries,
    HasDerivation,
    HasSeries,
    RemoveDerivation,
    RemoveSeries,
    Request,
)
from .script import run

__all__ = [
    "AddDerivation",
    "AddSeries",
    "BusyRefused",
    "Call",
    "Catalogue",
    "CodeRefused",
    "Contents",
    "Derivation",
    "Going",
    "HasDerivation",
    "HasSeries",
    "IdleRefused",
    "KeyRefused",
    "LibraryMissing",
    "Listing",
    "RemoveDerivation",
    "RemoveSeries",
    "Reply",
    "ReplyLine",
    "Refused",
    "Request",
    "RoomRefused",
    "ScriptRefused",
    "TornRefused",
    "WorkerRefused",
    "run",
]
