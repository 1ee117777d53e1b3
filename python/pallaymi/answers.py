"""What a call answers: that it goes on, a reply, or a refusal."""

from __future__ import annotations

from dataclasses import dataclass
from enum import IntEnum
from typing import ClassVar, Dict, Union


class Reply(IntEnum):
    """How a request ended. With a reply the worker is idle again."""

    DONE = 1
    SERIES_NOT_SO = 2
    SERIES_NOT_PRESENT = 3
    DERIVATION_ALREADY_PRESENT = 4
    DERIVATION_NOT_PRESENT = 5
    WOULD_CLOSE_LOOP = 6
    ON_TRIAL = 7
    SERIES_OR_DERIVATION_NOT_PRESENT = 8
    NO_ROOM = 9

    @property
    def done(self) -> bool:
        """Whether it is done, or present. As a number, every reply is true."""
        return self is Reply.DONE

    @property
    def meaning(self) -> str:
        """The reply in words."""
        return _MEANINGS[self]


_MEANINGS = {
    Reply.DONE: "done, or present",
    Reply.SERIES_NOT_SO: "the series is there already (AddSeries), or is not there",
    Reply.SERIES_NOT_PRESENT: "a series is not present",
    Reply.DERIVATION_ALREADY_PRESENT: "the derivation is there already",
    Reply.DERIVATION_NOT_PRESENT: "the derivation is not present",
    Reply.WOULD_CLOSE_LOOP: "the derivation would close a loop",
    Reply.ON_TRIAL: "the same derivation is on trial",
    Reply.SERIES_OR_DERIVATION_NOT_PRESENT: "a series or the derivation is not present",
    Reply.NO_ROOM: "no room: a sweep may make some",
}


@dataclass(frozen=True)
class Going:
    """The call goes on; `met` is how many series its trial, if any, has met."""

    met: int


class Refused(Exception):
    """The library refused a call, which changed nothing."""

    number: ClassVar[int]
    meaning: ClassVar[str]

    def __str__(self) -> str:
        return f"refused {self.number}: {self.meaning}"


class RoomRefused(Refused):
    number = 20
    meaning = "lent memory of another size than the stated one, or too little output"


class WorkerRefused(Refused):
    number = 21
    meaning = "no such worker, or a count of workers that is not 1 to 8"


class BusyRefused(Refused):
    number = 22
    meaning = "the worker is busy; for a sweep, any worker is"


class IdleRefused(Refused):
    number = 23
    meaning = "the worker is idle"


class CodeRefused(Refused):
    number = 24
    meaning = "no call has this code"


class KeyRefused(Refused):
    number = 25
    meaning = "a key of the request is reserved"


class TornRefused(Refused):
    number = 26
    meaning = "memory or a record that is not sound"


class ScriptRefused(Refused):
    """A text that is no script; `line` is its first bad line, 0 for a text that is too long."""

    number = 27
    meaning = "a bad script, with the number of its first bad line"

    def __init__(self, line: int) -> None:
        super().__init__(line)
        self.line = line

    def __str__(self) -> str:
        return f"refused {self.number} {self.line}: {self.meaning}"


_REFUSALS = {
    refusal.number: refusal
    for refusal in (
        RoomRefused, WorkerRefused, BusyRefused, IdleRefused, CodeRefused, KeyRefused, TornRefused
    )
}


def _refusal(told: int) -> Refused:
    """The refusal that the library returned."""
    more, number = divmod(told, 256)
    return ScriptRefused(more) if number == ScriptRefused.number else _REFUSALS[number]()


def check(told: int) -> int:
    """Returns MORE where NUMBER is 0, and raises a refusal otherwise."""
    more, number = divmod(told, 256)
    if number != 0:
        raise _refusal(told)
    return more


_REPLIES = {int(reply): reply for reply in Reply}
# A trial meets 256 series at most. With all answers made beforehand, a step costs one lookup.
_GOING = {256 * met: Going(met) for met in range(257)}
_ANSWERS: Dict[int, Union[Going, Reply]] = {**_GOING, **_REPLIES}


def answer(told: int) -> Union[Going, Reply]:
    """Returns what a step returned, as an object; raises a refusal."""
    known = _ANSWERS.get(told)
    if known is None:
        raise _refusal(told)
    return known
