"""Shared by the tests: the package on the path, all lent bytes, and scripts."""

import itertools
import os
import subprocess
import sys
from pathlib import Path
from typing import Iterable, List, NamedTuple, Sequence

PYTHON = Path(__file__).resolve().parent.parent
ROOT = PYTHON.parent
sys.path.insert(0, str(PYTHON))

from pallaymi import Catalogue, Reply  # noqa: E402
from pallaymi.lent import Lent  # noqa: E402
from pallaymi.requests import AnyRequest  # noqa: E402

DRILL = Path(os.environ.get("PALLAYMI_DRILL", ROOT / "target" / "bin" / "drill"))


def everything(lent: Lent) -> List[bytes]:
    """All bytes that a catalogue lends."""
    memories = [lent.memory.keys, lent.memory.words, lent.spare.keys, lent.spare.words]
    return [bytes(array) for array in (*memories, lent.table, lent.output)]


class Script(NamedTuple):
    """The requests of each worker, and the worker of each turn."""

    requests: Sequence[Sequence[AnyRequest]]
    turns: Sequence[int]

    def text(self) -> str:
        """The script as the library and the drill read it."""
        counts = [len(self.requests), *map(len, self.requests), len(self.turns)]
        asked = [_numbers(request) for own in self.requests for request in own]
        return _lines([counts, *asked, self.turns])

    def play(self) -> str:
        """The result's text, from a catalogue that is stepped turn by turn."""
        catalogue = Catalogue(workers=len(self.requests))
        waiting = [iter(own) for own in self.requests]
        calls = {}
        replies = []
        for turn, worker in enumerate(self.turns, 1):
            if worker in catalogue.idle:
                for request in itertools.islice(waiting[worker], 1):
                    calls[worker] = catalogue.take_up(worker, request)
            elif isinstance(catalogue.step(worker), Reply):
                call = calls[worker]
                replies.append([turn, worker, call.request.code, int(call.reply)])
        listing = catalogue.listing()
        contents = [len(replies), listing.contents.series, listing.contents.derivations]
        series = [[key] for key in listing.series]
        return _lines([contents, *replies, *series, *listing.derivations])


def drill(script: bytes) -> bytes:
    """What the drill prints for a script."""
    return subprocess.run([DRILL], input=script, stdout=subprocess.PIPE, check=True).stdout


def _numbers(request: AnyRequest) -> List[int]:
    keys = [request.first] if request.code <= 3 else [request.first, request.second]
    return [request.code, *keys]


def _lines(rows: Iterable[Sequence[int]]) -> str:
    return "".join(" ".join(map(str, row)) + "\n" for row in rows)
