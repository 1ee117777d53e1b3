"""The catalogue of series, and the calls of its workers."""

from __future__ import annotations

import threading
from contextlib import contextmanager
from typing import Dict, Iterator, Optional, Tuple, Union

from .answers import Going, Reply, answer, check
from .lent import Lent
from .listing import Listing
from .requests import AnyRequest


class Catalogue:
    """Series and derivations that never close a loop, with up to eight workers, numbered from 0.

    A worker takes up a request and steps to its reply; the host chooses the next worker. Any
    method may raise a `Refused`, and then changes nothing. Threads may share a catalogue, each with
    its own worker: single steps wait for each other. `lent` is the low-level layer, see
    `pallaymi.lent`; `busy` and `idle` do not see calls made there.
    """

    def __init__(self, workers: int = 8) -> None:
        """Makes an empty catalogue; raises WorkerRefused where `workers` is not 1 to 8."""
        self.lent = Lent()
        check(self.lent.make_table(workers))
        check(self.lent.fresh())
        self._workers = range(workers)
        self._calls: Dict[int, Call] = {}
        self._lock = threading.Lock()

    @property
    def busy(self) -> Tuple[int, ...]:
        """The workers that have a request."""
        with self._lock:
            return tuple(worker for worker in self._workers if worker in self._calls)

    @property
    def idle(self) -> Tuple[int, ...]:
        """The workers that have no request."""
        with self._lock:
            return tuple(worker for worker in self._workers if worker not in self._calls)

    def take_up(self, worker: int, request: AnyRequest) -> Call:
        """An idle worker takes up a request. Returns the call, which is then stepped."""
        with self._lock:
            check(self.lent.take_up(worker, request.code, request.first, request.second))
            call = Call(self, worker, request)
            self._calls[worker] = call
        return call

    def step(self, worker: int) -> Union[Going, Reply]:
        """A busy worker makes one step."""
        with self._lock:
            return self._step(worker)

    def _step(self, worker: int) -> Union[Going, Reply]:
        """The step itself, under the lock; updates the worker's call."""
        told = answer(self.lent.step(worker))
        call = self._calls.get(worker)
        if call is None:
            return told
        call.steps += 1
        if isinstance(told, Going):
            call.met = told.met
        else:
            call.met = 0
            call.reply = told
            del self._calls[worker]
        return told

    @contextmanager
    def call(self, worker: int, request: AnyRequest) -> Iterator[Call]:
        """A context for one call: leaving it, by an exception too, steps the call to its reply."""
        call = self.take_up(worker, request)
        try:
            yield call
        finally:
            call.finish()

    def ask(self, worker: int, request: AnyRequest) -> Reply:
        """An idle worker takes up a request and steps to its reply."""
        return self.take_up(worker, request).finish()

    def sweep(self) -> None:
        """Frees the room of what was removed; all workers must be idle."""
        with self._lock:
            check(self.lent.sweep())

    def listing(self) -> Listing:
        """Returns what the catalogue holds now, workers busy or not."""
        with self._lock:
            return Listing.read(self.lent.text(check(self.lent.listing())))


class Call:
    """One request of one worker, from its taking up on.

    `steps` is how many steps it has made since. `met` is how many series its trial has met (0
    outside a trial and with a reply). `reply` is its reply, or None while it goes on.
    """

    def __init__(self, catalogue: Catalogue, worker: int, request: AnyRequest) -> None:
        self.worker = worker
        self.request = request
        self.steps = 0
        self.met = 0
        self.reply: Optional[Reply] = None
        self._catalogue = catalogue

    def __repr__(self) -> str:
        return f"<Call of worker {self.worker}: {self.request}, reply {self.reply!r}>"

    def step(self) -> Union[Going, Reply]:
        """Makes one step of this call; raises RuntimeError once it has its reply."""
        with self._catalogue._lock:
            if self.reply is not None:
                raise RuntimeError(f"{self} is over")
            return self._catalogue._step(self.worker)

    def finish(self) -> Reply:
        """Steps until there is a reply, and returns it."""
        while self.reply is None:
            self.step()
        return self.reply
