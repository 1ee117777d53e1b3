"""The low-level layer: the memory that a catalogue lends to the library, and the bare calls on it.

A method returns the library's number. The arrays may be read and changed, and a `Memory` or the
output replaced, as the tests of the refusals do. The library refuses what is wrong with them. Three
things are up to the caller. No two calls on one `Lent` may run at the same time. The table, whose
size the library cannot see, may not be replaced. In memory that was changed by hand a request may
never get its reply, though each of its steps ends.
"""

from __future__ import annotations

import ctypes
import operator
from typing import Optional

from ._library import library


class Memory:
    """One catalogue's memory: the ctypes arrays `keys` and `words`, of the stated size or not."""

    def __init__(self, keys: Optional[int] = None, words: Optional[int] = None) -> None:
        calls = library()
        self.keys = (ctypes.c_int32 * (calls.pallaymi_keys_size() if keys is None else keys))()
        self.words = (ctypes.c_uint32 * (calls.pallaymi_words_size() if words is None else words))()
        self.arguments = (self.keys, len(self.keys), self.words, len(self.words))


def make_output(count: Optional[int] = None) -> ctypes.Array[ctypes.c_uint8]:
    """An output of `count` bytes, or of as many as the library needs."""
    return (ctypes.c_uint8 * (library().pallaymi_output_size() if count is None else count))()


class Lent:
    """All that one catalogue lends: `memory`, a `spare` one for sweeps, a `table`, an `output`."""

    def __init__(self) -> None:
        self._calls = library()
        self.memory = Memory()
        self.spare = Memory()
        self.table = (ctypes.c_uint64 * (self._calls.pallaymi_table_size() // 8))()
        self.output = make_output()

    def fresh(self) -> int:
        """Makes the memory an empty catalogue."""
        return self._calls.pallaymi_fresh(*self.memory.arguments)

    def make_table(self, count: int) -> int:
        """Makes the table one of `count` idle workers."""
        return self._calls.pallaymi_table(self.table, _u32(count, "a count of workers"))

    def take_up(self, worker: int, code: int, first: int, second: int) -> int:
        """A worker takes up a request."""
        numbers = (_u32(worker, "a worker"), _u32(code, "a code"), _key(first), _key(second))
        return self._calls.pallaymi_take_up(*self.memory.arguments, self.table, *numbers)

    def step(self, worker: int) -> int:
        """A worker makes one step."""
        number = _u32(worker, "a worker")
        return self._calls.pallaymi_step(*self.memory.arguments, self.table, number)

    def listing(self) -> int:
        """Writes the catalogue's text at the start of the output."""
        return self._calls.pallaymi_listing(
            *self.memory.arguments, self.output, len(self.output)
        )

    def sweep(self) -> int:
        """Copies the live graph into the spare memory, and exchanges the two."""
        told = self._calls.pallaymi_sweep(
            *self.memory.arguments, *self.spare.arguments, self.table
        )
        if told == 0:
            self.memory, self.spare = self.spare, self.memory
        return told

    def run(self, script: bytes) -> int:
        """Makes the memory fresh, plays a script on it, and writes the result to the output."""
        return self._calls.pallaymi_run(
            script, len(script), *self.memory.arguments, self.output, len(self.output)
        )

    def text(self, count: int) -> str:
        """The first `count` bytes of the output."""
        return bytes(memoryview(self.output)[:count]).decode("ascii")


def _u32(value: int, what: str) -> int:
    """Returns the number, if C takes it as an unsigned one of 32 bits."""
    number = operator.index(value)
    if not 0 <= number < 2**32:
        raise ValueError(f"{what} is a number from 0 to {2**32 - 1}, and not {number}")
    return number


def _key(value: int) -> int:
    """Returns the number, if C takes it as a signed one of 32 bits."""
    number = operator.index(value)
    if not -(2**31) <= number < 2**31:
        raise ValueError(f"a key is a number from {-(2**31)} to {2**31 - 1}, and not {number}")
    return number
