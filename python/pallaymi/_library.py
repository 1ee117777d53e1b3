"""The C library: where it is, and what its functions take and return."""

from __future__ import annotations

import ctypes
import functools
import os
from pathlib import Path

VARIABLE = "PALLAYMI_LIBRARY"
BUILT = Path(__file__).with_name("libpallaymi.so")

_SIZE = ctypes.c_size_t
_U32 = ctypes.c_uint32
_I32 = ctypes.c_int32
_KEYS = [ctypes.POINTER(_I32), _SIZE]
_WORDS = [ctypes.POINTER(_U32), _SIZE]
_MEMORY = _KEYS + _WORDS
_TABLE = [ctypes.POINTER(ctypes.c_uint64)]
_OUTPUT = [ctypes.POINTER(ctypes.c_uint8), _SIZE]
_SCRIPT = [ctypes.c_char_p, _SIZE]

_SIZES = (
    "pallaymi_keys_size",
    "pallaymi_words_size",
    "pallaymi_output_size",
    "pallaymi_table_size",
)
_CALLS = {
    "pallaymi_fresh": _MEMORY,
    "pallaymi_table": _TABLE + [_U32],
    "pallaymi_take_up": _MEMORY + _TABLE + [_U32, _U32, _I32, _I32],
    "pallaymi_step": _MEMORY + _TABLE + [_U32],
    "pallaymi_listing": _MEMORY + _OUTPUT,
    "pallaymi_sweep": _MEMORY + _MEMORY + _TABLE,
    "pallaymi_run": _SCRIPT + _MEMORY + _OUTPUT,
}


class LibraryMissing(Exception):
    """The C library is not there, or is not one that this package can use."""


def path() -> Path:
    """The library's file: what PALLAYMI_LIBRARY names, or else what python/build makes."""
    named = os.environ.get(VARIABLE)
    return Path(named) if named else BUILT


@functools.lru_cache(maxsize=None)
def library() -> ctypes.CDLL:
    """The library, loaded at the first use, with its functions typed."""
    file = path()
    if not file.is_file():
        raise LibraryMissing(f"{file} is not there; the command python/build makes {BUILT}")
    try:
        loaded = ctypes.CDLL(str(file.resolve()))
        _type_functions(loaded)
    except (OSError, AttributeError) as error:
        message = f"{file} cannot be used ({error}); the command python/build makes {BUILT}"
        raise LibraryMissing(message) from error
    return loaded


def _type_functions(loaded: ctypes.CDLL) -> None:
    """Declares what each function takes and returns; a missing one raises AttributeError."""
    for name in _SIZES:
        function = getattr(loaded, name)
        function.argtypes = []
        function.restype = _SIZE
    for name, takes in _CALLS.items():
        function = getattr(loaded, name)
        function.argtypes = takes
        function.restype = ctypes.c_uint64
