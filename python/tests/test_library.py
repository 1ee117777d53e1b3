"""Where the package looks for the library, and that its types are those of the C header."""

import ctypes
import os
import re
import shutil
import subprocess
import sys
import tempfile
import unittest
from pathlib import Path

import support
from pallaymi import _library, requests

HEADER = (support.ROOT / "host" / "pallaymi.h").read_text()
WHOLE_FUNCTION = re.compile(r"^(?:size_t|uint64_t) (pallaymi_\w+)\(([^)]*)\);", re.MULTILINE)
TYPES = {
    "int32_t *": [ctypes.POINTER(ctypes.c_int32)],
    "uint32_t *": [ctypes.POINTER(ctypes.c_uint32)],
    "uint8_t *": [ctypes.POINTER(ctypes.c_uint8), ctypes.c_char_p],
    "pallaymi_workers *": [ctypes.POINTER(ctypes.c_uint64)],
    "size_t ": [ctypes.c_size_t],
    "uint32_t ": [ctypes.c_uint32],
    "int32_t ": [ctypes.c_int32],
}


def declared():
    """Each function of the header, with the types of what it takes."""
    for name, takes in WHOLE_FUNCTION.findall(HEADER):
        one = "" if takes == "void" else takes
        yield name, [re.sub(r"\w+$", "", word.strip()) for word in one.split(",") if one]


def list_one(library):
    """Lists an empty catalogue in a new process, with this library."""
    return subprocess.run(
        [sys.executable, "-c", "import pallaymi; print(pallaymi.Catalogue(2).listing().text)"],
        env={**os.environ, "PYTHONPATH": str(support.PYTHON), _library.VARIABLE: str(library)},
        stdout=subprocess.PIPE,
        stderr=subprocess.PIPE,
        universal_newlines=True,
    )


class Library(unittest.TestCase):
    def setUp(self):
        self.folder = Path(tempfile.mkdtemp())
        self.addCleanup(shutil.rmtree, self.folder)

    def test_a_missing_library_names_the_command(self):
        missing = self.folder / "none.so"
        errors = list_one(missing).stderr
        self.assertIn("LibraryMissing", errors)
        self.assertIn(str(missing), errors)
        self.assertIn("python/build", errors)

    def test_a_file_that_is_no_library(self):
        text = self.folder / "text.so"
        text.write_text("no library\n")
        errors = list_one(text).stderr
        self.assertIn("LibraryMissing", errors)
        self.assertIn("python/build", errors)

    def test_another_file(self):
        other = self.folder / "other.so"
        shutil.copy(_library.path(), other)
        self.assertEqual(list_one(other).stdout, "0 0 0\n\n")


class Header(unittest.TestCase):
    def test_functions(self):
        functions = dict(declared())
        self.assertEqual(set(functions), {*_library._SIZES, *_library._CALLS})
        for name, takes in functions.items():
            with self.subTest(function=name):
                typed = getattr(_library.library(), name).argtypes
                self.assertEqual(len(typed), len(takes))
                for given, said in zip(typed, takes):
                    self.assertIn(given, TYPES[said.replace("const ", "")])

    def test_codes(self):
        codes = dict(re.findall(r"PALLAYMI_(\w+) = (\d)", HEADER))
        named = {
            re.sub(r"(?<=[a-z])(?=[A-Z])", "_", kind.__name__).upper(): str(kind.code)
            for kind in requests.AnyRequest.__args__
            if kind is not requests.Request
        }
        self.assertEqual(named, codes)


if __name__ == "__main__":
    unittest.main()
