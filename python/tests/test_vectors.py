"""The stored scripts, good and damaged, played by the library's run."""

import unittest

import support
from pallaymi import ScriptRefused, run

VECTORS = sorted((support.ROOT / "second" / "vectors").glob("*.script"))


def result_of(script):
    """The result as the drill prints it."""
    try:
        return run(script).text
    except ScriptRefused as refused:
        return f"refused {refused.number} {refused.line}\n"


class StoredScripts(unittest.TestCase):
    def test_each_gives_its_stored_result(self):
        refused = 0
        for script in VECTORS:
            with self.subTest(script=script.name):
                stored = script.with_suffix(".result").read_text()
                self.assertEqual(result_of(script.read_bytes()), stored)
                refused += stored.startswith("refused")
        self.assertGreater(refused, 0)
        self.assertGreater(len(VECTORS), refused)

    def test_a_text_is_played_as_its_bytes(self):
        script = support.ROOT / "second" / "vectors" / "p1.script"
        self.assertEqual(run(script.read_text()), run(script.read_bytes()))

    def test_a_result_is_taken_apart(self):
        result = run((support.ROOT / "second" / "vectors" / "p1.script").read_bytes())
        self.assertEqual(result.contents, (4, 2, 1))
        replies = [(2, 0, 1, 1), (5, 0, 1, 1), (13, 0, 4, 1), (22, 0, 4, 6)]
        self.assertEqual(list(result.replies), replies)
        self.assertEqual(result.series, (5, 7))
        self.assertEqual(result.derivations, ((5, 7),))


if __name__ == "__main__":
    unittest.main()
