"""The example and the benchmark, run as programs."""

import subprocess
import sys
import unittest

import support

TWO_COLLECTORS = """\
collector 0 adds 10: DONE
collector 1 adds 20: DONE
collector 0, step 1: going on, met 0
collector 1, step 1: going on, met 0
collector 0, step 2: going on, met 0
collector 1, step 2: going on, met 0
collector 0, step 3: going on, met 0
collector 1, step 3: going on, met 0
collector 0, step 4: going on, met 1
collector 1, step 4: going on, met 1
collector 0, step 5: going on, met 1
collector 1, step 5: going on, met 1
collector 0, step 6: going on, met 2
collector 1, step 6: going on, met 2
collector 0, step 7: going on, met 2
collector 1, step 7: going on, met 2
collector 0, step 8: WOULD_CLOSE_LOOP
collector 1, step 8: WOULD_CLOSE_LOOP
series: 10 20
derivations:
collector 0: DONE
collector 1: WOULD_CLOSE_LOOP
series: 10 20
derivations: 10->20
"""


def printed(program, *words):
    """What a program of this folder prints."""
    command = [sys.executable, str(support.PYTHON / program), *words]
    return subprocess.run(
        command, stdout=subprocess.PIPE, universal_newlines=True, check=True
    ).stdout


class Programs(unittest.TestCase):
    def test_two_collectors(self):
        self.assertEqual(printed("examples/two_collectors.py"), TWO_COLLECTORS)

    def test_the_benchmark_on_a_short_day(self):
        text = printed("bench.py", "--requests", "200")
        self.assertIn("200 requests", text)
        self.assertIn("all replies agree", text)
        self.assertIn("steps per second", text)


if __name__ == "__main__":
    unittest.main()
