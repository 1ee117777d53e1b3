"""Random schedules: the catalogue stepped from Python, the library's run, and the drill agree."""

import random
import unittest

import support
from pallaymi import (
    AddDerivation,
    AddSeries,
    HasDerivation,
    HasSeries,
    RemoveDerivation,
    RemoveSeries,
    run,
)

SEEDS = range(1, 251)
OF_SERIES = (AddSeries, AddSeries, AddSeries, RemoveSeries, HasSeries)
OF_DERIVATIONS = (AddDerivation, AddDerivation, AddDerivation, RemoveDerivation, HasDerivation)
EXTREMES = (-(2**31) + 1, -1, 0, 2**31 - 2)


def random_request(source, keys):
    """A request on one of the keys, or on two; more additions than removals."""
    if source.random() < 0.4:
        return source.choice(OF_SERIES)(source.choice(keys))
    return source.choice(OF_DERIVATIONS)(source.choice(keys), source.choice(keys))


def random_turns(source, workers, count):
    """Turns in runs of one, or of up to 3 or 12, as the seed chooses."""
    longest = source.choice((1, 3, 12))
    turns = []
    while len(turns) < count:
        turns += [source.randrange(workers)] * source.randint(1, longest)
    return turns[:count]


def random_script(seed):
    """Few keys make the workers meet; many make the lists long."""
    source = random.Random(seed)
    workers = source.randint(1, 8)
    keys = EXTREMES + tuple(range(1, source.choice((2, 4, 40))))
    total = source.randint(0, 1024 if seed % 10 == 0 else 120)
    requests = [[] for _ in range(workers)]
    for _ in range(total):
        source.choice(requests).append(random_request(source, keys))
    turns = source.randint(0, 8192 if seed % 10 == 0 else 1500)
    return support.Script(requests, random_turns(source, workers, turns))


class RandomSchedules(unittest.TestCase):
    def test_stepping_gives_what_the_run_gives(self):
        replies = set()
        for seed in SEEDS:
            script = random_script(seed)
            ran = run(script.text())
            self.assertEqual(script.play(), ran.text, f"seed {seed}")
            replies.update(line.reply for line in ran.replies)
        self.assertEqual(sorted(replies), [1, 2, 3, 4, 5, 6, 7, 8])

    @unittest.skipUnless(support.DRILL.is_file(), f"there is no drill at {support.DRILL}")
    def test_stepping_gives_what_the_drill_prints(self):
        for seed in SEEDS:
            script = random_script(seed)
            printed = support.drill(script.text().encode())
            self.assertEqual(script.play().encode(), printed, f"seed {seed}")


if __name__ == "__main__":
    unittest.main()
