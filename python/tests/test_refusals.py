"""Every refusal from 20 to 27, reached from Python; none changes anything."""

import contextlib
import pickle
import unittest

import support
from pallaymi import (
    AddDerivation,
    AddSeries,
    BusyRefused,
    Catalogue,
    CodeRefused,
    IdleRefused,
    KeyRefused,
    Refused,
    RemoveSeries,
    Request,
    RoomRefused,
    ScriptRefused,
    TornRefused,
    WorkerRefused,
    run,
)
from pallaymi.answers import check
from pallaymi.lent import Memory, make_output

HEAD_LINK = 2
TABLE_COUNT = 0
GOOD_SCRIPT = b"1 1 2\n1 5\n0 0\n"


def used_catalogue():
    """Two live series, a removed one, a derivation; worker 1 of 2 is in the middle of a call."""
    catalogue = Catalogue(workers=2)
    for request in (AddSeries(1), AddSeries(2), AddSeries(3), AddDerivation(1, 2), RemoveSeries(3)):
        catalogue.ask(0, request)
    catalogue.listing()
    catalogue.take_up(1, AddDerivation(2, 1)).step()
    return catalogue


class Refusals(unittest.TestCase):
    def setUp(self):
        self.catalogue = used_catalogue()
        self.lent = self.catalogue.lent

    @contextlib.contextmanager
    def refuses(self, refusal):
        """What is done within must be refused so, and change no lent byte."""
        before = support.everything(self.lent)
        busy = self.catalogue.busy
        with self.assertRaises(refusal) as caught:
            yield caught
        self.assertEqual(support.everything(self.lent), before)
        self.assertEqual(self.catalogue.busy, busy)

    def finish(self):
        """Steps worker 1 to its reply, so that all are idle."""
        while self.catalogue.busy:
            self.catalogue.step(1)

    def memories_of_other_sizes(self):
        keys, words = len(self.lent.memory.keys), len(self.lent.memory.words)
        for other in ((keys - 1, words), (keys + 1, words), (keys, words - 1), (keys, words + 1)):
            yield Memory(*other)
        yield Memory(0, 0)

    def test_20_memory(self):
        for self.lent.memory in self.memories_of_other_sizes():
            with self.refuses(RoomRefused):
                check(self.lent.fresh())
            with self.refuses(RoomRefused):
                self.catalogue.take_up(0, AddSeries(5))
            with self.refuses(RoomRefused):
                self.catalogue.step(1)
            with self.refuses(RoomRefused):
                self.catalogue.listing()
            with self.refuses(RoomRefused):
                self.catalogue.sweep()
            with self.refuses(RoomRefused):
                check(self.lent.run(GOOD_SCRIPT))

    def test_20_the_memory_to_sweep_into(self):
        self.finish()
        for self.lent.spare in self.memories_of_other_sizes():
            with self.refuses(RoomRefused):
                self.catalogue.sweep()

    def test_20_output(self):
        self.lent.output = make_output(65535)
        with self.refuses(RoomRefused):
            self.catalogue.listing()
        with self.refuses(RoomRefused):
            check(self.lent.run(GOOD_SCRIPT))

    def test_21_worker(self):
        for worker in (2, 7, 8, 2**32 - 1):
            with self.refuses(WorkerRefused):
                self.catalogue.take_up(worker, AddSeries(5))
            with self.refuses(WorkerRefused):
                self.catalogue.step(worker)

    def test_21_count_of_workers(self):
        for count in (0, 9, 2**32 - 1):
            with self.refuses(WorkerRefused):
                check(self.lent.make_table(count))

    def test_21_sweep_with_a_table_of_another_count(self):
        self.finish()
        for self.lent.table[TABLE_COUNT] in (0, 9):
            with self.refuses(WorkerRefused):
                self.catalogue.sweep()

    def test_22_taking_up(self):
        with self.refuses(BusyRefused):
            self.catalogue.take_up(1, AddSeries(5))

    def test_22_sweep(self):
        with self.refuses(BusyRefused):
            self.catalogue.sweep()
        self.finish()
        self.catalogue.sweep()

    def test_23_step(self):
        with self.refuses(IdleRefused):
            self.catalogue.step(0)

    def test_24_code(self):
        for code in (0, 7, 256, 2**32 - 1):
            with self.refuses(CodeRefused):
                self.catalogue.take_up(0, Request(code, 1, 2))

    def test_25_key(self):
        for key in (-(2**31), 2**31 - 1):
            for code in range(1, 7):
                with self.refuses(KeyRefused):
                    self.catalogue.take_up(0, Request(code, key, 2))
            for code in range(4, 7):
                with self.refuses(KeyRefused):
                    self.catalogue.take_up(0, Request(code, 1, key))

    def test_25_is_not_for_a_key_that_is_not_used(self):
        for code in range(1, 4):
            self.catalogue.take_up(0, Request(code, 9, 2**31 - 1)).finish()

    def test_26_memory(self):
        self.lent.memory.words[HEAD_LINK] = 4 * 256
        with self.refuses(TornRefused):
            self.catalogue.take_up(0, AddSeries(5))
        with self.refuses(TornRefused):
            self.catalogue.listing()
        self.lent.memory.words[:] = [2**32 - 1] * len(self.lent.memory.words)
        with self.refuses(TornRefused):
            self.catalogue.step(1)

    def test_26_sweep(self):
        self.finish()
        self.lent.memory.words[HEAD_LINK] += 1
        with self.refuses(TornRefused):
            self.catalogue.sweep()
        self.lent.memory.words[HEAD_LINK] -= 1
        self.catalogue.sweep()

    def test_27_script(self):
        bad = {b"": 1, b"1 1 2\n1 05\n0 0\n": 2, b"1 1 2\n1 5\n0 1\n": 3, b"0" * 49153: 0}
        for script, line in bad.items():
            with self.subTest(line=line):
                with self.refuses(ScriptRefused) as caught:
                    check(self.lent.run(script))
                self.assertEqual(caught.exception.line, line)
                with self.assertRaises(ScriptRefused) as caught:
                    run(script)
                self.assertEqual(caught.exception.line, line)

    def test_a_catalogue_goes_on_after_refusals(self):
        with self.refuses(BusyRefused):
            self.catalogue.ask(1, AddSeries(5))
        self.finish()
        self.assertEqual(self.catalogue.listing().text, "0 2 1\n1\n2\n1 2\n")


class RefusalObjects(unittest.TestCase):
    def test_numbers(self):
        numbers = sorted(refusal.number for refusal in Refused.__subclasses__())
        self.assertEqual(numbers, list(range(20, 28)))

    def test_words(self):
        self.assertEqual(str(IdleRefused()), "refused 23: the worker is idle")
        self.assertTrue(str(ScriptRefused(3)).startswith("refused 27 3: "))

    def test_they_can_be_sent_between_processes(self):
        sent = pickle.loads(pickle.dumps(ScriptRefused(3)))
        self.assertEqual((type(sent), sent.line), (ScriptRefused, 3))
        self.assertIs(type(pickle.loads(pickle.dumps(BusyRefused()))), BusyRefused)


class NumbersThatCDoesNotTake(unittest.TestCase):
    def setUp(self):
        self.catalogue = Catalogue(workers=1)

    def test_keys(self):
        for key in (-(2**31) - 1, 2**31, 2**32, 2**64 + 5):
            for request in (AddSeries(key), AddDerivation(key, 1), AddDerivation(1, key)):
                with self.subTest(request=request), self.assertRaisesRegex(ValueError, str(key)):
                    self.catalogue.take_up(0, request)
        self.assertEqual(self.catalogue.idle, (0,))

    def test_workers_and_codes(self):
        for number in (-1, 2**32, 2**32 + 1):
            with self.subTest(number=number):
                with self.assertRaisesRegex(ValueError, "a worker"):
                    self.catalogue.take_up(number, AddSeries(1))
                with self.assertRaisesRegex(ValueError, "a worker"):
                    self.catalogue.step(number)
                with self.assertRaisesRegex(ValueError, "a code"):
                    self.catalogue.take_up(0, Request(number, 1, 2))
                with self.assertRaisesRegex(ValueError, "a count of workers"):
                    Catalogue(workers=number)

    def test_what_is_no_whole_number(self):
        for value in (1.0, "1", None):
            with self.subTest(value=value):
                with self.assertRaises(TypeError):
                    self.catalogue.take_up(0, AddSeries(value))
                with self.assertRaises(TypeError):
                    self.catalogue.step(value)
                with self.assertRaises(TypeError):
                    Catalogue(workers=value)


if __name__ == "__main__":
    unittest.main()
