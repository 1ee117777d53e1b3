"""The checked examples of document 01, and the one that is only run."""

import unittest

import support  # noqa: F401
from pallaymi import (
    AddDerivation,
    AddSeries,
    Catalogue,
    Going,
    HasDerivation,
    KeyRefused,
    RemoveDerivation,
    RemoveSeries,
    Reply,
    Request,
    WorkerRefused,
)

LEAST = -(2**31)
GREATEST = 2**31 - 1


class CheckedExamples(unittest.TestCase):
    def setUp(self):
        self.catalogue = Catalogue(workers=2)

    def add_series(self, *keys):
        for key in keys:
            self.assertEqual(self.catalogue.ask(0, AddSeries(key)), Reply.DONE)

    def put_on_trial(self, worker, source, derived):
        """Four steps after the taking up, the derivation between series 1 and 2 is inserted."""
        call = self.catalogue.take_up(worker, AddDerivation(source, derived))
        self.assertEqual([call.step() for _ in range(4)], [Going(0)] * 3 + [Going(1)])
        return call

    def test_p1_the_loop_is_refused(self):
        requests = [AddSeries(5), AddSeries(7), AddDerivation(5, 7), AddDerivation(7, 5)]
        turn = 0
        told = []
        for request in requests:
            call = self.catalogue.take_up(0, request)
            reply = call.finish()
            turn += 1 + call.steps
            told.append((turn, request.code, reply))
        self.assertEqual(told, [(2, 1, 1), (5, 1, 1), (13, 4, 1), (22, 4, 6)])
        self.assertEqual(self.catalogue.listing().text, "0 2 1\n5\n7\n5 7\n")

    def test_p2_reserved_keys(self):
        for code in range(1, 7):
            for key in (LEAST, GREATEST):
                with self.subTest(code=code, key=key), self.assertRaises(KeyRefused):
                    self.catalogue.take_up(0, Request(code, key, 5))
        for code in range(4, 7):
            for key in (LEAST, GREATEST):
                with self.subTest(code=code, second=key), self.assertRaises(KeyRefused):
                    self.catalogue.take_up(0, Request(code, 5, key))

    def test_p3_the_keys_next_to_them(self):
        self.add_series(GREATEST - 1, LEAST + 1)
        self.assertEqual(self.catalogue.listing().series, (LEAST + 1, GREATEST - 1))

    def test_p4_a_series_derived_from_itself(self):
        self.add_series(5)
        self.assertEqual(self.catalogue.ask(0, AddDerivation(5, 5)), Reply.WOULD_CLOSE_LOOP)

    def test_p5_two_halves_turn_about(self):
        self.add_series(1, 2)
        first, second = self.put_on_trial(0, 1, 2), self.put_on_trial(1, 2, 1)
        for expected in (Going(1), Going(2), Going(2), Reply.WOULD_CLOSE_LOOP):
            self.assertEqual(first.step(), expected)
            self.assertEqual(second.step(), expected)
        self.assertEqual(self.catalogue.listing().derivations, ())

    def test_p6_two_halves_one_run_out_first(self):
        self.add_series(1, 2)
        first, second = self.put_on_trial(0, 1, 2), self.put_on_trial(1, 2, 1)
        self.assertEqual(first.finish(), Reply.WOULD_CLOSE_LOOP)
        self.assertEqual(second.finish(), Reply.DONE)
        self.assertEqual(self.catalogue.listing().derivations, ((2, 1),))

    def test_p7_removing_a_derivation_on_trial(self):
        self.add_series(1, 2)
        trial = self.put_on_trial(0, 1, 2)
        removed = self.catalogue.ask(1, RemoveDerivation(1, 2))
        self.assertEqual(removed, Reply.DERIVATION_NOT_PRESENT)
        self.assertEqual(trial.finish(), Reply.DONE)

    def test_p8_removing_the_derived_series_during_the_trial(self):
        self.add_series(1, 2)
        trial = self.put_on_trial(0, 1, 2)
        self.assertEqual(self.catalogue.ask(1, RemoveSeries(2)), Reply.DONE)
        self.assertEqual(trial.step(), Reply.SERIES_NOT_PRESENT)

    def test_p9_asking_for_a_derivation_on_trial(self):
        self.add_series(1, 2)
        trial = self.put_on_trial(0, 1, 2)
        asked = self.catalogue.ask(1, HasDerivation(1, 2))
        self.assertEqual(asked, Reply.SERIES_OR_DERIVATION_NOT_PRESENT)
        self.assertEqual(trial.finish(), Reply.DONE)
        self.assertEqual(self.catalogue.ask(1, HasDerivation(1, 2)), Reply.DONE)

    def test_p10_counts_of_workers(self):
        for count in (0, 9):
            with self.subTest(count=count), self.assertRaises(WorkerRefused):
                Catalogue(workers=count)

    def test_room_runs_out_and_a_sweep_makes_some(self):
        self.add_series(*range(254))
        self.assertEqual(self.catalogue.ask(0, AddSeries(254)), Reply.NO_ROOM)
        self.assertEqual(self.catalogue.ask(0, AddSeries(100)), Reply.SERIES_NOT_SO)
        self.assertEqual(self.catalogue.ask(0, RemoveSeries(100)), Reply.DONE)
        self.assertEqual(self.catalogue.ask(0, AddSeries(254)), Reply.NO_ROOM)
        self.catalogue.sweep()
        self.assertEqual(self.catalogue.ask(0, AddSeries(254)), Reply.DONE)
        self.assertEqual(len(self.catalogue.listing().series), 254)


if __name__ == "__main__":
    unittest.main()
