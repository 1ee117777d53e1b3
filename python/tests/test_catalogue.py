"""The catalogue from Python: calls and their contexts, views, sweeps, listings, threads."""

import dataclasses
import random
import threading
import unittest

import support  # noqa: F401
from pallaymi import (
    AddDerivation,
    AddSeries,
    Catalogue,
    Going,
    HasDerivation,
    HasSeries,
    RemoveDerivation,
    RemoveSeries,
    Reply,
    Request,
    TornRefused,
)


class Requests(unittest.TestCase):
    def test_numbers(self):
        named = [AddSeries(5), RemoveSeries(5), HasSeries(5)]
        named += [AddDerivation(5, 7), RemoveDerivation(5, 7), HasDerivation(5, 7)]
        numbers = [(request.code, request.first, request.second) for request in named]
        expected = [(1, 5, 0), (2, 5, 0), (3, 5, 0), (4, 5, 7), (5, 5, 7), (6, 5, 7)]
        self.assertEqual(numbers, expected)

    def test_they_are_values(self):
        self.assertEqual(AddSeries(5), AddSeries(series=5))
        self.assertNotEqual(AddSeries(5), HasSeries(5))
        self.assertEqual(repr(AddDerivation(5, 7)), "AddDerivation(source=5, derived=7)")
        with self.assertRaises(dataclasses.FrozenInstanceError):
            AddSeries(5).series = 6


class Calls(unittest.TestCase):
    def setUp(self):
        self.catalogue = Catalogue(workers=2)
        for key in (1, 2, 3):
            self.catalogue.ask(0, AddSeries(key))

    def test_a_context_drives_the_call_to_its_reply(self):
        with self.catalogue.call(0, AddDerivation(1, 2)) as call:
            self.assertEqual(call.step(), Going(0))
            self.assertIsNone(call.reply)
            self.assertEqual(self.catalogue.busy, (0,))
        self.assertEqual(call.reply, Reply.DONE)
        self.assertEqual(self.catalogue.idle, (0, 1))

    def test_a_context_that_an_exception_leaves(self):
        with self.assertRaises(ZeroDivisionError):
            with self.catalogue.call(0, AddDerivation(1, 2)) as call:
                raise ZeroDivisionError
        self.assertEqual(call.reply, Reply.DONE)
        self.assertEqual(self.catalogue.busy, ())

    def test_a_context_within_which_the_reply_came(self):
        with self.catalogue.call(0, HasSeries(1)) as call:
            self.assertEqual(call.step(), Reply.DONE)
            self.assertEqual(self.catalogue.ask(0, HasSeries(4)), Reply.SERIES_NOT_SO)
        self.assertEqual((call.reply, call.steps), (Reply.DONE, 1))

    def test_a_call_that_is_over_steps_no_other(self):
        over = self.catalogue.take_up(0, HasSeries(1))
        over.finish()
        other = self.catalogue.take_up(0, HasSeries(3))
        with self.assertRaises(RuntimeError):
            over.step()
        self.assertEqual(other.steps, 0)
        self.assertEqual(over.finish(), Reply.DONE)

    def test_a_call_hears_of_steps_made_by_worker_number(self):
        call = self.catalogue.take_up(1, AddDerivation(1, 2))
        while call.met == 0:
            self.assertEqual(self.catalogue.step(1), Going(call.met))
        self.assertEqual((call.met, call.steps), (1, 4))
        call.finish()
        self.assertEqual((call.met, call.reply), (0, Reply.DONE))

    def test_a_worker_that_took_up_by_the_low_level_layer_can_be_stepped(self):
        catalogue = Catalogue(workers=1)
        self.assertEqual(catalogue.lent.take_up(0, 1, 5, 0), 0)
        self.assertEqual(catalogue.step(0), Reply.DONE)
        self.assertEqual(catalogue.listing().series, (5,))

    def test_met_counts_the_series_that_the_trial_met(self):
        self.catalogue.ask(0, AddDerivation(2, 3))
        with self.catalogue.call(0, AddDerivation(1, 2)) as call:
            met = [told.met for told in iter(call.step, Reply.DONE)]
        self.assertEqual(met, [0, 0, 0, 1, 1, 2, 2, 2, 2])

    def test_torn_memory_in_a_context(self):
        with self.assertRaises(TornRefused):
            with self.catalogue.call(0, AddDerivation(1, 2)):
                self.catalogue.lent.memory.words[:] = [2] * len(self.catalogue.lent.memory.words)
        self.assertEqual(self.catalogue.busy, (0,))


class Replies(unittest.TestCase):
    def test_each_but_no_room(self):
        catalogue = Catalogue(workers=2)
        asked = [
            (AddSeries(1), Reply.DONE),
            (AddSeries(1), Reply.SERIES_NOT_SO),
            (RemoveSeries(2), Reply.SERIES_NOT_SO),
            (HasSeries(2), Reply.SERIES_NOT_SO),
            (AddDerivation(1, 2), Reply.SERIES_NOT_PRESENT),
            (RemoveDerivation(2, 1), Reply.SERIES_NOT_PRESENT),
            (HasDerivation(1, 2), Reply.SERIES_OR_DERIVATION_NOT_PRESENT),
            (AddSeries(2), Reply.DONE),
            (RemoveDerivation(1, 2), Reply.DERIVATION_NOT_PRESENT),
            (AddDerivation(1, 2), Reply.DONE),
            (AddDerivation(1, 2), Reply.DERIVATION_ALREADY_PRESENT),
            (AddDerivation(2, 1), Reply.WOULD_CLOSE_LOOP),
            (HasDerivation(1, 2), Reply.DONE),
            (RemoveDerivation(1, 2), Reply.DONE),
            (HasSeries(1), Reply.DONE),
        ]
        for request, reply in asked:
            with self.subTest(request=request):
                self.assertEqual(catalogue.ask(1, request), reply)

    def test_on_trial(self):
        catalogue = Catalogue(workers=2)
        catalogue.ask(0, AddSeries(1))
        catalogue.ask(0, AddSeries(2))
        with catalogue.call(0, AddDerivation(1, 2)) as call:
            while call.met == 0:
                call.step()
            self.assertEqual(catalogue.ask(1, AddDerivation(1, 2)), Reply.ON_TRIAL)

    def test_no_room_for_derivations(self):
        catalogue = Catalogue(workers=1)
        for key in (1, 2):
            catalogue.ask(0, AddSeries(key))
        for _ in range(2047):
            self.assertEqual(catalogue.ask(0, AddDerivation(1, 2)), Reply.DONE)
            self.assertEqual(catalogue.ask(0, RemoveDerivation(1, 2)), Reply.DONE)
        self.assertEqual(catalogue.ask(0, AddDerivation(1, 2)), Reply.NO_ROOM)
        catalogue.sweep()
        self.assertEqual(catalogue.ask(0, AddDerivation(1, 2)), Reply.DONE)

    def test_words(self):
        self.assertEqual(Reply(6).meaning, "the derivation would close a loop")
        self.assertEqual(len({reply.meaning for reply in Reply}), 9)

    def test_one_reply_is_done(self):
        self.assertEqual([reply for reply in Reply if reply.done], [Reply.DONE])


class SweepAndListing(unittest.TestCase):
    def test_empty(self):
        listing = Catalogue(workers=1).listing()
        self.assertEqual(listing.text, "0 0 0\n")
        self.assertEqual((listing.replies, listing.series, listing.derivations), ((), (), ()))

    def test_derivations_into_a_removed_series_are_counted_until_the_sweep(self):
        catalogue = Catalogue(workers=1)
        for request in (AddSeries(-1), AddSeries(2), AddDerivation(-1, 2), RemoveSeries(2)):
            catalogue.ask(0, request)
        before = catalogue.listing()
        self.assertEqual(before.contents, (0, 1, 1))
        self.assertEqual((before.series, before.derivations), ((-1,), ()))
        catalogue.sweep()
        self.assertEqual(catalogue.listing().text, "0 1 0\n-1\n")

    def test_a_sweep_keeps_what_is_live_and_the_memory_it_read(self):
        catalogue = Catalogue(workers=3)
        for key in range(10):
            catalogue.ask(0, AddSeries(key))
            catalogue.ask(1, AddDerivation(key - 1, key))
        catalogue.ask(2, RemoveSeries(5))
        before, read = catalogue.listing(), catalogue.lent.memory
        held = bytes(read.keys), bytes(read.words)
        catalogue.sweep()
        after = catalogue.listing()
        self.assertEqual((after.series, after.derivations), (before.series, before.derivations))
        self.assertIs(catalogue.lent.spare, read)
        self.assertEqual((bytes(read.keys), bytes(read.words)), held)
        self.assertEqual(after.contents, (0, 9, len(after.derivations)))

    def test_two_catalogues_share_nothing(self):
        one, other = Catalogue(workers=1), Catalogue(workers=1)
        one.ask(0, AddSeries(1))
        self.assertEqual(other.ask(0, HasSeries(1)), Reply.SERIES_NOT_SO)


class Threads(unittest.TestCase):
    def test_eight_threads_close_no_loop(self):
        catalogue = Catalogue(workers=8)
        for key in range(12):
            catalogue.ask(0, AddSeries(key))
        failures = []

        def collect(worker):
            source = random.Random(worker)
            try:
                for _ in range(150):
                    kind = source.choice((AddDerivation, AddDerivation, RemoveDerivation))
                    catalogue.ask(worker, kind(source.randrange(12), source.randrange(12)))
            except Exception as failure:
                failures.append(failure)

        threads = [threading.Thread(target=collect, args=(worker,)) for worker in range(8)]
        for thread in threads:
            thread.start()
        for thread in threads:
            thread.join()
        self.assertEqual(failures, [])
        self.assertEqual(catalogue.busy, ())
        self.assert_no_loop(catalogue.listing())

    def assert_no_loop(self, listing):
        """Takes away the series that are derived from none of the rest, until none is left."""
        series, derivations = set(listing.series), set(listing.derivations)
        self.assertTrue(derivations)
        while series:
            roots = series - {derived for _, derived in derivations}
            self.assertTrue(roots, derivations)
            series -= roots
            derivations = {each for each in derivations if each.source not in roots}


class RawRequests(unittest.TestCase):
    def test_a_raw_request_is_the_named_one(self):
        catalogue = Catalogue(workers=1)
        self.assertEqual(catalogue.ask(0, Request(1, 5)), Reply.DONE)
        self.assertEqual(catalogue.ask(0, HasSeries(5)), Reply.DONE)


if __name__ == "__main__":
    unittest.main()
