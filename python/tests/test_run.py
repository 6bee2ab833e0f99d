"""bale.run: it starts the ranks' threads, joins them, and raises what a rank raised."""

import os
import signal
import threading
import time
import unittest
from unittest import mock

import bale


def sum_of_numbers(rank):
    total, to, progress, end = 0, 0, bale.Progress.MORE, time.monotonic() + 20
    rank.begin()
    while progress is not bale.Progress.COMPLETE:
        assert time.monotonic() < end, "the epoch does not end"
        while to < rank.ranks and rank.push((rank.number, 0, 0), to):
            to += 1
        progress = rank.advance(to == rank.ranks)
        total += sum(number for _sender, (number, _, _) in rank.drain())
        time.sleep(0)
    rank.reset()
    return total


def threads():
    return [thread for thread in threading.enumerate() if thread.name.startswith("bale rank")]


class Run(unittest.TestCase):
    def tearDown(self):
        self.assertEqual(threads(), [])

    def wait_for_threads(self):
        """After its work a thread is listed for a moment, if it was not joined."""
        end = time.monotonic() + 1
        while threads() and time.monotonic() < end:
            time.sleep(0.01)

    def test_results_by_rank(self):
        pairs = bale.run(5, lambda rank: (rank.number, sum_of_numbers(rank)))
        self.assertEqual(pairs, [(k, 10) for k in range(5)])
        self.assertEqual(bale.run([2, 3], sum_of_numbers, buffer=1, slots=1, steady=True), [15] * 6)

    def test_numbers_of_the_group(self):
        def full(rank):
            rank.begin()
            count = 0
            while rank.push((0, 0, 0), 0):
                count += 1
            while rank.advance(True):
                list(rank.drain())
            return count

        self.assertEqual(bale.run(1, full, buffer=8), [8])
        for wrong in ({"buffer": 3}, {"slots": 3}):
            with self.assertRaises(bale.Misuse):
                bale.run(1, full, **wrong)
        with self.assertRaises(TypeError):
            bale.run(1, full, steady=1)

    def test_each_rank_has_a_thread(self):
        names = bale.run(3, lambda rank: threading.current_thread().name)
        self.assertEqual(names, ["bale rank 0", "bale rank 1", "bale rank 2"])

    def test_an_exception_is_raised_and_stops_the_others(self):
        stopped = []

        def work(rank):
            if rank.number == 2:
                raise KeyError("of rank 2")
            try:
                return sum_of_numbers(rank)
            except bale.Stopped:
                stopped.append(rank.number)
                raise

        with self.assertRaisesRegex(KeyError, "of rank 2") as caught:
            bale.run(4, work)
        self.assertEqual(sorted(stopped), [0, 1, 3])
        if hasattr(caught.exception, "add_note"):
            self.assertEqual(caught.exception.__notes__, ["It was raised in rank 2 of bale.run."])

    def test_an_interrupt_stops_all_ranks(self):
        self.addCleanup(signal.signal, signal.SIGINT, signal.getsignal(signal.SIGINT))
        signal.signal(signal.SIGINT, signal.default_int_handler)

        stopped = []

        def work(rank):
            rank.begin()
            if rank.number == 1:
                os.kill(os.getpid(), signal.SIGINT)
            end = time.monotonic() + 20
            try:
                while time.monotonic() < end:
                    rank.advance()
            except bale.Stopped:
                time.sleep(0.2)
                stopped.append(rank.number)

        began = time.monotonic()
        with self.assertRaises(KeyboardInterrupt):
            bale.run(3, work)
        # The thread was waited for. Others may not have been started before the interrupt.
        self.assertIn(1, stopped)
        self.assertLess(time.monotonic() - began, 15)
        self.wait_for_threads()

    def test_a_thread_that_cannot_be_started_stops_the_others(self):
        start = threading.Thread.start

        def start_some(thread):
            if thread.name == "bale rank 2":
                raise RuntimeError("can't start new thread")
            start(thread)

        with mock.patch.object(threading.Thread, "start", start_some):
            with self.assertRaisesRegex(RuntimeError, "can't start new thread"):
                bale.run(4, sum_of_numbers)
        self.wait_for_threads()

    def test_a_return_within_an_epoch(self):
        def work(rank):
            if rank.number == 1:
                rank.begin()
                return 0
            return sum_of_numbers(rank)

        with self.assertRaisesRegex(RuntimeError, "rank 1 returned before its epoch was over"):
            bale.run(2, work)

    def test_ranks_are_closed(self):
        ranks = []
        bale.run(2, ranks.append)
        self.assertEqual(len(ranks), 2)
        for rank in ranks:
            with self.assertRaises(bale.Misuse) as caught:
                rank.begin()
            self.assertIs(caught.exception.answer, bale.Answer.GONE)

    def test_a_rank_may_close_itself(self):
        self.assertEqual(bale.run(2, lambda rank: rank.close()), [None, None])

    def test_numbers_that_are_none(self):
        with self.assertRaises(TypeError):
            bale.run(2.0, sum_of_numbers)
        with self.assertRaises(bale.Misuse):
            bale.run(65, sum_of_numbers)


if __name__ == "__main__":
    unittest.main()
