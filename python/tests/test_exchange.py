"""What was pushed is what is pulled, each call has its answer, and groups and ranks are closed."""

import gc
import sys
import unittest

import bale


def alone(buffer=4):
    """The one rank of a group, in an epoch."""
    rank = bale.Group([1], buffer=buffer).rank(0)
    rank.begin()
    return rank


def poll(ranks):
    """Polls ranks that have pushed all, until they have pulled all; what each pulled of each."""
    pulled = [[[] for _ in ranks] for _ in ranks]
    open_ranks = set(ranks)
    while open_ranks:
        for rank in ranks:
            if rank.advance(True) is bale.Progress.COMPLETE:
                open_ranks.discard(rank)
            for sender, item in rank.drain():
                pulled[rank.number][sender].append(item)
    return pulled


class Exchange(unittest.TestCase):
    def test_items_come_in_the_order_of_each_sender_in_each_epoch(self):
        ranks = bale.Group([3], buffer=16).ranks()
        for epoch in range(3):
            for rank in ranks:
                rank.begin()
                for to in range(3):
                    for k in range(4):
                        self.assertTrue(rank.push((rank.number, epoch, k), to))
            wanted = [[[(sender, epoch, k) for k in range(4)] for sender in range(3)]] * 3
            self.assertEqual(poll(ranks), wanted)
            for rank in ranks:
                rank.reset()

    def test_a_full_buffer(self):
        rank = alone(4)
        self.assertEqual([rank.push((k, 0, 0), 0) for k in range(6)], [True] * 4 + [False] * 2)
        self.assertEqual(poll([rank]), [[[(k, 0, 0) for k in range(4)]]])

    def test_statistics(self):
        ranks = bale.Group([2], buffer=4).ranks()
        self.assertEqual(ranks[0].statistics(), bale.Statistics(0, 0, 0, 0))
        for rank in ranks:
            rank.begin()
        for k in range(4):
            ranks[0].push((k, 0, 0), 1)
        poll(ranks)
        # One buffer on each link: the last one of the epoch, which to rank 1 has the four items.
        self.assertEqual(ranks[0].statistics(), bale.Statistics(2, 4, 2, 0))
        self.assertEqual(ranks[1].statistics(), bale.Statistics(2, 0, 2, 4))
        ranks[1].close()
        with self.assertRaises(bale.Misuse) as caught:
            ranks[1].statistics()
        self.assertIs(caught.exception.answer, bale.Answer.GONE)

    def test_many_items(self):
        rank = alone(8)
        self.assertEqual(rank.push_many([(k, k, 2 * k) for k in range(9)], [0] * 9), 8)
        self.assertEqual(rank.pull_many(), ([], []))
        rank.advance(True)
        rank.advance(True)
        self.assertEqual(rank.pull_many(5), ([0] * 5, [(k, k, 2 * k) for k in range(5)]))
        self.assertEqual(rank.pull_many(5), ([0] * 3, [(k, k, 2 * k) for k in range(5, 8)]))

    def test_an_item_is_put_back_once(self):
        rank = alone()
        rank.push((1, 2, 3), 0)
        self.assertIsNone(rank.pull())
        self.assertFalse(rank.unpull())
        while (pulled := rank.pull()) is None:
            rank.advance(True)
        self.assertEqual(pulled, (0, (1, 2, 3)))
        self.assertTrue(rank.unpull())
        self.assertFalse(rank.unpull())
        self.assertEqual(rank.pull(), pulled)
        self.assertIsNone(rank.pull())

    def test_a_drain_that_is_left_early_leaves_the_rest(self):
        rank = alone()
        for k in range(3):
            rank.push((k, 0, 0), 0)
        while next(rank.drain(), None) is None:
            rank.advance(True)
        self.assertEqual([item[0] for _sender, item in rank.drain()], [1, 2])

    def test_steady_sends_at_once(self):
        for steady in (False, True):
            rank = bale.Group([1], steady=steady).rank(0)
            rank.begin()
            rank.push((1, 2, 3), 0)
            rank.advance()
            rank.advance()
            self.assertEqual(rank.pull() is not None, steady)


class States(unittest.TestCase):
    def refused(self, answer, call, *arguments):
        with self.assertRaises(bale.Misuse) as caught:
            call(*arguments)
        self.assertIs(caught.exception.answer, answer)

    def test_calls_out_of_order(self):
        rank = bale.Group([1]).rank(0)
        self.refused(bale.Answer.NOT_BEGUN, rank.push, (1, 2, 3), 0)
        self.refused(bale.Answer.NOT_BEGUN, rank.push_many, [], [])
        for call in (rank.pull, rank.pull_many, rank.advance):
            self.refused(bale.Answer.NOT_BEGUN, call)
        self.refused(bale.Answer.NOT_COMPLETE, rank.reset)
        rank.begin()
        self.refused(bale.Answer.BEGUN, rank.begin)
        self.assertEqual(rank.advance(), bale.Progress.MORE)
        while rank.advance(True):
            pass
        self.refused(bale.Answer.SAID_DONE, rank.push, (1, 2, 3), 0)
        self.refused(bale.Answer.SAID_DONE, rank.advance, False)
        rank.reset()

    def test_a_rank_is_made_once(self):
        group = bale.Group([2, 3])
        self.refused(bale.Answer.NO_RANK, group.rank, 6)
        rank = group.rank(5)
        self.assertEqual((rank.number, rank.ranks), (5, 6))
        self.assertEqual(repr(rank), "<bale.Rank 5 of 6>")
        self.refused(bale.Answer.TAKEN, group.rank, 5)
        self.refused(bale.Answer.TAKEN, group.ranks)
        self.assertEqual([rank.number for rank in bale.Group([2, 2]).ranks()], [0, 1, 2, 3])

    def test_phases_and_progress(self):
        first, second = bale.Group([2], buffer=1, slots=1).ranks()
        self.assertIs(first.phase, bale.Phase.DORMANT)
        first.begin()
        self.assertIs(first.phase, bale.Phase.WORKING)
        # The link has one slot, so the second buffer waits until the receiver took the first.
        first.push((1, 0, 0), 1)
        self.assertIs(first.advance(), bale.Progress.MORE)
        first.push((2, 0, 0), 1)
        self.assertIs(first.advance(True), bale.Progress.MORE)
        self.assertIs(first.phase, bale.Phase.ENDGAME)
        second.begin()
        while first.advance(True) is not bale.Progress.NEAR:
            second.advance()
            list(second.drain())
        self.assertIs(first.phase, bale.Phase.CLEANUP)
        while first.advance(True) is not bale.Progress.COMPLETE:
            second.advance(True)
            list(second.drain())
        self.assertIs(first.phase, bale.Phase.COMPLETE)

    def test_progress_is_true_while_the_exchange_goes_on(self):
        self.assertEqual([bool(one) for one in bale.Progress], [True, True, False])
        self.assertNotEqual(bale.Progress.COMPLETE, bale.Phase.COMPLETE)

    def test_answers_of_the_library_that_are_none(self):
        from bale._answers import checked

        self.assertEqual(checked(7), 7)
        with self.assertRaisesRegex(MemoryError, "no memory"):
            checked(-1)
        with self.assertRaisesRegex(RuntimeError, "another version: it answered -13"):
            checked(-13)


class Closing(unittest.TestCase):
    def gone(self, call, *arguments):
        with self.assertRaises(bale.Misuse) as caught:
            call(*arguments)
        self.assertIs(caught.exception.answer, bale.Answer.GONE)

    def test_with_closes(self):
        with bale.Group([2]) as group, group.rank(0) as rank:
            rank.begin()
        self.gone(rank.push, (1, 2, 3), 0)
        self.gone(rank.pull_many)
        self.gone(lambda: rank.phase)
        self.gone(group.rank, 1)
        self.assertEqual((rank.number, rank.ranks), (0, 2))

    def test_close_may_be_repeated_and_come_in_any_order(self):
        group = bale.Group([1])
        rank = group.rank(0)
        group.close()
        group.close()
        rank.begin()
        while rank.advance(True):
            pass
        rank.close()
        rank.close()
        self.gone(rank.begin)

    def test_what_was_never_made_is_dropped_quietly(self):
        said = []
        self.addCleanup(setattr, sys, "unraisablehook", sys.unraisablehook)
        sys.unraisablehook = said.append
        for make in (lambda: bale.Group([0]), lambda: bale.Group([2]).rank(2), bale.Group, bale.Rank):
            with self.assertRaises((bale.Misuse, TypeError)):
                make()
        gc.collect()
        self.assertEqual(said, [])

    def test_two_threads_are_not_in_one_rank_at_once(self):
        rank = alone()
        calls = [lambda: rank.push((1, 2, 3), 0), lambda: rank.push_many([], [])]
        calls += [rank.pull, rank.pull_many, rank.advance, rank.close]
        # The state in which another thread's call leaves the rank until it returns.
        with rank._in_call:
            for call in calls:
                with self.assertRaisesRegex(RuntimeError, "another thread"):
                    call()
        self.assertIsNone(rank.pull())


if __name__ == "__main__":
    unittest.main()
