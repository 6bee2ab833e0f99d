"""Arrays of numpy, left out without numpy."""

import unittest

try:
    import numpy
except ImportError:
    numpy = None

import bale

RANKS, ITEMS = 3, 700
LARGEST = 2**64 - 1


def arrays(number):
    """The items of a rank, and the ranks that they are for."""
    items = [(k, LARGEST - number, k * k) for k in range(ITEMS)]
    to = [(k * k + number) % RANKS for k in range(ITEMS)]
    return numpy.array(items, dtype=numpy.uint64), numpy.array(to, dtype=numpy.uint32)


def other_arrays(number):
    """Columns first in memory, another order of bytes, and ranks of another dtype."""
    items, to = arrays(number)
    return numpy.asfortranarray(items.astype(">u8")), to.astype(numpy.int64)


def strided_arrays(number):
    """Of the dtypes of the library, with other numbers between."""
    items, to = arrays(number)
    return numpy.repeat(items, 2, axis=0)[::2], numpy.repeat(to, 2)[::2]


def exchanged(rank, items, to):
    """One epoch; what came of each rank."""
    came, at, progress = [[] for _ in range(rank.ranks)], 0, bale.Progress.MORE
    rank.begin()
    while progress is not bale.Progress.COMPLETE:
        if at < len(items):
            at += rank.push_many(items[at:], to[at:])
        progress = rank.advance(at == len(items))
        # Few at a time, so that most calls end within a buffer.
        senders = [0]
        while len(senders) > 0:
            senders, rows = rank.pull_arrays(17 + rank.number)
            for sender, row in zip(senders, rows):
                came[sender].append(row)
    return came


@unittest.skipIf(numpy is None, "numpy isn't here")
class Arrays(unittest.TestCase):
    def setUp(self):
        self.rank = bale.Group([2], buffer=4).rank(0)
        self.rank.begin()

    def test_arrays_come_as_they_were_pushed(self):
        for kind in (arrays, other_arrays, strided_arrays):
            parts = bale.run(RANKS, lambda rank: exchanged(rank, *kind(rank.number)))
            for me, part in enumerate(parts):
                for sender, rows in enumerate(part):
                    items, to = arrays(sender)
                    self.assertEqual([row.tolist() for row in rows], items[to == me].tolist())

    def test_shapes_and_dtypes_of_what_is_pulled(self):
        self.rank.push((1, 2, LARGEST), 0)
        for places in (0, 5):
            senders, rows = self.rank.pull_arrays(places)
            self.assertEqual((senders.shape, rows.shape), ((0,), (0, 3)))
        while True:
            self.rank.advance(True)
            senders, rows = self.rank.pull_arrays()
            if len(senders) > 0:
                break
        self.assertEqual((senders.dtype, rows.dtype, rows.shape), (numpy.uint32, numpy.uint64, (1, 3)))
        self.assertEqual(rows.tolist(), [[1, 2, LARGEST]])
        with self.assertRaisesRegex(ValueError, "at least 0"):
            self.rank.pull_arrays(-1)

    def test_views_lend_what_the_next_pulls_give(self):
        def work(rank):
            items, to = arrays(rank.number)
            came, at, progress = [[] for _ in range(rank.ranks)], 0, bale.Progress.MORE
            rank.begin()
            while progress is not bale.Progress.COMPLETE:
                for sender, rows in rank.views():
                    self.assertEqual((rows.dtype, rows.shape[1:]), (numpy.uint64, (3,)))
                    # What is pushed while they are lent leaves them as they are.
                    before = rows.copy()
                    if at < ITEMS:
                        at += rank.push_many(items[at : at + 5], to[at : at + 5])
                    self.assertEqual(rows.tolist(), before.tolist())
                    came[sender] += before.tolist()
                if at < ITEMS:
                    at += rank.push_many(items[at : at + 50], to[at : at + 50])
                progress = rank.advance(at == ITEMS)
            rank.reset()
            return came

        for grid in ([RANKS], [1, RANKS]):
            parts = bale.run(grid, work, buffer=16)
            for me, part in enumerate(parts):
                for sender, rows in enumerate(part):
                    items, to = arrays(sender)
                    self.assertEqual(rows, items[to == me].tolist())

    def lent(self):
        """A rank to which four items were sent, and more in the next buffer."""
        rank = bale.Group([1], buffer=4).rank(0)
        rank.begin()
        for k in range(4):
            rank.push((k, LARGEST, k * k), 0)
        while not any(True for _ in rank.views()):
            rank.advance(True)
        return rank

    def test_a_view_is_read_only_and_no_copy(self):
        for sender, rows in self.lent().views():
            self.assertEqual((sender, rows.tolist()), (0, [[k, LARGEST, k * k] for k in range(4)]))
            self.assertFalse(rows.flags.owndata or rows.flags.writeable)
            with self.assertRaises(ValueError):
                rows[0, 0] = 1

    def test_a_loop_over_views_that_is_left_early_pulls_nothing(self):
        rank = self.lent()
        for _sender, rows in rank.views():
            break
        self.assertEqual(rank.pull(), (0, (0, LARGEST, 0)))
        for _sender, rows in rank.views():
            self.assertEqual(rows[:, 0].tolist(), [1, 2, 3])
        self.assertIsNone(rank.pull())
        self.assertEqual(list(rank.views()), [])

    def test_misuse_of_views(self):
        rank = self.lent()
        with self.assertRaises(bale.Misuse) as caught:
            for _ in rank.views():
                rank.pull()
        self.assertIs(caught.exception.answer, bale.Answer.NOT_LENT)
        with self.assertRaises(bale.Misuse) as caught:
            list(bale.Group([1]).rank(0).views())
        self.assertIs(caught.exception.answer, bale.Answer.NOT_BEGUN)

    def test_memory_stays_as_long_as_arrays_over_it(self):
        rank = self.lent()
        for _sender, rows in rank.views():
            part = rows[1:]
            break
        del rows
        rank.close()
        rank.close()
        self.assertEqual(part[:, 2].tolist(), [1, 4, 9])
        with self.assertRaises(bale.Misuse) as caught:
            rank.begin()
        self.assertIs(caught.exception.answer, bale.Answer.GONE)

    def test_items_of_other_dtypes(self):
        good = numpy.array([[1, 2, 3]])
        for dtype in (float, bool, object, complex, str, "M8[s]"):
            for rows in (good.astype(dtype), good[:0].astype(dtype)):
                with self.assertRaisesRegex(TypeError, "items are an array of whole numbers, not of"):
                    self.rank.push_many(rows, [0] * len(rows))
        for dtype in ("int8", "int64", "uint16", ">u4", ">i8"):
            self.assertEqual(self.rank.push_many(good.astype(dtype)[:0], []), 0)
        with self.assertRaisesRegex(OverflowError, "from 0 to 2\\*\\*64 - 1, not -1"):
            self.rank.push_many(numpy.array([[1, 2, 3], [4, -1, 6]]), [0, 0])

    def test_items_of_other_shapes(self):
        for shape in ((3,), (1, 2), (1, 4), (1, 1, 3), (0, 2), (0,)):
            with self.assertRaisesRegex(ValueError, "of the shape \\(n, 3\\), not"):
                self.rank.push_many(numpy.zeros(shape, dtype=numpy.uint64), [0])

    def test_ranks_of_other_dtypes_and_shapes(self):
        for to in (numpy.array([0.0]), numpy.array([False]), numpy.array(["0"])):
            with self.assertRaisesRegex(TypeError, "ranks are an array of whole numbers, not of"):
                self.rank.push_many([(1, 2, 3)], to)
        with self.assertRaisesRegex(ValueError, "of the shape \\(n,\\), not"):
            self.rank.push_many([(1, 2, 3)], numpy.array([[0]]))
        for wrong in (2, -1, -(2**32), 2**32, 2**32 + 1):
            with self.assertRaises(bale.Misuse) as caught:
                self.rank.push_many([(1, 2, 3)] * 2, numpy.array([0, wrong]))
            self.assertIs(caught.exception.answer, bale.Answer.NO_RANK)
        none = numpy.zeros((0, 3), dtype=int), numpy.zeros(0, dtype=int)
        self.assertEqual(self.rank.push_many(*none), 0)
        with self.assertRaisesRegex(ValueError, "not 2 items and 1 ranks"):
            self.rank.push_many(numpy.zeros((2, 3), dtype=int), numpy.zeros(1, dtype=int))

    def test_what_a_mask_hides_is_looked_at(self):
        with self.assertRaises(OverflowError):
            self.rank.push_many(numpy.ma.masked_equal([[1, 2, -1]], -1), [0])

    def test_numbers_of_numpy(self):
        self.assertTrue(self.rank.push(numpy.array([1, 2, 3]), numpy.int64(0)))
        with self.assertRaises(TypeError):
            self.rank.push(numpy.array([1.0, 2, 3]), 0)
        with self.assertRaises(OverflowError):
            self.rank.push(numpy.array([1, 2, -3]), 0)
        self.assertIs(self.rank.advance(numpy.bool_(False)), bale.Progress.MORE)


if __name__ == "__main__":
    unittest.main()
