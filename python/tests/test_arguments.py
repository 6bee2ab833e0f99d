"""What is no argument is refused, and nothing is converted silently."""

import array
import ctypes
import unittest

import bale

LARGEST = 2**64 - 1


class Index:
    """A whole number of another type."""

    def __index__(self):
        return 7


class Arguments(unittest.TestCase):
    def setUp(self):
        self.rank = bale.Group([1], buffer=4).rank(0)
        self.rank.begin()

    def refused(self, answer, call, *arguments, **named):
        with self.assertRaises(bale.Misuse) as caught:
            call(*arguments, **named)
        self.assertIs(caught.exception.answer, answer)
        self.assertEqual(str(caught.exception), answer.text)

    def came(self):
        """What this rank pushed to itself."""
        items = []
        while self.rank.advance(True):
            items += [item for _sender, item in self.rank.drain()]
        return items

    def test_numbers_of_items(self):
        wrong_numbers = [(wrong, OverflowError) for wrong in (-1, 2**64)]
        wrong_numbers += [(wrong, TypeError) for wrong in (1.5, 1.0, "1", None)]
        for wrong, error in wrong_numbers:
            for item in [(wrong, 0, 0), (0, wrong, 0), (0, 0, wrong)]:
                with self.subTest(item=item):
                    with self.assertRaisesRegex(error, "a number of an item is"):
                        self.rank.push(item, 0)
                    with self.assertRaisesRegex(error, "a number of an item is"):
                        self.rank.push_many([(1, 2, 3), item], [0, 0])
        # None was pushed, so the buffer has room for four.
        self.assertTrue(self.rank.push((LARGEST, 0, Index()), 0))
        self.assertTrue(self.rank.push([1, LARGEST, True], 0))
        self.assertEqual(self.rank.push_many([(1, 2, LARGEST), (0, 0, 0), (5, 5, 5)], [0, 0, 0]), 2)
        wanted = [(LARGEST, 0, 7), (1, LARGEST, 1), (1, 2, LARGEST), (0, 0, 0)]
        self.assertEqual(self.came(), wanted)

    def test_items_are_three_numbers(self):
        for item in [(), (1, 2), (1, 2, 3, 4)]:
            with self.assertRaisesRegex(ValueError, f"three numbers, not {len(item)}"):
                self.rank.push(item, 0)
            with self.assertRaisesRegex(ValueError, f"three numbers, not {len(item)}"):
                self.rank.push_many([item], [0])

    def test_numbers_of_ranks(self):
        for wrong in (1, -1, -(2**32), 2**32, 2**32 + 1, 2**64):
            self.refused(bale.Answer.NO_RANK, self.rank.push, (1, 2, 3), wrong)
            self.refused(bale.Answer.NO_RANK, self.rank.push_many, [(1, 2, 3)] * 2, [0, wrong])
            self.refused(bale.Answer.NO_RANK, bale.Group([1]).rank, wrong)
        for wrong in (0.0, "0", None):
            with self.assertRaisesRegex(TypeError, "a rank is a whole number, not"):
                self.rank.push((1, 2, 3), wrong)
            with self.assertRaisesRegex(TypeError, "a rank is a whole number, not"):
                self.rank.push_many([(1, 2, 3)], [wrong])
            with self.assertRaisesRegex(TypeError, "a rank is a whole number, not"):
                bale.Group([1]).rank(wrong)
        self.assertEqual(self.came(), [])

    def test_numbers_of_groups(self):
        good = {"buffer": 64, "slots": 2}
        for dims in ([], [0], [65], [2, 2, 2, 2], [-1], [2**32 + 1], [9, 8]):
            self.refused(bale.Answer.BAD_NUMBERS, bale.Group, dims, **good)
        for name, numbers in [("buffer", (3, 2048, 2**32 + 64, -64)), ("slots", (3, 2**32 + 2))]:
            for wrong in numbers:
                self.refused(bale.Answer.BAD_NUMBERS, bale.Group, [2], **{**good, name: wrong})
        for dims, named in [([2.0], {}), ("2", {}), ([2], {"buffer": 64.0}), ([2], {"slots": "2"})]:
            with self.assertRaisesRegex(TypeError, "is a whole number, not"):
                bale.Group(dims, **named)
        for wrong in (1, 0, "no", None):
            with self.assertRaisesRegex(TypeError, "steady is True or False"):
                bale.Group([2], steady=wrong)

    def test_done_is_a_bool(self):
        for wrong in (1, 0, [], "yes", None):
            with self.assertRaisesRegex(TypeError, "done is True or False"):
                self.rank.advance(wrong)
        self.assertIs(self.rank.phase, bale.Phase.WORKING)

    def test_most_is_no_negative_number(self):
        with self.assertRaisesRegex(ValueError, "at least 0, not -1"):
            self.rank.pull_many(-1)
        with self.assertRaisesRegex(TypeError, "most is a whole number"):
            self.rank.pull_many(1.0)
        self.assertEqual(self.rank.pull_many(0), ([], []))

    def test_as_many_ranks_as_items(self):
        for items, to in [([(1, 2, 3)], []), ([(1, 2, 3)], [0, 0]), ([], [0])]:
            with self.assertRaisesRegex(ValueError, f"not {len(items)} items and {len(to)} ranks"):
                self.rank.push_many(items, to)
        self.assertEqual(self.rank.push_many([], []), 0)

    def test_arrays_of_ctypes_have_the_types_of_the_library(self):
        items = (bale.Item * 2)((1, 2, 3), (LARGEST, 5, 6))
        self.assertEqual(self.rank.push_many(items, (ctypes.c_uint32 * 2)(0, 0)), 2)
        with self.assertRaisesRegex(TypeError, "items in a ctypes array are of Item"):
            self.rank.push_many((ctypes.c_uint64 * 3)(1, 2, 3), [0])
        with self.assertRaisesRegex(TypeError, "ranks in a ctypes array are of c_u"):
            self.rank.push_many([(1, 2, 3)], (ctypes.c_int64 * 1)(0))
        self.assertEqual(self.came(), [(1, 2, 3), (LARGEST, 5, 6)])

    def test_other_sequences_are_read_number_by_number(self):
        items, to = (bytes([1, 2, 3]), range(4, 7)), array.array("b", [0, 0])
        self.assertEqual(self.rank.push_many(items, to), 2)
        self.assertEqual(self.rank.push_many([array.array("Q", [7, 8, LARGEST])], bytes([0])), 1)
        self.assertEqual(self.came(), [(1, 2, 3), (4, 5, 6), (7, 8, LARGEST)])
