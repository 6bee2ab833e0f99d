"""Strings: what was pushed is what is pulled, as a whole and in the order of each sender."""

import unittest

import bale

LENGTHS = [0, 1, 16, 17, 40, 41, 5_000, 65_535]


def strings(rank: int) -> list[bytes]:
    return [bytes((rank * 7 + n) % 256 for n in range(length)) for length in LENGTHS]


def ranks(count: int, buffer: int) -> list[bale.Elastic]:
    group = bale.Group([count], buffer)
    return [group.elastic(number) for number in range(count)]


class Strings(unittest.TestCase):
    def test_strings_of_any_length_arrive_whole_and_in_order(self) -> None:
        for buffer in (1, 64):
            all_ranks = ranks(3, buffer)
            waiting = [[(s, to) for s in strings(r.number) for to in range(3)] for r in all_ranks]
            came: list[list[list[bytes]]] = [[[] for _ in all_ranks] for _ in all_ranks]
            for rank in all_ranks:
                rank.begin()
            open_ranks = 3
            while open_ranks:
                open_ranks = 0
                for rank in all_ranks:
                    own = waiting[rank.number]
                    while own and rank.push(*own[0]):
                        own.pop(0)
                    open_ranks += bool(rank.advance(not own))
                    for sender, string in rank.drain():
                        came[rank.number][sender].append(string)
            self.assertEqual(came, [[strings(sender) for sender in range(3)] for _ in range(3)])

    def test_a_string_that_finds_no_room_is_kept(self) -> None:
        (rank,) = ranks(1, 2)
        rank.begin()
        self.assertTrue(rank.push(b"x" * 1_000, 0))
        self.assertFalse(rank.push(b"next", 0))
        came = []
        while rank.advance(True):
            came += rank.drain()
        self.assertEqual(came, [(0, b"x" * 1_000)])
        rank.reset()
        self.assertIs(rank.phase, bale.Phase.DORMANT)

    def test_misuse(self) -> None:
        (rank,) = ranks(1, 2)
        self.assertEqual(repr(rank), "<bale.Elastic 0 of 1>")
        self.misuse(bale.Answer.NOT_BEGUN, lambda: rank.push(b"", 0))
        self.misuse(bale.Answer.NOT_BEGUN, rank.pull)
        rank.begin()
        self.misuse(bale.Answer.NO_RANK, lambda: rank.push(b"", 1))
        self.misuse(bale.Answer.TOO_LONG, lambda: rank.push(bytes(65_536), 0))
        with self.assertRaises(TypeError):
            rank.push("text", 0)  # type: ignore[arg-type]
        rank.advance(True)
        self.misuse(bale.Answer.SAID_DONE, lambda: rank.push(b"", 0))
        rank.close()
        self.misuse(bale.Answer.GONE, rank.begin)

    def misuse(self, answer, call) -> None:  # type: ignore[no-untyped-def]
        with self.assertRaises(bale.Misuse) as raised:
            call()
        self.assertIs(raised.exception.answer, answer)
