"""Conveyors: many ranks exchange small items in aggregated buffers.

No item is lost, duplicated or reordered on its way from one sender. A rank is a thread's side of
the exchange; in each epoch it pushes items toward any rank, advances the exchange, and pulls what
came, until Progress.COMPLETE. No call waits for another thread.

    import bale

    def sum_of_numbers(rank):
        "Each rank sends its number to all ranks, and adds up what it gets."
        total, to, progress = 0, 0, bale.Progress.MORE
        rank.begin()
        while progress is not bale.Progress.COMPLETE:
            while to < rank.ranks and rank.push((rank.number, 0, 0), to):
                to += 1
            progress = rank.advance(to == rank.ranks)
            total += sum(number for _sender, (number, _, _) in rank.drain())
        rank.reset()
        return total

    print(bale.run(4, sum_of_numbers))       # [6, 6, 6, 6]

An item is three whole numbers from 0 to 2**64 - 1. Arrays of numpy go many at a time, by
Rank.push_many and Rank.pull_arrays, and without a copy by Rank.views; numpy is needed for nothing
else. Arguments are never converted silently: a fraction is a TypeError, a number out of range an
OverflowError or a Misuse.

Strings of bytes go between ranks of another kind, which Group.elastic makes.

ctypes gives up the interpreter's lock while the library works, so ranks on threads run side by side
within their calls, and only there.
"""

from ._answers import Answer, Misuse, Phase, Progress
from ._exchange import Elastic, Group, Rank, Statistics, Stopped
from ._library import Item, version
from ._run import run

__all__ = [
    "Answer",
    "Elastic",
    "Group",
    "Item",
    "Misuse",
    "Phase",
    "Progress",
    "Rank",
    "Statistics",
    "Stopped",
    "run",
    "version",
]
