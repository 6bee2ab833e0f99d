"""The transpose of a sparse matrix with random entries, by arrays of numpy.

    python3 transpose.py [ENTRIES [RANKS]]

Each rank has some of the entries (row, column, value) in any order, and gets those of its columns.
Sorted by column and row, they are its rows of the transpose, which are compared with a plain sort
of a list.
"""

import sys
import time

try:
    import numpy
except ImportError:
    sys.exit("transpose.py needs numpy")

import bale

BUFFER = 1024


def random_matrix(entries):
    """Entries as rows of an array: row, column, value. The matrix has 16 of them a row."""
    size = max(1, entries // 16)
    draw = numpy.random.default_rng(1)
    return draw.integers(0, [size, size, 2**63], size=(entries, 3), dtype=numpy.uint64)


def transposed(entries):
    """The entries of the transpose, in the order of its rows, and of columns in a row. The value
    decides between entries at one place."""
    turned = entries[:, [1, 0, 2]]
    return turned[numpy.lexsort((turned[:, 2], turned[:, 1], turned[:, 0]))]


def exchange(rank, items, to):
    """One epoch: pushes the items toward their ranks, and returns the items that came."""
    came, at = [], 0
    rank.begin()
    while True:
        if at < len(items):
            at += rank.push_many(items[at : at + BUFFER], to[at : at + BUFFER])
        progress = rank.advance(at == len(items))
        came += (rows.copy() for _sender, rows in rank.views())
        if progress is bale.Progress.COMPLETE:
            rank.reset()
            return numpy.concatenate(came) if came else items[:0]
        time.sleep(0)


def main():
    entries, ranks = (*map(int, sys.argv[1:3]), *(200_000, 4)[len(sys.argv[1:3]) :])
    matrix = random_matrix(entries)

    def transpose(rank):
        """One rank's rows of the transpose."""
        mine = matrix[rank.number :: rank.ranks]
        return transposed(exchange(rank, mine, (mine[:, 1] % rank.ranks).astype(numpy.uint32)))

    began = time.perf_counter()
    parts = bale.run(ranks, transpose, buffer=BUFFER)
    took, began = time.perf_counter() - began, time.perf_counter()
    transposed(matrix)
    alone = time.perf_counter() - began
    print(f"python transpose: {ranks} ranks {took:.3f} s, numpy on one thread {alone:.3f} s")
    in_order = sorted([column, row, value] for row, column, value in matrix.tolist())
    wanted = numpy.array(in_order, dtype=numpy.uint64)
    # Rank r has the rows of the transpose with row % ranks == r, and so in the same order.
    owners = wanted[:, 0] % ranks
    wrong = sum(not numpy.array_equal(part, wanted[owners == r]) for r, part in enumerate(parts))
    print(f"python transpose: {sum(map(len, parts))} of {entries} entries, {wrong} ranks wrong")
    assert wrong == 0 and len(parts) == ranks


main()
