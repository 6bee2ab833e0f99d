"""A histogram of random indices: its table is dealt out over four ranks, each on a thread of its
own. It is compared with a plain loop."""

import random
import time

import bale

RANKS, UPDATES, TABLE = 4, 20000, 1000


def indices(rank_number):
    draw = random.Random(rank_number)
    return [draw.randrange(TABLE) for _ in range(UPDATES)]


def count(rank):
    """One rank: what it counted in its part of the table, which has every fourth place."""
    counts, left, progress = [0] * (TABLE // RANKS), indices(rank.number), bale.Progress.MORE
    rank.begin()
    while progress is not bale.Progress.COMPLETE:
        while left and rank.push((left[-1] // RANKS, 0, 0), left[-1] % RANKS):
            left.pop()
        progress = rank.advance(not left)
        for _sender, (place, _, _) in rank.drain():
            counts[place] += 1
        time.sleep(0)
    rank.reset()
    if rank.number == 0:
        print(f"python histo: {rank.statistics()}")
    return counts


def main():
    parts = bale.run([2, 2], count, buffer=128)
    wanted = [0] * TABLE
    for number in range(RANKS):
        for index in indices(number):
            wanted[index] += 1
    wrong = sum(parts[i % RANKS][i // RANKS] != wanted[i] for i in range(TABLE))
    print(f"python histo: {sum(map(sum, parts))} counted, {wrong} places wrong")
    assert wrong == 0


main()
