"""Ranks on threads."""

from __future__ import annotations

import operator
import threading
from typing import TYPE_CHECKING, Callable, Iterable, TypeVar

from ._answers import Answer, Misuse, Phase
from ._exchange import Group, Rank

if TYPE_CHECKING:
    from collections.abc import Sequence
    from typing import SupportsIndex

ResultT = TypeVar("ResultT")


def run(
    ranks: SupportsIndex | Sequence[SupportsIndex],
    function: Callable[[Rank], ResultT],
    *,
    buffer: SupportsIndex = 64,
    slots: SupportsIndex = 2,
    steady: bool = False,
) -> list[ResultT]:
    """Runs function(rank) for each rank of a new group, each on a thread of its own, and returns
    what they returned, in the order of the ranks.

    ranks is the number of ranks, or a grid; with buffer, slots and steady, see Group. The threads
    are joined and the ranks closed before run returns or raises.

    If ranks raise exceptions, run raises the first one. No other rank's epoch can end then, so
    advance raises Stopped in the other ranks, as it does after an interrupt from the keyboard. If a
    function returns before its rank's epoch is over, run raises a RuntimeError. Every rank has to
    take part in every epoch: if one returns between two epochs and others begin another, they wait
    for it for ever.
    """
    dims = ranks if isinstance(ranks, Iterable) else [operator.index(ranks)]
    with Group(dims, buffer, slots, steady) as group:
        members = group.ranks()
    stop = threading.Event()
    results: dict[int, ResultT] = {}
    errors: list[tuple[int, BaseException]] = []
    # A join that was interrupted may take a thread that runs for one that ended, hence the events.
    ended = [threading.Event() for _ in members]

    def work(rank: Rank) -> None:
        try:
            results[rank.number] = function(rank)
            if _in_epoch(rank):
                raise RuntimeError(f"rank {rank.number} returned before its epoch was over")
        except BaseException as error:
            # Before the others stop, so that what stops them is the first error.
            errors.append((rank.number, error))
            stop.set()
        finally:
            rank.close()
            ended[rank.number].set()

    for rank in members:
        rank._stop = stop
    threads = [
        threading.Thread(target=work, args=(rank,), name=f"bale rank {rank.number}")
        for rank in members
    ]
    try:
        for thread in threads:
            thread.start()
        for end in ended:
            end.wait()
    except BaseException:
        # A thread could not be started, or an interrupt came, maybe while one was being started.
        stop.set()
        raise
    finally:
        for thread, end in zip(threads, ended):
            if thread.ident is not None:
                end.wait()
    for thread in threads:
        thread.join()
    if errors:
        number, error = errors[0]
        if hasattr(error, "add_note"):
            error.add_note(f"It was raised in rank {number} of bale.run.")
        raise error
    return [results[rank.number] for rank in members]


def _in_epoch(rank: Rank) -> bool:
    try:
        return rank.phase not in (Phase.DORMANT, Phase.COMPLETE)
    except Misuse as misuse:
        # The function closed its rank.
        if misuse.answer is Answer.GONE:
            return False
        raise
