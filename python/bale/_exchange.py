"""Groups and ranks."""

from __future__ import annotations

import ctypes
import math
import threading
import weakref
from typing import TYPE_CHECKING, Any, ClassVar, NamedTuple, TypeVar

from ._answers import Answer, Misuse, Phase, Progress, checked
from ._arguments import Block, items_block, ranks_block, truth, u32, whole, words
from ._library import Counts, Entry, Handle, Item, Lent, String, calls

if TYPE_CHECKING:
    from collections.abc import Iterator, Sequence
    from types import TracebackType
    from typing import SupportsIndex

    import numpy
    from numpy.typing import NDArray

    from ._arguments import Items, Ranks, Words

OwnerT = TypeVar("OwnerT", bound="Owner")


class Stopped(Exception):
    """Raised by advance in a rank of bale.run, since another rank raised an exception."""


class Statistics(NamedTuple):
    """What a rank sent and received since it was made, in all its epochs, also to itself.

    A buffer is counted when advance sends or collects it, with all items in it, also those that
    only pass through the rank. Each epoch ends with one last buffer on each link, which may be
    empty."""

    buffers_sent: int
    items_sent: int
    buffers_received: int
    items_received: int


class Owner:
    """The owner of a handle. It lets one call in at a time, and frees the handle once."""

    _free: ClassVar[Any]

    def __init__(self) -> None:
        self._handle = Handle()
        self._in_call = threading.Lock()

    def _call(self, call: Any, *arguments: Any) -> int:
        # The library is not made for two calls on one handle at once.
        if not self._in_call.acquire(blocking=False):
            raise RuntimeError("another thread is in a call of this group or rank")
        try:
            return checked(call(self._handle, *arguments))
        finally:
            self._in_call.release()

    def close(self) -> None:
        """Frees the memory. Other ranks, and the group, can still be used. A second close does
        nothing."""
        try:
            self._call(type(self)._free)
        except Misuse as misuse:
            if misuse.answer is not Answer.GONE:
                raise

    def __enter__(self: OwnerT) -> OwnerT:
        return self

    def __exit__(
        self,
        kind: type[BaseException] | None,
        error: BaseException | None,
        trace: TracebackType | None,
    ) -> None:
        self.close()

    def __del__(self) -> None:
        if hasattr(self, "_in_call"):
            self.close()


class _Arrays:
    """Lives as long as any array over a rank's memory."""


class Group(Owner):
    """The memory that ranks share, and the ranks that are still to be made.

    dims    a grid: one to three positive numbers, whose product is the number of ranks, at most 64.
            With one number, an item goes straight to its rank. With two or three it takes as many
            hops, and each rank has fewer, fuller buffers.
    buffer  how many items travel together: a power of two from 1 to 1,024.
    slots   how many buffers a link holds: 1, 2, 4 or 8.
    steady  when advance sends a buffer: at once, or (if False) when it is full or the rank is done.

    Misuse (BAD_NUMBERS) if a number is out of range; TypeError if one is no whole number, or steady
    no bool; MemoryError. A group may be closed before its ranks. `with` closes it.
    """

    _free = calls.group_free

    def __init__(
        self,
        dims: Sequence[SupportsIndex],
        buffer: SupportsIndex = 64,
        slots: SupportsIndex = 2,
        steady: bool = False,
    ) -> None:
        super().__init__()
        bad = Answer.BAD_NUMBERS
        numbers = [u32(one, "a number of the grid", bad) for one in dims]
        # One place more, since an array of none has no address that the library may be given.
        grid = (ctypes.c_uint32 * (len(numbers) + 1))(*numbers)
        rest = u32(buffer, "buffer", bad), u32(slots, "slots", bad), truth(steady, "steady")
        checked(calls.group_new(grid, len(numbers), *rest, self._handle))
        self._count = math.prod(numbers)

    def rank(self, number: SupportsIndex) -> Rank:
        """Makes the rank with this number, counted from 0. Each can be made once. An epoch ends
        only if all ranks are made and each says that it is done.

        Misuse: NO_RANK, TAKEN, or GONE after close. TypeError if it is no whole number;
        MemoryError."""
        return Rank(self, number)

    def elastic(self, number: SupportsIndex) -> Elastic:
        """Makes the rank with this number as one for strings. All ranks of a group are made for
        strings, or all for items. As rank."""
        return Elastic(self, number)

    def ranks(self) -> list[Rank]:
        """Makes all ranks, in the order of their numbers. Misuse (TAKEN) if any was made before."""
        return [Rank(self, number) for number in range(self._count)]


class Rank(Owner):
    """One rank's side of an exchange, made by Group.rank.

    It is for one thread at a time: a call while another thread is in a call of the same rank is a
    RuntimeError. After close every call is a Misuse (GONE). If a rank is closed before its epoch is
    over, that epoch never ends for the others. `with` closes it.
    """

    _free = calls.rank_free

    def __init__(self, group: Group, number: SupportsIndex) -> None:
        super().__init__()
        self._stop: threading.Event | None = None
        self._arrays: weakref.ref[_Arrays] | None = None
        self._number = u32(number, "a rank", Answer.NO_RANK)
        group._call(calls.rank_new, self._number, self._handle)
        self._ranks: int = calls.ranks(self._handle)

    def __repr__(self) -> str:
        return f"<bale.Rank {self._number} of {self._ranks}>"

    def close(self) -> None:
        """Frees the memory; if arrays of views are still there, once the last one is gone. Other
        ranks, and the group, can still be used. A second close does nothing."""
        arrays = None if self._arrays is None else self._arrays()
        if arrays is None:
            super().close()
            return
        with self._in_call:
            handle, self._handle, self._arrays = self._handle, Handle(), None
        weakref.finalize(arrays, calls.rank_free, handle)

    @property
    def number(self) -> int:
        """The number of this rank, counted from 0."""
        return self._number

    @property
    def ranks(self) -> int:
        """How many ranks the group has."""
        return self._ranks

    @property
    def phase(self) -> Phase:
        """The state of this rank."""
        return Phase(self._call(calls.phase))

    def begin(self) -> None:
        """Begins an epoch: from Phase.DORMANT to WORKING. No barrier is needed before it. Misuse
        (BEGUN) in any other state."""
        self._call(calls.begin)

    def push(self, item: Words, to: SupportsIndex) -> bool:
        """Pushes an item, three whole numbers from 0 to 2**64 - 1, toward the rank with the number
        `to`. False if the open buffer toward it is full, and nothing is pushed: advance, pull, and
        push it again.

        Misuse: NO_RANK, NOT_BEGUN or SAID_DONE. TypeError if a number is no whole number,
        OverflowError if one is out of range, ValueError if they are not three."""
        place = Item(*words(item))
        return self._call(calls.push, place, u32(to, "a rank", Answer.NO_RANK)) == Answer.OK

    def push_many(self, items: Items, to: Ranks) -> int:
        """Pushes items[0] toward to[0], items[1] toward to[1] and so on, until one finds no room.
        Returns how many were pushed; the others are still to be pushed.

        items is a sequence of items, an array of numpy of the shape (n, 3) or a ctypes array of
        bale.Item. to is a sequence of whole numbers, an array of the shape (n,) or a ctypes array
        of c_uint32. Arrays of numpy may have any dtype of whole numbers; contiguous ones of uint64
        and of uint32 are not copied, and no other thread may change them during the call. Each call
        looks at all of `to` first, so give it no more at once than the open buffers hold.

        Misuse: NO_RANK if any of `to` is no rank's number, NOT_BEGUN or SAID_DONE; nothing is
        pushed. TypeError for another dtype, OverflowError for an item's number out of range,
        ValueError for another shape, or unless there are as many ranks as items."""
        given, ranks = items_block(items), ranks_block(to)
        if given.length != ranks.length:
            counts = f"{given.length} items and {ranks.length} ranks"
            raise ValueError(f"push_many takes as many ranks as items, not {counts}")
        if given.length == 0:
            # An array of none may have no address.
            spare = Item()
            given = ranks = Block(spare, ctypes.addressof(spare), 0)
        return self._call(calls.push_many, given.address, given.length, ranks.address, ranks.length)

    def pull(self) -> tuple[int, tuple[int, int, int]] | None:
        """Pulls the next item that came, as its sender and its three numbers; None if nothing is
        there now. The items of one sender come in the order in which it pushed them. Misuse:
        NOT_BEGUN."""
        item, sender = Item(), ctypes.c_uint32()
        if self._call(calls.pull, item, sender) != Answer.OK:
            return None
        return sender.value, (item.a, item.b, item.c)

    def drain(self) -> Iterator[tuple[int, tuple[int, int, int]]]:
        """Pulls, one at a time, the items that are there now, as pull gives them. If the loop is
        left early, the other items stay to be pulled."""
        while (pulled := self.pull()) is not None:
            yield pulled

    def unpull(self) -> bool:
        """Puts back the item that the latest call pulled, so that the next pull gives it again.
        False if the latest call wasn't a pull that gave an item."""
        return self._call(calls.unpull) == Answer.OK

    def pull_many(self, most: SupportsIndex = 1024) -> tuple[list[int], list[tuple[int, int, int]]]:
        """Pulls at most so many of the items that are there now: their senders, and their numbers.
        Misuse: NOT_BEGUN. ValueError if most is below 0."""
        places = _places(most)
        items, senders = (Item * max(1, places))(), (ctypes.c_uint32 * max(1, places))()
        addresses = ctypes.addressof(items), ctypes.addressof(senders)
        pulled = self._call(calls.pull_many, addresses[0], places, addresses[1], places)
        return senders[:pulled], [(item.a, item.b, item.c) for item in items[:pulled]]

    def pull_arrays(
        self, most: SupportsIndex = 1024
    ) -> tuple[NDArray[numpy.uint32], NDArray[numpy.uint64]]:
        """As pull_many, but gives arrays of numpy: the senders, of the shape (n,) and the dtype
        uint32, and the items, of the shape (n, 3) and the dtype uint64. ImportError without
        numpy."""
        import numpy

        places = _places(most)
        items = numpy.empty((max(1, places), 3), dtype=numpy.uint64)
        senders = numpy.empty(max(1, places), dtype=numpy.uint32)
        addresses = items.ctypes.data, senders.ctypes.data
        pulled = self._call(calls.pull_many, addresses[0], places, addresses[1], places)
        return senders[:pulled], items[:pulled]

    def views(self) -> Iterator[tuple[int, NDArray[numpy.uint64]]]:
        """Lends the items that are there now, where they came, without a copy: in each turn of the
        loop the sender of some, and these as an array of numpy that can't be written, of the shape
        (n, 3) and the dtype uint64. The end of a turn pulls them.

            for sender, items in rank.views():
                numpy.add.at(counts, items[:, 0], 1)

        The array shows these items in its turn alone, and until a call on this rank other than push
        and push_many; later it shows other numbers. Copy what is to stay. If the loop is left
        early, the items of that turn stay to be pulled.

        Misuse: NOT_BEGUN, or NOT_LENT if the turn pulled items itself. ImportError without
        numpy."""
        import numpy

        # A view begins with an address that can be read.
        none = Entry()
        while True:
            lent = Lent(ctypes.addressof(none), 0, 0)
            if self._call(calls.lend, lent) != Answer.OK:
                return
            items: NDArray[numpy.uint64] = numpy.ndarray(
                (lent.count, 3),
                dtype=numpy.uint64,
                buffer=self._memory(lent),
                offset=Entry.item.offset,
                strides=(ctypes.sizeof(Entry), 8),
            )
            items.flags.writeable = False
            yield lent.sender, items
            del items
            self._call(calls.pulled, lent.count)

    def _memory(self, lent: Lent) -> Any:
        """The entries that are lent, which are not freed as long as this is there."""
        arrays = None if self._arrays is None else self._arrays()
        if arrays is None:
            arrays = _Arrays()
            self._arrays = weakref.ref(arrays)
        memory: Any = (Entry * lent.count).from_address(lent.entries)
        memory.arrays = arrays
        return memory

    def statistics(self) -> Statistics:
        """What the rank sent and received so far. Misuse: GONE after close."""
        counts = Counts()
        self._call(calls.statistics, counts)
        numbers = counts.buffers_sent, counts.items_sent
        return Statistics(*numbers, counts.buffers_received, counts.items_received)

    def advance(self, done: bool = False) -> Progress:
        """Sends and collects what can be sent and collected now, and reports how far the rank is.
        It never waits. A rank that makes no progress should yield its processor (time.sleep(0)).

        done says that this rank pushes nothing more in this epoch; it can't be taken back.

        Misuse: NOT_BEGUN, or SAID_DONE if done is False after it was True. TypeError if done is no
        bool. Stopped in bale.run if another rank raised an exception."""
        if self._stop is not None and self._stop.is_set():
            raise Stopped("another rank raised an exception")
        return Progress(self._call(calls.advance, truth(done, "done")))

    def reset(self) -> None:
        """Ends an epoch: from Phase.COMPLETE to DORMANT. Misuse: NOT_COMPLETE in any other state,
        or LAST_EPOCH after 2**63 epochs."""
        self._call(calls.reset)


class Elastic(Owner):
    """One rank's side of an exchange of strings of up to 65,535 bytes, made by Group.elastic.

    A string is pushed as a whole or not at all, and pulled as a whole; of one sender strings come
    in the order in which it pushed them. The states and calls are those of a Rank.
    """

    _free = calls.elastic_free

    def __init__(self, group: Group, number: SupportsIndex) -> None:
        super().__init__()
        self._number = u32(number, "a rank", Answer.NO_RANK)
        group._call(calls.elastic_new, self._number, self._handle)
        self._ranks: int = calls.elastic_ranks(self._handle)

    def __repr__(self) -> str:
        return f"<bale.Elastic {self._number} of {self._ranks}>"

    @property
    def number(self) -> int:
        """The number of this rank, counted from 0."""
        return self._number

    @property
    def ranks(self) -> int:
        """How many ranks the group has."""
        return self._ranks

    @property
    def phase(self) -> Phase:
        """The state of this rank."""
        return Phase(self._call(calls.elastic_phase))

    def begin(self) -> None:
        """Begins an epoch: from Phase.DORMANT to WORKING. Misuse (BEGUN) in any other state."""
        self._call(calls.elastic_begin)

    def push(self, string: bytes, to: SupportsIndex) -> bool:
        """Pushes a string toward the rank with the number `to`. What finds no room in the buffers
        is kept, and pushed by the advances that follow; meanwhile a push is False, and pushes
        nothing.

        Misuse: NO_RANK, NOT_BEGUN, SAID_DONE or TOO_LONG. TypeError if string is no bytes;
        MemoryError."""
        if not isinstance(string, bytes):
            raise TypeError(f"a string is bytes, not {type(string).__name__}")
        rank = u32(to, "a rank", Answer.NO_RANK)
        return self._call(calls.epush, string, len(string), rank) == Answer.OK

    def pull(self) -> tuple[int, bytes] | None:
        """Pulls the next string that came as a whole, as its sender and its bytes; None if there is
        none now. Misuse: NOT_BEGUN. MemoryError, and nothing is lost."""
        sender, none = ctypes.c_uint32(), Entry()
        if self._call(calls.elastic_pull, sender) != Answer.OK:
            return None
        # What is lent begins with an address that can be read.
        string = String(ctypes.addressof(none), 0)
        self._call(calls.elastic_string, string)
        return sender.value, ctypes.string_at(string.bytes, string.nbytes)

    def drain(self) -> Iterator[tuple[int, bytes]]:
        """Pulls, one at a time, the strings that are there now, as pull gives them."""
        while (pulled := self.pull()) is not None:
            yield pulled

    def advance(self, done: bool = False) -> Progress:
        """Pushes what is kept of the latest string, and advances, as Rank.advance. As long as
        anything is kept, the rank does not yet count as done."""
        return Progress(self._call(calls.elastic_advance, truth(done, "done")))

    def reset(self) -> None:
        """Ends an epoch: from Phase.COMPLETE to DORMANT. Misuse: NOT_COMPLETE in any other state,
        or LAST_EPOCH after 2**63 epochs."""
        self._call(calls.elastic_reset)


def _places(most: SupportsIndex) -> int:
    places = whole(most, "most")
    if places < 0:
        raise ValueError(f"most is at least 0, not {places}")
    return places
