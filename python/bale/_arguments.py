"""Arguments as the library reads them. Nothing is converted but whole numbers in range."""

from __future__ import annotations

import array
import ctypes
import operator
import sys
from typing import TYPE_CHECKING, Any, NamedTuple, Union

from ._answers import Answer, Misuse
from ._library import Item

if TYPE_CHECKING:
    from collections.abc import Iterable, Sequence
    from typing import SupportsIndex

    import numpy
    from numpy.typing import NDArray

    Words = Iterable[SupportsIndex]
    Items = Union[Sequence[Words], NDArray[numpy.integer[Any]], ctypes.Array[Item]]
    Numbers = Sequence[SupportsIndex]
    Ranks = Union[Numbers, NDArray[numpy.integer[Any]], ctypes.Array[ctypes.c_uint32]]


class Block(NamedTuple):
    """Items or ranks in memory: the object that keeps them there, their address and their count."""

    owner: object
    address: int
    length: int


def whole(value: SupportsIndex, what: str) -> int:
    """A whole number, of a type that has no fractions."""
    try:
        return operator.index(value)
    except TypeError:
        raise TypeError(f"{what} is a whole number, not {value!r}") from None


def truth(value: object, what: str) -> bool:
    """A bool of Python or of numpy."""
    numpy_module = sys.modules.get("numpy")
    if isinstance(value, bool):
        return value
    if numpy_module is not None and isinstance(value, numpy_module.bool_):
        return bool(value)
    raise TypeError(f"{what} is True or False, not {value!r}")


def u32(value: SupportsIndex, what: str, answer: Answer) -> int:
    """A number of 32 bits. A number out of their range is the Misuse that the library answers for
    one that is too large."""
    index = whole(value, what)
    if not 0 <= index < 2**32:
        raise Misuse(answer)
    return index


def word(value: SupportsIndex) -> int:
    """A number of 64 bits."""
    index = whole(value, "a number of an item")
    if not 0 <= index < 2**64:
        raise OverflowError(f"a number of an item is from 0 to 2**64 - 1, not {index}")
    return index


def words(item: Words) -> tuple[int, int, int]:
    """The three numbers of an item."""
    numbers = [word(value) for value in item]
    if len(numbers) != 3:
        raise ValueError(f"an item is three numbers, not {len(numbers)}")
    return numbers[0], numbers[1], numbers[2]


def items_block(items: Items) -> Block:
    """Items for push_many."""
    if isinstance(items, ctypes.Array):
        return _ctypes_block(items, Item, "items")
    if _is_array(items):
        return _array_block(_item_rows(items))
    flat = array.array("Q")
    for item in items:
        flat.extend(words(item))
    return Block(flat, flat.buffer_info()[0], len(flat) // 3)


def ranks_block(to: Ranks) -> Block:
    """Numbers of ranks for push_many."""
    if isinstance(to, ctypes.Array):
        return _ctypes_block(to, ctypes.c_uint32, "ranks")
    if _is_array(to):
        return _array_block(_rank_numbers(to))
    flat = array.array("I", [u32(rank, "a rank", Answer.NO_RANK) for rank in to])
    return Block(flat, flat.buffer_info()[0], len(flat))


def _ctypes_block(given: ctypes.Array[Any], kind: type, what: str) -> Block:
    if given._type_ is not kind:
        names = f"{kind.__name__}, not {given._type_.__name__}"
        raise TypeError(f"{what} in a ctypes array are of {names}")
    return Block(given, ctypes.addressof(given), len(given))


def _is_array(value: object) -> bool:
    numpy_module = sys.modules.get("numpy")
    return numpy_module is not None and isinstance(value, numpy_module.ndarray)


def _array_block(numbers: Any) -> Block:
    return Block(numbers, numbers.ctypes.data, len(numbers))


def _of_integers(given: Any, what: str) -> Any:
    """The array as numpy's own type, so that no subclass (masks) hides numbers from the checks.
    TypeError unless its elements are whole numbers."""
    import numpy

    if given.dtype.kind not in "iu":
        raise TypeError(f"{what} are an array of whole numbers, not of {given.dtype}")
    return numpy.asarray(given)


def _item_rows(given: Any) -> Any:
    import numpy

    rows = _of_integers(given, "items")
    if rows.ndim != 2 or rows.shape[1] != 3:
        raise ValueError(f"items are an array of the shape (n, 3), not {rows.shape}")
    if rows.size > 0 and int(rows.min()) < 0:
        raise OverflowError(f"a number of an item is from 0 to 2**64 - 1, not {rows.min()}")
    return numpy.ascontiguousarray(rows, dtype=numpy.uint64)


def _rank_numbers(given: Any) -> Any:
    import numpy

    ranks = _of_integers(given, "ranks")
    if ranks.ndim != 1:
        raise ValueError(f"ranks are an array of the shape (n,), not {ranks.shape}")
    if ranks.size > 0 and not (0 <= int(ranks.min()) and int(ranks.max()) < 2**32):
        raise Misuse(Answer.NO_RANK)
    return numpy.ascontiguousarray(ranks, dtype=numpy.uint32)
