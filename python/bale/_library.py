"""The calls that c/bale.h declares."""

from __future__ import annotations

import ctypes
from typing import Any

from . import _find


class Item(ctypes.Structure):
    """An item as it travels: three words. push_many takes an array of them, (Item * n)(), without
    a copy."""

    _fields_ = [("a", ctypes.c_uint64), ("b", ctypes.c_uint64), ("c", ctypes.c_uint64)]


class Entry(ctypes.Structure):
    """An item in the buffer in which it came."""

    _fields_ = [("way", ctypes.c_uint8 * 3), ("item", Item)]


class Lent(ctypes.Structure):
    """Entries that a rank lends, and their sender."""

    _fields_ = [
        ("entries", ctypes.c_void_p),
        ("count", ctypes.c_size_t),
        ("sender", ctypes.c_uint32),
    ]


class String(ctypes.Structure):
    """The bytes of a string that a rank lends."""

    _fields_ = [("bytes", ctypes.c_void_p), ("nbytes", ctypes.c_size_t)]


class Counts(ctypes.Structure):
    """What a rank sent and received."""

    _fields_ = [
        ("buffers_sent", ctypes.c_uint64),
        ("items_sent", ctypes.c_uint64),
        ("buffers_received", ctypes.c_uint64),
        ("items_received", ctypes.c_uint64),
    ]


class Handle(ctypes.Structure):
    """A group's or a rank's handle. It begins as zeros, and is never moved. What it doesn't use keeps
    the handles of two threads on cache lines of their own."""

    _fields_ = [
        ("at", ctypes.c_void_p),
        ("live", ctypes.c_bool),
        ("unused", ctypes.c_uint64 * 14),
    ]


_i32, _i64, _u32 = ctypes.c_int32, ctypes.c_int64, ctypes.c_uint32
_bool, _size, _address = ctypes.c_bool, ctypes.c_size_t, ctypes.c_void_p
_handle, _u32s, _items = ctypes.POINTER(Handle), ctypes.POINTER(_u32), ctypes.POINTER(Item)

_SIGNATURES: dict[str, tuple[Any, ...]] = {
    "group_new": (_i32, _u32s, _size, _u32, _u32, _bool, _handle),
    "rank_new": (_i32, _handle, _u32, _handle),
    "begin": (_i32, _handle),
    "push": (_i32, _handle, _items, _u32),
    "pull": (_i32, _handle, _items, _u32s),
    "unpull": (_i32, _handle),
    "advance": (_i32, _handle, _bool),
    "reset": (_i32, _handle),
    "push_many": (_i64, _handle, _address, _size, _address, _size),
    "pull_many": (_i64, _handle, _address, _size, _address, _size),
    "lend": (_i32, _handle, ctypes.POINTER(Lent)),
    "pulled": (_i32, _handle, _size),
    "ranks": (_u32, _handle),
    "statistics": (_i32, _handle, ctypes.POINTER(Counts)),
    "phase": (_i32, _handle),
    "elastic_new": (_i32, _handle, _u32, _handle),
    "elastic_begin": (_i32, _handle),
    "epush": (_i32, _handle, ctypes.c_char_p, _size, _u32),
    "elastic_pull": (_i32, _handle, _u32s),
    "elastic_string": (_i32, _handle, ctypes.POINTER(String)),
    "elastic_advance": (_i32, _handle, _bool),
    "elastic_reset": (_i32, _handle),
    "elastic_ranks": (_u32, _handle),
    "elastic_phase": (_i32, _handle),
    "elastic_free": (_i32, _handle),
    "rank_free": (_i32, _handle),
    "group_free": (_i32, _handle),
    "version": (ctypes.c_char_p,),
}


class Calls:
    """The library's calls by their names without `bale_`."""

    def __init__(self) -> None:
        path = _find.library()
        try:
            loaded = ctypes.CDLL(str(path))
            for name, (result, *arguments) in _SIGNATURES.items():
                call = getattr(loaded, "bale_" + name)
                call.restype, call.argtypes = result, arguments
                setattr(self, name, call)
        except (OSError, AttributeError) as error:
            said = f"bale: {path} can't be loaded as libbale_c.so: {error}"
            raise ImportError(f"{said}. Run c/build in the repository to make it anew.") from error

    def __getattr__(self, name: str) -> Any:
        raise AttributeError(f"the library has no call bale_{name}")


calls = Calls()


def version() -> str:
    """The version of the library: "1", and "1 (unproved)" if it was compiled with run-time checks
    and no proof."""
    text: bytes = calls.version()
    return text.decode()
