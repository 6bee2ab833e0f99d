"""Where the shared library is. The package and the builder of its wheel read this file."""

from __future__ import annotations

import os
from pathlib import Path

HERE = Path(__file__).resolve().parent


def candidates() -> list[Path]:
    """The files that may be the library, in the order in which they are tried. If the environment
    variable BALE_C_SO is set, it is the file that it names, and no other. Otherwise it is the one
    in the wheel, then those that c/build makes in the repository, the proved one first."""
    named = os.environ.get("BALE_C_SO")
    if named:
        return [Path(named)]
    built = HERE.parent.parent / "c" / "out"
    return [HERE / "libbale_c.so", built / "libbale_c.so", built / "libbale_c_unproved.so"]


def library() -> Path:
    """The library's file. An ImportError says what to do if there is none."""
    paths = candidates()
    for path in paths:
        if path.exists():
            return path.resolve()
    raise ImportError(
        "bale: the library libbale_c.so is not found. Looked for: "
        + ", ".join(map(str, paths))
        + ". Run c/build (or c/build --unproved) in the repository, install the wheel that "
        "`pip wheel ./python` makes there, or set BALE_C_SO to the library's file."
    )
