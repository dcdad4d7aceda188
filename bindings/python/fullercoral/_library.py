"""Finds and loads the shared library."""

from __future__ import annotations

import ctypes
import os
from pathlib import Path
from typing import TYPE_CHECKING, Any

from ._header import CALLS

NAME = "libfullercoral.so"
VARIABLE = "FULLERCORAL_LIB"


def find_library() -> Path:
    """Returns the path of the shared library.

    The environment variable ``FULLERCORAL_LIB`` names the file, if it is set. Otherwise it is the
    one beside this package's modules, or ``lib/libfullercoral.so`` in a folder above them.
    """
    named = os.environ.get(VARIABLE)
    if named:
        return Path(named)
    here = Path(__file__).resolve().parent
    for path in (here / NAME, *(folder / "lib" / NAME for folder in here.parents)):
        if path.is_file():
            return path
    raise OSError(
        f"no lib/{NAME} in a folder above {here}; it is built by ./build in the repository's root, "
        f"and the environment variable {VARIABLE} may name another one"
    )


def _absent(path: Path, name: str) -> Any:
    """Returns a function that raises, in place of a call that an older library lacks."""

    def refuse(*arguments: Any) -> int:
        raise OSError(f"{path} has no call {name}: it is older than this package")

    return refuse


class Library:
    """The loaded library: each call of the header as an attribute, with its argument types.

    ``fast(name)`` is the same call without argument types. ctypes then converts nothing, which
    halves the time of a call. Its arguments must be prepared objects of ctypes, or integers that
    the caller knows to fit 32 bits.

    ``short(name)`` is such a call that keeps the GIL: releasing and taking it costs as much as a
    call on one cell.
    """

    def __init__(self, path: Path | str) -> None:
        self.path = Path(path)
        self._library = ctypes.CDLL(str(path))
        self._under_lock = ctypes.PyDLL(str(path))
        for name, arguments in CALLS.items():
            call = self.fast(name)
            call.argtypes = arguments
            call.restype = ctypes.c_uint32
            setattr(self, name, call)

    def fast(self, name: str) -> Any:
        """Returns a call without argument types."""
        return self._call(self._library, name)

    def short(self, name: str) -> Any:
        """Returns a call without argument types that keeps the GIL."""
        return self._call(self._under_lock, name)

    def _call(self, library: ctypes.CDLL, name: str) -> Any:
        try:
            return library[name]
        except AttributeError:
            return _absent(self.path, name)

    if TYPE_CHECKING:

        def __getattr__(self, name: str) -> Any:
            ...

    def __repr__(self) -> str:
        return f"Library({str(self.path)!r})"


_loaded: Library | None = None


def library() -> Library:
    """Returns the library, loading it at the first call."""
    global _loaded
    if _loaded is None:
        _loaded = Library(find_library())
    return _loaded
