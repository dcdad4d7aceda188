"""Copies texts that the library lends until the next call."""

from __future__ import annotations

import ctypes
from ctypes import c_size_t, c_void_p
from functools import partial
from typing import Any, Callable

_python = ctypes.PyDLL(None)
_decode: Any = _python["PyUnicode_DecodeUTF8"]  # copies a text and decodes it
_decode.restype = ctypes.py_object
_build: Any = _python["_Py_BuildValue_SizeT"]  # the same for many, by a format
_build.restype = ctypes.py_object
_STRICT = c_void_p()


def lent_text(structure: Any, offset: int) -> Callable[[], str]:
    """Returns a function that copies the text of an ``fc_bytes`` in a structure.

    The function takes no arguments: each time it reads the text's address and length itself.
    """
    at = c_void_p.from_buffer(structure, offset)
    length = c_size_t.from_buffer(structure, offset + 8)
    return partial(_decode, at, length, _STRICT)


class LentTexts:
    """Copies the texts of an array's structures, many by one call."""

    def __init__(self, structures: Any, offset: int) -> None:
        self._arguments: list[Any] = []
        step = ctypes.sizeof(structures._type_)
        for at in range(offset, ctypes.sizeof(structures), step):
            self._arguments.append(c_void_p.from_buffer(structures, at))
            self._arguments.append(c_size_t.from_buffer(structures, at + 8))

    def first(self, count: int) -> tuple[str, ...]:
        """Returns the texts of the first structures."""
        form = b"(" + b"s#" * count + b")"  # a tuple, of addresses with their lengths
        texts: tuple[str, ...] = _build(form, *self._arguments[: 2 * count])
        return texts
