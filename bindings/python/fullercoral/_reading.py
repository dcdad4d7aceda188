"""Reads ranges of columns, and fetches objects that are away on the way."""

from __future__ import annotations

import ctypes
import functools
from array import array
from ctypes import byref, c_bool, c_int64, c_size_t
from itertools import pairwise
from typing import Any, Callable, Sequence

from ._buffers import address_of
from ._handle import EMPTY_AT, Handle, no_bytes
from .errors import Absent, ShortBuffer
from .movement import Mover
from .policy import Helper, Policy

_TEXTS_AT_ONCE = 1 << 16  # how many places of a text column one call reads
_TEXT_GUESS = 24


@functools.cache
def _numpy() -> Any:
    try:
        import numpy
    except ImportError:
        return None
    return numpy


class Reader:
    """Reads ranges of the columns of a table. The caller holds the table's lock."""

    def __init__(self, mover: Mover, policy: Policy | None) -> None:
        self._handle: Handle = mover.handle
        self._mover = mover
        self._policy = policy
        self._size = c_size_t()

    def numbers(self, column: int, start: int, stop: int) -> tuple[Any, Any, Any]:
        """Returns numbers, a flag for each that is present, and a flag for each live row.

        All three are arrays of numpy if it is installed; else an ``array``, and bytes of 0 and 1.
        """
        count = stop - start
        numpy = _numpy()
        if numpy is not None:
            values, valid = numpy.empty(count, "int64"), numpy.empty(count, "bool")
            alive = numpy.empty(count, "bool")
        else:
            values = array("q", bytes(8 * count))
            valid, alive = bytearray(count), bytearray(count)
        places = [address_of(buffer) for buffer in (values, valid, alive)]
        self._read(self._handle.lib.fc_numbers, column, start, stop, places)
        return values, valid, alive

    def value(self, column: int, place: int) -> int | str | None:
        """Returns the value of a place; None if it is missing."""
        handle, is_int = self._handle, self._handle.schema.kinds[column] is int
        number, text, valid, alive = c_int64(), no_bytes(), c_bool(), c_bool()
        at = byref(text)
        places = byref(number), 1, byref(valid), 1, byref(alive), 1

        def read() -> int:
            if is_int:
                return int(handle.lib.fc_numbers(handle.at, column, place, place + 1, *places))
            return int(handle.lib.fc_text(handle.at, column, place, at, byref(valid)))

        with Helper(self._mover, self._policy) as helper:
            handle.check(helper.until_done(read))
            if not valid.value:
                return None
            return number.value if is_int else ctypes.string_at(text.at, text.len).decode()

    def _read(
        self, call: Callable[..., int], column: int, start: int, stop: int, buffers: list[int]
    ) -> None:
        """Reads a range by one call; at each object that is away, reads the places before it."""
        values_at, valid_at, alive_at = buffers
        first, handle = start, self._handle

        def part(start: int, stop: int) -> int:
            done, count = start - first, stop - start
            values = values_at + 8 * done
            valid, alive = valid_at + done, alive_at + done
            return call(handle.at, column, start, stop, values, count, valid, count, alive, count)

        self._by_parts(part, start, stop)

    def _by_parts(self, part: Callable[[int, int], int], start: int, stop: int) -> None:
        handle, size = self._handle, self._handle.limits.group
        while True:
            code = part(start, stop)
            if not code:
                return
            if code != Absent.number or self._policy is None:
                raise handle.refusal(code)
            _, group = handle.absent()
            edge, end = max(start, group * size), min(stop, (group + 1) * size)
            if edge > start:
                handle.check(part(start, edge))
            with Helper(self._mover, self._policy) as helper:
                handle.check(helper.until_done(part, edge, end))
            start = end
            if start == stop:
                return

    def texts(self, column: int, start: int, stop: int) -> tuple[list[str], Any, Any]:
        """Returns texts (empty if missing), and flags for present texts and live rows as bytes."""
        texts: list[str] = []
        valid, alive = bytearray(), bytearray()
        for at in range(start, stop, _TEXTS_AT_ONCE):
            some, has, lives = self._some_texts(column, at, min(stop, at + _TEXTS_AT_ONCE))
            texts += some
            valid += has
            alive += lives
        return texts, valid, alive

    def _some_texts(self, column: int, start: int, stop: int) -> tuple[list[str], Any, Any]:
        texts: list[str] = []
        flags: tuple[bytearray, bytearray] = bytearray(), bytearray()

        def part(start: int, stop: int) -> int:
            code: int
            code, offsets, content, valid, alive = self._texts_at_once(column, start, stop)
            if not code:
                texts.extend(_cut(content, offsets))
                flags[0].extend(valid)
                flags[1].extend(alive)
            return code

        self._by_parts(part, start, stop)
        return texts, flags[0], flags[1]

    def _texts_at_once(self, column: int, start: int, stop: int) -> Any:
        count = stop - start
        offsets = array("Q", bytes(8 * (count + 1)))
        valid, alive = bytearray(count), bytearray(count)
        where = address_of(offsets), address_of(valid), address_of(alive)
        space = _TEXT_GUESS * count
        while True:
            content = bytearray(space)
            at = address_of(content) if space else EMPTY_AT
            code = self._handle.lib.fc_texts(
                *(self._handle.at, column, start, stop, where[0], count + 1, at, space),
                *(where[1], count, where[2], count),
            )
            if code != ShortBuffer.number:
                return code, offsets, content, valid, alive
            size = ctypes.byref(self._size)
            code = self._handle.lib.fc_texts_size(self._handle.at, column, start, stop, size)
            if code:
                return code, offsets, content, valid, alive
            space = self._size.value


def _cut(content: bytearray, offsets: Sequence[int]) -> list[str]:
    """Cuts adjacent texts at their offsets."""
    whole = bytes(content[: offsets[-1]])
    if whole.isascii():
        text = whole.decode("ascii")
        return [text[start:stop] for start, stop in pairwise(offsets)]
    return [whole[start:stop].decode() for start, stop in pairwise(offsets)]
