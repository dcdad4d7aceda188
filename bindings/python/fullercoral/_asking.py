"""Asks an aggregate for the line of one key, by one call that computes no other line.

A slot of 13 words holds the cell of a key and the line that answers it. A key keeps its slot, so
the next question for it reuses two prepared pointers. Once 4,096 keys have a slot, all others
share one.
"""

from __future__ import annotations

from ctypes import byref, c_char, sizeof
from struct import Struct
from typing import Any, Union

from . import _header as header
from ._buffers import BYTES_AT
from ._handle import EMPTY_AT, Handle

MOST_SLOTS = 4096  # of an aggregate
_SLOTS_AT_ONCE = 64

_CELL = sizeof(header.Cell)
_SLOT = _CELL + sizeof(header.LineStruct)

_TOTALS = Struct(f"{_CELL + header.LineStruct.count.offset}xQQq")  # count, the sum in two halves
_EXTREMA = Struct(f"{_CELL + header.LineStruct.min.offset}xqq")

# Pointers to the cell and to the line, the buffer and where in it they are, the bytes of a text.
Slot = tuple[Any, Any, Any, int, bytes]

_new = tuple.__new__  # what a named tuple's own ``_make`` calls


class _Room:
    """The position of a slot in its buffer."""

    __slots__ = ("_cell_at", "_line_at", "_buffer", "_start", "_words")

    def __init__(self, buffer: Any, start: int) -> None:
        self._cell_at, self._line_at = byref(buffer, start), byref(buffer, start + _CELL)
        self._buffer, self._start = buffer, start
        self._words = memoryview(buffer)[start : start + _SLOT].cast("B").cast("q")

    def fill(self, number: int, text: bytes, kind: int) -> Slot:
        """Writes a cell, and an empty line after it."""
        words: Any = self._words
        words[0] = number
        words[1] = id(text) + BYTES_AT if text else EMPTY_AT
        words[2] = len(text)
        words[3] = kind
        words[4] = EMPTY_AT  # the previous line's text may have been freed
        words[5] = 0
        return self._cell_at, self._line_at, self._buffer, self._start, text


class Slots:
    """The slots of an aggregate's keys. The caller holds the table's lock."""

    def __init__(self, handle: Handle, fold: Any) -> None:
        self.of_key: dict[Any, Slot] = {}
        self.has_totals = "count" in fold._fields
        self.unpack = (_TOTALS if self.has_totals else _EXTREMA).unpack_from
        self.fc_ask_key = handle.lib.short("fc_ask_key")
        self._fold = fold
        self._free: list[_Room] = []
        self._shared = self._next()

    def _next(self) -> _Room:
        """Returns the position of a slot that no key has."""
        if not self._free:
            buffer = (c_char * (_SLOT * _SLOTS_AT_ONCE))()
            self._free = [_Room(buffer, start) for start in range(0, sizeof(buffer), _SLOT)]
        return self._free.pop()

    def take(self, key: Union[int, str, None]) -> Slot:
        """Returns the slot of a key, which is None for an aggregate without keys."""
        if key is None:
            return self._shared.fill(0, b"", header.MISSING)
        is_few = len(self.of_key) < MOST_SLOTS
        room = self._next() if is_few else self._shared
        try:
            if isinstance(key, str):
                slot = room.fill(0, key.encode(), header.TEXT)
            else:
                slot = room.fill(key, b"", header.INT)
        except ValueError:
            self._free += [room] if is_few else []
            return self.take(None)  # no column holds such a value, so no line has this key
        if is_few:
            self.of_key[key] = slot
        return slot

    def line(self, slot: Slot) -> Any:
        """Returns the line that the last question wrote into a slot."""
        _, _, buffer, start, _ = slot
        if not self.has_totals:
            return _new(self._fold, self.unpack(buffer, start))
        count, low, high = self.unpack(buffer, start)
        return _new(self._fold, (count, (high << 64) + low if high else low))
