"""Sets cells of a column at many places by one call of the library."""

from __future__ import annotations

from array import array
from ctypes import byref, c_size_t, c_void_p
from typing import TYPE_CHECKING, Any, Mapping

from . import _header as header
from ._buffers import ColumnBuffer, address_of, column_buffer, repeated
from ._handle import EMPTY_AT, Handle
from ._places import greatest, place_buffer
from .errors import BadArgument, NoUtf8, Refused, WrongKind
from .policy import Helper

if TYPE_CHECKING:
    from ._editing import Editing

_CELLS_AT_ONCE = 1 << 13  # a multiple of 8, for the masks


def as_pairs(places: Any) -> tuple[Any, Any]:
    """Splits a mapping, or a Series of pandas, into places and values."""
    if isinstance(places, Mapping):
        return list(places.keys()), list(places.values())
    if hasattr(places, "to_numpy") and hasattr(places, "index"):
        return places.index, places
    raise BadArgument("give places and values, or a mapping or a Series with both")


def is_one(values: Any) -> bool:
    """Whether ``values`` is one value for all places."""
    is_many = hasattr(values, "__len__") or hasattr(values, "__iter__")
    return isinstance(values, str) or not is_many


class Arrays:
    """Sets cells by an ``array`` of places and one of numbers, passed without a copy.

    Its other arguments are made once. The caller holds the table's lock.
    """

    def __init__(self, handle: Handle) -> None:
        column = header.ColumnStruct()
        column.offsets = column.bytes = column.valid = EMPTY_AT
        column.kind = header.INT
        self._words: Any = memoryview(column).cast("B").cast("Q")
        self._column_at = byref(column)
        self._places_at = c_void_p()
        self._done = c_size_t()
        self._done_at = byref(self._done)
        self._at = handle.at
        self._fc_set_column = handle.lib.fast("fc_set_column")

    def set(self, column: int, places: array[int], values: array[int]) -> tuple[int, int]:
        """Sets the cells in order until one is refused; returns the code, and how many were set."""
        kept = memoryview(places), memoryview(values)  # so no other thread resizes them
        self._places_at.value, count = places.buffer_info()
        self._words[0], length = values.buffer_info()
        if count != length or not count:  # another thread resized them before
            return (BadArgument.number if count != length else 0), 0
        self._words[1], self._done.value = length, 0
        arguments = self._places_at, count, self._column_at, self._done_at
        code: int = self._fc_set_column(self._at, column, *arguments)
        del kept
        return code, self._done.value


def are_plain(kind: type, places: Any, values: Any, count: int) -> bool:
    """Whether `Arrays` can take these places, of a table with ``count`` places, and values.

    If not, `Cells` converts them, and refuses those that do not fit.
    """
    if places.__class__ is not array or values.__class__ is not array or kind is not int:
        return False
    if places.typecode != "I" or values.typecode != "q" or len(places) != len(values):
        return False
    return bool(places) and greatest(places) < count


class Cells:
    """Sets places of a column to values. The caller holds the table's lock."""

    def __init__(self, table: Editing, column: str, places: Any, values: Any) -> None:
        self._table = table
        self._name = column
        self._column = table.schema.index(column)
        self._places = place_buffer(places, table._places)
        self._kept = memoryview(self._places)  # so no other thread resizes it
        self._count = len(self._places)
        self._values = self._buffer(table.schema.kinds[self._column], values)
        self._done = 0

    def _buffer(self, kind: type, values: Any) -> ColumnBuffer:
        if is_one(values):
            return repeated(self._name, kind, values, self._count)
        try:
            buffer = column_buffer(self._name, kind, values)
        except (WrongKind, NoUtf8) as error:
            details = dict(error.details)
            row = details.pop("row", self._count)
            if row < self._count:
                details["place"] = int(self._places[row])
            raise type(error)(**details) from None
        if buffer.length != self._count:
            given = f"there are {buffer.length:,} values for {self._count:,} places"
            raise BadArgument(f"{given} of column {self._name}")
        return buffer

    def set(self, code: int = 0, done: int = 0) -> None:
        """Sets all cells in order; the policy helps. Cells set before a refusal stay set.

        ``done`` cells may have been set already, by a call that was refused with ``code``.
        """
        self._done = done
        try:
            if code:
                self._set_one(code)
            while self._done < self._count:
                code = self._set_some()
                if code:
                    self._set_one(code)
        except Refused as error:
            error.details["cells_set"] = self._done
            raise

    def _set_one(self, code: int) -> None:
        """Sets the next cell, which was refused with a code, by the policy's help."""
        mover, before = self._table._mover, self._done
        with Helper(mover, self._table.policy) as helper:
            while code and self._done == before:
                if not helper.has_helped(code):
                    raise self._refusal(code)
                mover.counters.retries += 1
                code = self._set_some()

    def _set_some(self) -> int:
        """Sets the next cells until one is refused; returns the code."""
        start, handle = self._done, self._table._handle
        stop = min(start + _CELLS_AT_ONCE, self._count)
        values, done = header.ColumnStruct(), c_size_t()
        kept = self._values.fill(values, start, stop)
        places = address_of(self._places) + 4 * start
        about = self._column, places, stop - start, byref(values), byref(done)
        code = int(handle.lib.fc_set_column(handle.at, *about))
        del kept
        self._done += done.value
        return code

    def _refusal(self, code: int) -> Refused:
        place, value = int(self._places[self._done]), self._values.value(self._done)
        more = {"column": self._name, "place": place, "value": value}
        return self._table._handle.refusal(code, **more)
