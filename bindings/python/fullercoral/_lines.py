"""Reads the lines of the answer that a table's handle holds.

One call writes up to 256 lines into a buffer that all readers of a handle share. The readers take
them from there column by column. The texts of keys are elsewhere in memory: one more call copies
them. Lines that did not change since the last answer are not made again.
"""

from __future__ import annotations

from array import array
from ctypes import addressof, byref, c_size_t, c_void_p, sizeof
from itertools import repeat
from typing import Any, Iterable, Iterator

from . import _header as header
from ._handle import EMPTY_AT, Handle
from ._lent import LentTexts
from .errors import Nothing

LINES = 256  # how many lines one call writes
MOST_KEPT = 4096  # lines that are kept of an aggregate's last answer
_BLOCK = 32  # how many lines are compared at once
_BYTES = sizeof(header.LineStruct)  # of a line
_STEP = _BYTES // 8  # words of a line

_KEY_AT, _KEY_LEN, _KEY_NUMBER, _COUNT, _LOW, _HIGH, _MIN, _MAX = range(8)  # words of a line

_MASK = (1 << 64) - 1

_new = tuple.__new__  # what a named tuple's own ``_make`` calls


class LineBuffer:
    """Lines of the answer that a handle holds, as the last call wrote them.

    The caller holds the table's lock.
    """

    def __init__(self, handle: Handle) -> None:
        lines = (header.LineStruct * LINES)()
        self._bytes = memoryview(lines).cast("B")
        self.words = self._bytes.cast("q")
        self._unsigned = memoryview(lines).cast("B").cast("Q")
        self._blank = array("q", ([EMPTY_AT] + [0] * (_STEP - 1)) * LINES)
        self._no_addresses = array("q", [0] * LINES)
        self._texts: LentTexts | None = None  # made for the first answer with texts as keys
        self._lines = lines
        self._lines_at = c_void_p(addressof(lines))
        self._count = c_size_t()
        self._count_at = byref(self._count)
        self._at = handle.at
        self._fc_lines = handle.lib.short("fc_lines")

    def read(self, index: int, most: int) -> int:
        """Reads up to ``most`` lines from an index on; returns the code of the call."""
        self.words[:] = self._blank  # the texts of the previous lines may have been freed
        room = min(most, LINES)
        code: int = self._fc_lines(self._at, index, self._lines_at, room, self._count_at)
        return code

    @property
    def count(self) -> int:
        """How many lines the last call wrote."""
        return self._count.value

    def numbers(self, word: int, start: int, stop: int) -> list[int]:
        """Returns one word of each line of a range, as signed numbers."""
        return self.words[word + _STEP * start : _STEP * stop : _STEP].tolist()

    def sums(self, start: int, stop: int) -> list[int]:
        """Returns the sums of a range of lines, each joined from its two halves."""
        lows = self._unsigned[_LOW + _STEP * start : _STEP * stop : _STEP].tolist()
        highs = self.numbers(_HIGH, start, stop)
        return [(high << 64) + low for high, low in zip(highs, lows)] if any(highs) else lows

    def texts(self, count: int) -> Iterable[str]:
        """Returns the keys of the first lines, which are texts."""
        if self._texts is None:
            self._texts = LentTexts(self._lines, header.LineStruct.key_at.offset)
        return self._texts.first(count)

    def without_texts(self, count: int) -> bytes:
        """Returns the bytes of the first lines, with zeros in place of the addresses of texts.

        Afterwards `texts` has nothing to read.
        """
        self.words[_KEY_AT::_STEP] = self._no_addresses
        return bytes(self._bytes[: _BYTES * count])


class LineReader:
    """Reads the answers of one aggregate. The caller holds the table's lock."""

    def __init__(self, handle: Handle, fold: Any, key: type | None) -> None:
        self._handle = handle
        self._at = handle.at
        self._fold = fold
        self._has_totals = "count" in fold._fields
        self._key = key

    def first(self, count: int) -> list[tuple[Any, Any]]:
        """Returns the first lines of the answer, each with its key, in the order of keys.

        The key is None if the aggregate has no key column.
        """
        pairs: list[tuple[Any, Any]] = []
        for lines, length in self.parts(count):
            pairs += self.pairs_in(lines, length)
        return pairs

    def keys(self, count: int) -> list[Any]:
        """Returns the keys of the first lines of the answer."""
        keys: list[Any] = []
        for lines, length in self.parts(count):
            keys += self._keys_in(lines, length)
        return keys

    def values(self, count: int) -> list[Any]:
        """Returns the first lines of the answer without their keys."""
        values: list[Any] = []
        for lines, length in self.parts(count):
            values += self.values_in(lines, 0, length)
        return values

    def arrays(self, count: int) -> tuple[Any, dict[str, Any]]:
        """Returns the keys of the first lines, and their values by field name.

        Numbers are arrays of numpy, except sums of more than 64 bits.
        """
        import numpy

        keys: list[Any] = []
        parts = [numpy.empty((0, _STEP), "int64")]
        for lines, length in self.parts(count):
            if self._key is not int:
                keys += self._keys_in(lines, length)
            words = numpy.frombuffer(lines.words, "int64", _STEP * length)
            parts.append(words.reshape(length, _STEP).copy())
        table = numpy.concatenate(parts)
        named = table[:, _KEY_NUMBER] if self._key is int else keys
        if not self._has_totals:
            return named, {"min": table[:, _MIN], "max": table[:, _MAX]}
        sums, highs = table[:, _LOW], table[:, _HIGH]
        if not (highs == sums >> 63).all():
            halves = zip(highs.tolist(), sums.tolist())
            sums = [(high << 64) + (low & _MASK) for high, low in halves]
        return named, {"count": table[:, _COUNT], "sum": sums}

    def parts(self, count: int) -> Iterator[tuple[LineBuffer, int]]:
        """Reads the first lines of the answer in parts; yields the buffer and the part's length."""
        handle, index = self._handle, 0
        if handle.lines is None:
            handle.lines = LineBuffer(handle)
        lines: LineBuffer = handle.lines
        while index < count:
            handle.check(lines.read(index, count - index))
            if not lines.count:
                raise Nothing(f"the answer has no line {index}")
            yield lines, lines.count
            index += lines.count

    def _keys_in(self, lines: LineBuffer, length: int) -> Iterable[Any]:
        if self._key is str:
            return lines.texts(length)
        if self._key is int:
            return lines.numbers(_KEY_NUMBER, 0, length)
        return [None] * length

    def values_in(self, lines: LineBuffer, start: int, stop: int) -> Iterable[Any]:
        """Yields a range of the lines in the buffer, without their keys."""
        if self._has_totals:
            pairs = zip(lines.numbers(_COUNT, start, stop), lines.sums(start, stop))
        else:
            pairs = zip(lines.numbers(_MIN, start, stop), lines.numbers(_MAX, start, stop))
        return map(_new, repeat(self._fold), pairs)

    def pairs_in(self, lines: LineBuffer, length: int) -> Iterable[tuple[Any, Any]]:
        """Yields the first lines in the buffer, each with its key."""
        return zip(self._keys_in(lines, length), self.values_in(lines, 0, length))


class KeptLines:
    """The lines of an aggregate's last answer. The next answer takes from them what is equal.

    Making a line for Python takes longer than the library takes to compute it, and after a few
    edits most lines are as before. So the bytes of each block of lines are compared with those of
    the last answer, without the texts of keys. The keys are the same if no edit since may have
    retracted a row from its key, so that keys were only added, and there are as many lines.
    """

    def __init__(self, reader: LineReader) -> None:
        self._reader = reader
        self._pairs: list[tuple[Any, Any]] = []
        self._parts: list[bytes] = []  # the lines that each call wrote, without texts
        self._retractions = -1

    def pairs(self, count: int, retractions: int) -> list[tuple[Any, Any]]:
        """Returns the lines of the answer, of which there are ``count``, each with its key.

        ``retractions`` counts the edits so far that may have retracted a row from its key.
        """
        if count > MOST_KEPT:
            self._pairs, self._parts = [], []
            return self._reader.first(count)
        has_same_keys = self._has_same_keys(count, retractions)
        self._retractions = -1  # until all lines are read
        if has_same_keys:
            self._read_changed(count)
        else:
            self._read_all(count)
        self._retractions = retractions
        return self._pairs.copy()

    def keys(self, count: int, retractions: int) -> list[Any]:
        """Returns the keys of the answer."""
        if self._has_same_keys(count, retractions):
            return [key for key, _ in self._pairs]
        return self._reader.keys(count)

    def values(self, count: int, retractions: int) -> list[Any]:
        """Returns the lines of the answer without their keys."""
        if count > MOST_KEPT:
            return self._reader.values(count)
        return [line for _, line in self.pairs(count, retractions)]

    def _has_same_keys(self, count: int, retractions: int) -> bool:
        return count == len(self._pairs) and retractions == self._retractions

    def _read_all(self, count: int) -> None:
        self._pairs, self._parts = [], []
        for lines, length in self._reader.parts(count):
            self._pairs += self._reader.pairs_in(lines, length)
            self._parts.append(lines.without_texts(length))

    def _read_changed(self, count: int) -> None:
        """Reads the blocks of lines that changed."""
        for part, (lines, length) in enumerate(self._reader.parts(count)):
            before, self._parts[part] = self._parts[part], lines.without_texts(length)
            if before == self._parts[part]:
                continue
            for start in range(0, length, _BLOCK):
                stop = min(start + _BLOCK, length)
                block = slice(_BYTES * start, _BYTES * stop)
                if before[block] != self._parts[part][block]:
                    self._read_block(lines, LINES * part, start, stop)

    def _read_block(self, lines: LineBuffer, first: int, start: int, stop: int) -> None:
        """Reads a range of the lines in the buffer, which are those from ``first`` on."""
        block = slice(first + start, first + stop)
        keys = [key for key, _ in self._pairs[block]]
        self._pairs[block] = zip(keys, self._reader.values_in(lines, start, stop))
