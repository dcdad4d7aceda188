"""Converts columns to the library's form: adjacent numbers, and texts with offsets.

No Python loop copies cells: arrays and buffers of 64-bit numbers are passed without a copy, lists
go through ``array``, and texts through one join and one encoding.
"""

from __future__ import annotations

import ctypes
from array import array
from itertools import accumulate
from typing import Any, Iterable, Sequence

from . import _header as header
from ._handle import EMPTY_AT
from .errors import BadArgument, NoUtf8, WrongKind
from .schema import NA

BYTES_AT = bytes.__basicsize__ - 1  # the offset of a bytes object's content from its ``id``

_ALIGNED = 8  # the alignment of a number of 64 bits
_LEAST, _MOST = -(1 << 63), (1 << 63) - 1
_MISSING = ("NAType", "NaTType", "MaskedConstant")  # the classes of pandas.NA, NaT, numpy.ma.masked


class _PyBuffer(ctypes.Structure):
    """CPython's ``Py_buffer``, which has the address of a read-only buffer."""

    _fields_ = [
        ("buf", ctypes.c_void_p),
        ("obj", ctypes.py_object),
        ("len", ctypes.c_ssize_t),
        ("itemsize", ctypes.c_ssize_t),
        ("readonly", ctypes.c_int),
        ("ndim", ctypes.c_int),
        ("format", ctypes.c_char_p),
        ("shape", ctypes.c_void_p),
        ("strides", ctypes.c_void_p),
        ("suboffsets", ctypes.c_void_p),
        ("internal", ctypes.c_void_p),
    ]


def address_of(buffer: Any) -> int:
    """Returns the address of a buffer, which the caller keeps alive.

    An empty buffer gets the address of `EMPTY`: Python's may be odd, and numbers are aligned.
    """
    if buffer.__class__ is array:
        at, length = buffer.buffer_info()
        return int(at) if length else EMPTY_AT
    view = _PyBuffer()
    ctypes.pythonapi.PyObject_GetBuffer(ctypes.py_object(buffer), ctypes.byref(view), 0)
    try:
        return int(view.buf) if view.len else EMPTY_AT
    finally:
        ctypes.pythonapi.PyBuffer_Release(ctypes.byref(view))


class ColumnBuffer:
    """A column of rows to insert, or a part of it, as an ``fc_column``."""

    def __init__(self, kind: int, length: int, valid: bytes | None) -> None:
        self.kind = kind
        self.length = length
        self.valid = valid  # a bit for each row, the lowest first; None if all have a value
        self.numbers_at = self.offsets_at = self.bytes_at = EMPTY_AT
        self.bytes_len = 0
        self.keeps: list[Any] = []

    def fill(self, column: header.ColumnStruct, start: int, stop: int) -> Any:
        """Describes rows ``start`` to ``stop``; returns what must be kept alive for the call."""
        count = stop - start
        column.kind = self.kind
        is_text = self.kind == header.TEXT
        column.numbers = self.numbers_at + (0 if is_text else 8 * start)
        column.numbers_len = 0 if is_text else count
        column.offsets = self.offsets_at + (8 * start if is_text else 0)
        column.offsets_len = count + 1 if is_text else 0
        column.bytes, column.bytes_len = self.bytes_at, self.bytes_len
        if self.valid is None:
            column.valid, column.valid_len = EMPTY_AT, 0
            return None
        bits = _bits_between(self.valid, start, stop)
        column.valid, column.valid_len = address_of(bits), len(bits)
        return bits

    def value(self, index: int) -> int | str | None:
        """Returns the value of a row; None if it is missing."""
        if self.valid is not None and not self.valid[index // 8] >> index % 8 & 1:
            return None
        if self.kind == header.INT:
            return ctypes.c_int64.from_address(self.numbers_at + 8 * index).value
        start, stop = (ctypes.c_uint64 * 2).from_address(self.offsets_at + 8 * index)
        return ctypes.string_at(self.bytes_at + start, stop - start).decode()


def _bits_between(bits: bytes, start: int, stop: int) -> bytes:
    """Returns the bits of a range of rows, shifted to begin at bit 0."""
    length = (stop - start + 7) // 8
    if start % 8 == 0 and (stop % 8 == 0 or len(bits) == (stop + 7) // 8):
        return bits[start // 8 : start // 8 + length]
    some = int.from_bytes(bits[start // 8 : (stop + 7) // 8], "little") >> start % 8
    return (some & ((1 << stop - start) - 1)).to_bytes(length, "little")


class MaskedNumbers:
    """Numbers with a validity mask: a bit for each, the lowest first."""

    def __init__(self, numbers: array[int], valid: bytes) -> None:
        self.numbers, self.valid = numbers, valid


def pack_bits(flags: Sequence[Any]) -> bytes:
    """Packs flags into bits, the lowest first."""
    digits = "".join(["1" if flag else "0" for flag in flags])[::-1]
    return int(digits or "0", 2).to_bytes((len(flags) + 7) // 8, "little")


def column_buffer(name: str, kind: type, values: Any) -> ColumnBuffer:
    """Makes a column from values in any form that ``Table.extend_columns`` takes."""
    if hasattr(values, "__next__"):
        values = list(values)
    if isinstance(values, MaskedNumbers):
        return _numbers(name, values.numbers, values.valid)
    values, valid = _from_arrays(values, kind)
    if kind is int:
        return _numbers(name, values, valid)
    return _texts(name, values, valid)


def repeated(name: str, kind: type, value: Any, count: int) -> ColumnBuffer:
    """Makes a column of ``count`` rows that all have the same value."""
    value = cell_value(name, kind, value)
    if value is None:
        buffer = column_buffer(name, kind, [0 if kind is int else ""] * count)
        buffer.valid = bytes((count + 7) // 8)
        return buffer
    return column_buffer(name, kind, [value] * count)


def _numbers(name: str, values: Any, valid: bytes | None) -> ColumnBuffer:
    if isinstance(values, str):
        raise WrongKind(column=name, kind="int", value=values)
    numbers = _as_int64(values)
    if numbers is None:
        numbers, valid = _numbers_with_missing(name, list(values))
    if address_of(numbers) % _ALIGNED:
        numbers = array("q", bytes(memoryview(numbers)))
    buffer = ColumnBuffer(header.INT, len(numbers), valid)
    buffer.keeps.append(memoryview(numbers))  # so no other thread resizes the buffer
    buffer.numbers_at = address_of(numbers)
    return buffer


def _as_int64(values: Any) -> Any:
    """Returns values as a buffer of 64-bit numbers; None if cells must be checked one by one."""
    if isinstance(values, (bytes, bytearray)):
        return None
    try:
        view = memoryview(values)
    except TypeError:
        view = None
    if view is not None and view.ndim == 1 and view.format in ("q", "l", "@q", "@l", "=q", "<q"):
        if view.itemsize == 8 and view.contiguous:
            return values
    try:
        return array("q", values)
    except (TypeError, OverflowError, ValueError):
        return None


def _numbers_with_missing(name: str, values: list[Any]) -> tuple[array[int], bytes]:
    there = [value is not None and value is not NA for value in values]
    try:
        numbers = array("q", [value if has else 0 for value, has in zip(values, there)])
        return numbers, pack_bits(there)
    except (TypeError, OverflowError):
        pass  # check the cells one by one
    cells = [cell_value(name, int, value, row) for row, value in enumerate(values)]
    return array("q", [cell or 0 for cell in cells]), pack_bits([c is not None for c in cells])


def _is_missing(value: Any) -> bool:
    """Whether a value is NaN, or another missing value of numpy or pandas."""
    if type(value).__name__ in _MISSING:
        return True
    return hasattr(value, "is_integer") and bool(value != value)


def cell_value(name: str, kind: type, value: Any, row: int | None = None) -> Any:
    """Returns the value of a cell, None if it is missing.

    Anything with a whole value is a number: an int, an integer of numpy, a float such as 2.0; True
    is 1. Raises `WrongKind`, with the row, for a value that the column cannot hold.
    """
    if value is None or value is NA or (value.__class__ is not kind and _is_missing(value)):
        return None
    more = {} if row is None else {"row": row}
    if kind is int:
        number = _whole_number(value)
        if number is None or not _LEAST <= number <= _MOST:
            raise WrongKind(column=name, kind="int", value=value, **more)
        return number
    if not isinstance(value, str):
        raise WrongKind(column=name, kind="str", value=value, **more)
    try:
        str.encode(value)
    except UnicodeEncodeError:
        raise NoUtf8(column=name, value=value, **more) from None
    return value


def _whole_number(value: Any) -> int | None:
    try:
        return int(value.__index__())
    except (AttributeError, TypeError):
        pass
    is_whole = getattr(value, "is_integer", None)
    return int(value) if is_whole is not None and is_whole() else None


def _texts(name: str, values: Any, valid: bytes | None) -> ColumnBuffer:
    texts: Sequence[Any] = values if isinstance(values, (list, tuple)) else list(values)
    if isinstance(values, str):
        raise WrongKind(f"column {name} was given one text; give a list of texts", column=name)
    try:
        joined = "".join(texts)
    except TypeError:
        texts, valid = _texts_with_missing(name, texts)
        joined = "".join(texts)
    try:
        encoded = joined.encode()
        lengths: Iterable[int] = map(len, texts)
        if len(encoded) != len(joined):
            lengths = [len(text.encode()) for text in texts]
    except UnicodeEncodeError:
        _texts_with_missing(name, texts)
        raise
    buffer = ColumnBuffer(header.TEXT, len(texts), valid)
    offsets = array("Q", accumulate(lengths, initial=0))
    buffer.keeps += [offsets, encoded]
    buffer.offsets_at = address_of(offsets)
    buffer.bytes_at, buffer.bytes_len = address_of(encoded), len(encoded)
    return buffer


def _texts_with_missing(name: str, values: Sequence[Any]) -> tuple[list[str], bytes]:
    """Returns texts, "" for missing ones, and a mask of those present; refuses other values."""
    cells = [cell_value(name, str, value, row) for row, value in enumerate(values)]
    return [cell or "" for cell in cells], pack_bits([cell is not None for cell in cells])


# Arrays of numpy and pandas are recognised by their attributes; neither is imported here.


def _from_arrays(values: Any, kind: type) -> tuple[Any, bytes | None]:
    """Converts arrays of numpy and pandas to the forms above, with a mask if cells are missing."""
    if hasattr(values, "isna") and hasattr(values, "to_numpy"):
        return _from_pandas(values, kind)
    if hasattr(values, "__array_interface__"):
        return _from_numpy(values, kind)
    return values, None


def _from_numpy(values: Any, kind: type) -> tuple[Any, bytes | None]:
    if values.ndim != 1:
        raise BadArgument(f"a column is an array of 1 dimension, not {values.ndim}")
    missing = getattr(values, "mask", None)
    if missing is not None and getattr(missing, "shape", ()) == ():
        missing = None  # a masked array without a mask
    if kind is str or values.dtype.kind not in "iuf":
        return values.tolist(), None  # tolist makes a masked cell None
    if missing is not None:
        values = values.filled(0)
    if values.dtype.kind == "f":
        values, missing = _whole(values, missing)
        if missing is None:
            return values, None
    if values.dtype.kind == "u" and values.size and int(values.max()) > _MOST:
        return values.tolist(), None  # the check of the list names the cell that does not fit
    values = values.astype("int64", copy=False)
    return values, None if missing is None else _packed(missing)


def _whole(values: Any, missing: Any) -> tuple[Any, Any]:
    """Converts floats to whole numbers, NaN to missing; returns a list if one is not whole."""
    empty = values != values
    missing = empty if missing is None else missing | empty
    filled = values.copy()
    filled[missing] = 0
    whole = (filled % 1 == 0) & (abs(filled) < 2.0**63)
    if not whole.all():
        return [0 if fits else value for value, fits in zip(filled.tolist(), whole)], None
    return filled.astype("int64"), missing


def _packed(missing: Any) -> bytes:
    """Packs the inverse of a numpy mask of missing cells into validity bits."""
    import numpy

    return numpy.packbits(~missing, bitorder="little").tobytes()


def _from_pandas(values: Any, kind: type) -> tuple[Any, bytes | None]:
    missing = values.isna().to_numpy() if hasattr(values.isna(), "to_numpy") else values.isna()
    dtype = getattr(values.dtype, "kind", "O")
    if kind is int and dtype in "iu" and not missing.any():
        return _from_numpy(values.to_numpy(), kind)
    if kind is int and dtype in "iu":
        return values.to_numpy(dtype="int64", na_value=0), _packed(missing)
    if kind is int and dtype == "f":
        return _from_numpy(values.to_numpy(), kind)
    if not missing.any():
        return values.tolist(), None
    return [None if gone else value for value, gone in zip(values.tolist(), missing)], None
