"""Converts places of many cells to the library's form: adjacent numbers of 32 bits.

Callers give a list, an ``array``, a slice, an array of numpy or pandas, or a mask with a flag for
each place. A negative place counts from the end.
"""

from __future__ import annotations

import sys
from array import array
from itertools import compress
from typing import Any, Iterable, Sequence

from .errors import BadArgument, NoRow

_FORMATS = ("I", "@I", "=I", "<I")
_MANY = 256  # from so many places on a call of numpy is faster


def place_buffer(places: Any, count: int) -> Any:
    """Returns places of a table with ``count`` places as a buffer of 32-bit numbers."""
    if isinstance(places, slice):
        return array("I", range(*places.indices(count)))
    if hasattr(places, "to_numpy"):
        places = places.to_numpy()
    if hasattr(places, "__array_interface__"):
        return _from_numpy(places, count)
    if not _is_plain(places):
        places = places if isinstance(places, (list, tuple, range)) else list(places)
        if places and isinstance(places[0], bool):
            places = array("I", compress(range(count), _mask(places, count)))
        places = _as_uint32(places, count)
    if len(places) and greatest(places) >= count:
        raise _no_row(places, count)
    return places


def greatest(places: Any) -> int:
    """Returns the maximum of a buffer of 32-bit numbers, by numpy if the program has loaded it."""
    numpy: Any = sys.modules.get("numpy") if len(places) >= _MANY else None
    if hasattr(numpy, "frombuffer"):
        return int(numpy.frombuffer(places, "uint32").max())
    most: int = max(places)
    return most


def _is_plain(places: Any) -> bool:
    """Whether places are a buffer that can be passed without a copy."""
    try:
        view = memoryview(places)
    except TypeError:
        return False
    return view.format in _FORMATS and view.itemsize == 4 and view.ndim == 1 and view.c_contiguous


def _mask(flags: Sequence[Any], count: int) -> Sequence[Any]:
    if len(flags) != count:
        raise _wrong_mask(len(flags), count)
    for flag in flags:
        if not isinstance(flag, bool):
            raise BadArgument(f"a mask has only True and False, not {flag!r:.60}")
    return flags


def _wrong_mask(length: int, count: int) -> BadArgument:
    return BadArgument(f"the mask has {length:,} flags, but the table has {count:,} places")


def _as_uint32(places: Iterable[Any], count: int) -> array[int]:
    try:
        return array("I", places)
    except (TypeError, ValueError, OverflowError):
        return array("I", [_from_start(place, count) for place in places])


def _from_start(place: Any, count: int) -> int:
    """Returns a place counted from the start, given one that may be negative."""
    try:
        index = int(place.__index__())
    except (AttributeError, TypeError):
        raise BadArgument(f"a place is a whole number, not {place!r:.60}") from None
    if not -count <= index < count:
        raise NoRow(place=index, places=count)
    return index + count if index < 0 else index


def _no_row(places: Iterable[int], count: int) -> NoRow:
    return NoRow(place=next(place for place in places if place >= count), places=count)


def _from_numpy(places: Any, count: int) -> Any:
    import numpy

    if places.ndim != 1:
        raise BadArgument(f"places are an array of 1 dimension, not {places.ndim}")
    if places.dtype.kind == "b":
        if len(places) != count:
            raise _wrong_mask(len(places), count)
        places = numpy.flatnonzero(places)
    if places.dtype.kind not in "iu":
        return place_buffer(places.tolist(), count)
    if places.dtype.kind == "u" and len(places) and int(places.max()) >= count:
        raise _no_row(places.tolist(), count)
    places = places.astype("int64", copy=False)
    wrong = (places < -count) | (places >= count)
    if wrong.any():
        raise NoRow(place=int(places[wrong][0]), places=count)
    return numpy.where(places < 0, places + count, places).astype("uint32")
