"""Limits of a table, chosen one by one or from an amount of local memory."""

from __future__ import annotations

import re
from dataclasses import dataclass, fields
from typing import Union

from . import _header as header
from .errors import BadSchema
from .schema import Schema

_UNITS = {"B": 1, "KB": 10**3, "MB": 10**6, "GB": 10**9, "TB": 10**12}
_UNITS |= {"KIB": 1 << 10, "MIB": 1 << 20, "GIB": 1 << 30, "TIB": 1 << 40}
_UNITS |= {"K": 1 << 10, "M": 1 << 20, "G": 1 << 30, "T": 1 << 40}
_LEAST_BYTES = 1 << 10
_MOST_BYTES = header.NUMBER_BYTES * header.MAX_SEGMENTS * header.MAX_INT_SIZE
_MOST_BYTES += header.MAX_SEGMENTS * header.MAX_TEXT_SIZE

# An append of a text copies the texts of its row group, so row groups with texts are smaller.
_GROUP_OF_NUMBERS = 4096
_GROUP_WITH_TEXTS = 512
_TEXT_GUESS = 24  # the assumed local memory of a text, in bytes
_LEAST_GROUP = 16
_TEXT_SEGMENTS = 128


def parse_bytes(amount: Union[int, str]) -> int:
    """Parses an amount of memory: a number of bytes, or a text with a unit.

    Refuses a text without a unit, and amounts that no table can have: less than 1 KiB, or more
    than 32 GiB (16 for numbers and 16 for texts).

    >>> parse_bytes("64MB"), parse_bytes("1.5 GiB"), parse_bytes(4096)
    (64000000, 1610612736, 4096)
    """
    if isinstance(amount, int):
        number = float(amount)
    else:
        found = re.fullmatch(r"\s*(\d+(?:\.\d+)?)\s*([a-zA-Z]*)\s*", amount)
        if found is not None and not found[2]:
            raise BadSchema(f"{amount!r} has no unit; write '{found[1]}MB'")
        if found is None or found[2].upper() not in _UNITS:
            raise BadSchema(f"{amount!r} is not an amount of memory; write '64MB' or '1GiB'")
        number = float(found[1]) * _UNITS[found[2].upper()]
    if number < _LEAST_BYTES:
        raise BadSchema(f"{amount!r} is too little memory for a table; write '64MB'")
    if number > _MOST_BYTES:
        most = f"{_MOST_BYTES >> 30}GiB"
        raise BadSchema(f"{amount!r} is more memory than a table can use; write {most!r} or less")
    return int(number)


@dataclass(frozen=True)
class Limits:
    """The limits of a table, which reserves all of its local memory when it opens.

    >>> limits = Limits.for_local(Schema({"sku": str, "quantity": int}), "16MB")
    >>> limits.group, limits.local_bytes <= 16_000_000
    (512, True)
    """

    group: int
    """Places in a row group: 1 to 65,536."""
    int_segments: int
    """Segments for numbers: 1 to 1,024."""
    int_size: int
    """Numbers in a segment, of 16 bytes each: ``group`` to 1,048,576."""
    text_segments: int
    """Segments for texts: 1 to 1,024."""
    text_size: int
    """Bytes in a segment for texts: 64 to 16,777,216."""
    places: int = header.MAX_PLACES
    """Places of the table, with those of removed rows: 1 to 2^24."""
    edits: int = header.MAX_EDITS
    """Edits that the table accepts, and jobs: 1 to 2^40 of each."""

    def __post_init__(self) -> None:
        for name in _BOUNDS:
            _check_bounds(name, getattr(self, name))
        if self.int_size < self.group:
            raise BadSchema(f"int_size is at least the {self.group:,} places of a row group")

    @property
    def local_bytes(self) -> int:
        """The bytes of local memory for the cells of the table."""
        numbers = header.NUMBER_BYTES * self.int_segments * self.int_size
        return numbers + self.text_segments * self.text_size

    @classmethod
    def for_local(
        cls, schema: Schema, local: Union[int, str] = "64MB", group: int | None = None
    ) -> Limits:
        """Chooses limits for a table with these columns and this amount of local memory."""
        amount = parse_bytes(local)
        numbers, texts = schema.count(int), schema.count(str)
        place = numbers * header.NUMBER_BYTES + texts * _TEXT_GUESS
        if group is None:
            group = _group_for(amount, place, texts)
        _check_bounds("group", group)
        int_segments, int_size = 1, group
        text_segments, text_size = 1, 64
        if numbers:
            share = amount * numbers * header.NUMBER_BYTES // place
            int_segments, int_size = _int_segments(share, group)
        if texts:
            share = amount * texts * _TEXT_GUESS // place
            text_segments, text_size = _text_segments(share)
        return cls(group, int_segments, int_size, text_segments, text_size)

    def to_header(self) -> header.LimitsStruct:
        """Returns the limits as an ``fc_limits``."""
        return header.LimitsStruct(**{f.name: getattr(self, f.name) for f in fields(self)})


_BOUNDS = {
    "group": (1, header.MAX_GROUP),
    "int_segments": (1, header.MAX_SEGMENTS),
    "int_size": (1, header.MAX_INT_SIZE),
    "text_segments": (1, header.MAX_SEGMENTS),
    "text_size": (64, header.MAX_TEXT_SIZE),
    "places": (1, header.MAX_PLACES),
    "edits": (1, header.MAX_EDITS),
}


def _check_bounds(name: str, value: object) -> None:
    least, most = _BOUNDS[name]
    if not isinstance(value, int) or not least <= value <= most:
        raise BadSchema(f"{name} is {least:,} to {most:,}, not {value!r}")


def _group_for(amount: int, place: int, texts: int) -> int:
    """Returns a row group size such that at least 32 row groups fit into local memory."""
    group = _GROUP_WITH_TEXTS if texts else _GROUP_OF_NUMBERS
    while group > _LEAST_GROUP and group * place * 32 > amount:
        group //= 2
    return group


def _int_segments(share: int, group: int) -> tuple[int, int]:
    """Returns the number and size of segments: one row group each, if the limit allows so many.

    An eviction then frees a whole segment, and nothing has to be compacted.
    """
    together = max(1, -(-share // (header.NUMBER_BYTES * group * header.MAX_SEGMENTS)))
    size = min(group * together, header.MAX_INT_SIZE // group * group)
    return min(max(1, share // (header.NUMBER_BYTES * size)), header.MAX_SEGMENTS), size


def _text_segments(share: int) -> tuple[int, int]:
    segments = _TEXT_SEGMENTS
    while segments > 16 and share // segments < header.MAX_TEXT * 4:
        segments //= 2
    size = min(max(64, share // segments), header.MAX_TEXT_SIZE)
    return min(max(1, share // size), header.MAX_SEGMENTS), size
