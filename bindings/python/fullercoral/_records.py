"""Reads and writes records of comma-separated values, as the script language has them."""

from __future__ import annotations

import csv
import io
import re
from typing import Iterable

from . import _header as header
from .column import Value

_MISSING = "\\N"
_NUMBER = re.compile(r"[+-]?[0-9]+")


def records(text: str) -> list[list[str]]:
    """Returns the records of a text. Skips empty lines; an open quote ends with the text."""
    file = io.StringIO(text.removeprefix("\ufeff"), newline="")
    return [fields for fields in csv.reader(file) if fields]


def record_text(values: Iterable[Value]) -> str:
    """Returns values as a record, with quotes where they are needed."""
    return ",".join(map(_field_text, values)) or '""'


def _field_text(value: Value) -> str:
    text = _MISSING if value is None else str(value)
    return text if not re.search('[,"\r\n]', text) else '"' + text.replace('"', '""') + '"'


def number_of(text: str) -> int | None:
    """Returns a field as a number, or None if it is not a number of 64 bits."""
    if not _NUMBER.fullmatch(text) or len(text) > 400:
        return None
    number = int(text)
    return number if -(1 << 63) <= number < 1 << 63 else None


def value_of(field: str, kind: type | None) -> Value:
    """Returns a field as a value of a column of this kind; None is the kind of a surplus field."""
    if field == _MISSING:
        return None
    number = number_of(field) if kind is int else None
    return field if number is None else number


class Cells:
    """An array of ``fc_cell`` for values of any kinds."""

    def __init__(self, values: list[Value]) -> None:
        self.array = (header.Cell * max(1, len(values)))()
        self.length = len(values)
        for cell, value in zip(self.array, values):
            cell.text_at = b""
            if isinstance(value, int):
                cell.number, cell.kind = value, header.INT
            elif value is not None:
                text = value.encode()
                cell.text_at, cell.text_len, cell.kind = text, len(text), header.TEXT
