"""A plain table of lists, the model for the package's table."""

from __future__ import annotations

import operator
from typing import Any

import fullercoral as fc

_TESTS = {
    "==": operator.eq,
    "!=": operator.ne,
    "<": operator.lt,
    "<=": operator.le,
    ">": operator.gt,
    ">=": operator.ge,
    "^=": str.startswith,
}


class PlainTable:
    """Rows as lists, None for removed ones; each answer is computed from all rows."""

    def __init__(self, kinds: dict[str, type]) -> None:
        self.names = list(kinds)
        self.rows: list[list[Any] | None] = []

    def append(self, row: list[Any]) -> int:
        self.rows.append(list(row))
        return len(self.rows) - 1

    def set(self, place: int, column: str, value: Any) -> None:
        self._row(place)[self.names.index(column)] = value

    def remove(self, place: int) -> None:
        self._row(place)
        self.rows[place] = None

    def _row(self, place: int) -> list[Any]:
        if not 0 <= place < len(self.rows):
            raise fc.errors.NoRow()
        row = self.rows[place]
        if row is None:
            raise fc.errors.RemovedRow()
        return row

    def row(self, place: int) -> tuple[Any, ...]:
        return tuple(self._row(place))

    def part(self, column: str, start: int, stop: int) -> list[Any]:
        at = self.names.index(column)
        return [None if row is None else row[at] for row in self.rows[start:stop]]

    def live(self) -> list[tuple[Any, ...]]:
        return [tuple(row) for row in self.rows if row is not None]

    def answer(self, spec: fc.Spec) -> dict[Any, Any]:
        value, by = self.names.index(spec.value), spec.by and self.names.index(spec.by)
        lines: dict[Any, list[int]] = {}
        for row in self.live():
            key = None if spec.by is None else row[by]
            if row[value] is None or (spec.by is not None and key is None):
                continue
            if all(self._passes(row, test) for test in spec.where):
                lines.setdefault(key, []).append(row[value])
        if spec.fold == "extrema":
            return {key: fc.MinMax(min(values), max(values)) for key, values in lines.items()}
        if spec.by is None:
            lines.setdefault(None, [])
        return {key: fc.Total(len(values), sum(values)) for key, values in lines.items()}

    def _passes(self, row: tuple[Any, ...], test: tuple[str, str, Any]) -> bool:
        column, op, constant = test
        cell = row[self.names.index(column)]
        return cell is not None and _TESTS[op](cell, constant)
