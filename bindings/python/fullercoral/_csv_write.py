"""Writes the rows of a table as CSV."""

from __future__ import annotations

import csv
from typing import TYPE_CHECKING, Any, Callable

if TYPE_CHECKING:
    from .table import Table


def write_csv(
    table: Table, path: Any, delimiter: str, header: bool, missing: str, shown: Callable[..., Any]
) -> int:
    """Writes the live rows of a table as CSV."""
    if hasattr(path, "write"):
        return _write(table, path, delimiter, header, missing, shown)
    with open(path, "w", encoding="utf-8", newline="") as file:
        return _write(table, file, delimiter, header, missing, shown)


def _write(
    table: Table, file: Any, delimiter: str, header: bool, missing: str, shown: Callable[..., Any]
) -> int:
    writer = csv.writer(file, delimiter=delimiter, lineterminator="\n")
    if header:
        writer.writerow(table.schema.names)
    written, rows = 0, len(table)
    for batch in table.batches():
        columns = [batch[name] for name in table.schema]
        if missing:
            columns = [[missing if v is None else v for v in column] for column in columns]
        writer.writerows(zip(*columns))
        written += len(batch.places)
        shown(written, rows)
    return written
