"""Converts tables from and to DataFrames of pandas."""

from __future__ import annotations

from typing import TYPE_CHECKING, Any

from ._options import needed
from .errors import WrongKind
from .schema import Schema

if TYPE_CHECKING:
    from .table import Table


def schema_of_frame(frame: Any) -> Schema:
    """Returns the schema for a DataFrame; refuses columns that a table cannot hold."""
    if not hasattr(frame, "dtypes") or not hasattr(frame, "keys"):
        raise WrongKind(f"from_pandas takes a DataFrame of pandas, not {frame!r:.60}")
    return Schema([(name, _kind_of(name, frame[name])) for name in frame.keys()])


def _kind_of(name: Any, series: Any) -> type:
    there = series.dropna()
    kind = getattr(series.dtype, "kind", "O")
    if kind in "iub":
        return int
    if kind == "f":
        if ((there % 1) == 0).all():
            return int
        cents = f"(frame[{name!r}] * 100).round() makes whole numbers of hundredths"
        raise WrongKind(f"column {name} has decimals, but a table holds whole numbers: {cents}")
    if all(isinstance(value, str) for value in there):
        return str
    if all(isinstance(value, int) for value in there):
        return int
    said = f"column {name} is of {series.dtype}, but a table holds whole numbers and texts"
    raise WrongKind(f"{said}: frame[{name!r}].astype(str) makes texts")


def to_pandas(table: Table) -> Any:
    """Returns the live rows as a DataFrame of pandas, with their places as its index."""
    pandas, numpy = needed("pandas", "to_pandas"), needed("numpy", "to_pandas")
    series: dict[str, Any] = {}
    alive: Any = numpy.zeros(0, bool)
    with table._lock:
        for name in table.schema:
            values, valid, alive = table[name]._raw(0, table.places)
            valid, alive = (numpy.array(flags, dtype=bool) for flags in (valid, alive))
            missing = ~valid[alive]
            if table.schema[name] is int:
                numbers = values[alive]
                has_missing = missing.any()
                series[name] = (
                    pandas.arrays.IntegerArray(numbers, missing) if has_missing else numbers
                )
            else:
                texts = numpy.array(values, dtype=object)[alive]
                texts[missing] = None
                series[name] = texts
    return pandas.DataFrame(series, index=pandas.Index(numpy.flatnonzero(alive), name="place"))
