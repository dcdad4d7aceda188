"""A column of a table, and batches of rows."""

from __future__ import annotations

from itertools import compress, groupby
from typing import TYPE_CHECKING, Any, Iterator, Mapping, NoReturn, Union, overload

from ._options import needed
from ._places import place_buffer
from ._reading import _numpy
from .errors import RemovedRow

if TYPE_CHECKING:
    from .table import Table

Value = Union[int, str, None]

_FOLDS = {"count": "totals", "sum": "totals", "mean": "totals", "min": "extrema", "max": "extrema"}


class Column:
    """A column of a table, read by places.

    ``column[place]`` is a value, None if it is missing. ``column[0:1000]`` is a masked array of
    numpy for numbers, and a list for texts or if numpy is not installed. Missing cells and cells
    of removed rows are masked, or None in a list.

    >>> table.extend([("bread", 5), ("rye", None), ("oat", 1)])
    range(0, 3)
    >>> table["sku"][1:], table["quantity"][0], table["quantity"].to_list(), table["sku"][[2, 0]]
    (['rye', 'oat'], 5, [5, None, 1], ['oat', 'bread'])

    An assignment sets cells: ``column[place] = value``; ``column[places] = values``, or one value
    for all of them. Places to read or to set are a slice, a list, an array, or a mask, as for
    `Table.set_column`.

    >>> table["quantity"][1:] = [3, 2]
    >>> table["quantity"][[0, -1]] = 7
    >>> table["quantity"].to_list()
    [7, 3, 7]
    """

    def __init__(self, table: Table, name: str) -> None:
        self.table = table
        self.name = name
        self.index, self.kind = table._column(name)

    if not TYPE_CHECKING:  # types know the attributes that there are

        def __getattr__(self, name: str) -> NoReturn:
            """Names the aggregate that has a column's sum, say."""
            fold = _FOLDS.get(name)
            asked = f": ask table.watch(fc.{fold}({self.name!r})).{name}" if fold else ""
            raise AttributeError(f"a column has no {name}{asked}")

    def __len__(self) -> int:
        """The number of places, with those of removed rows."""
        return self.table.places

    @overload
    def __getitem__(self, place: int) -> Value:
        ...

    @overload
    def __getitem__(self, place: Any) -> Any:
        ...

    def __getitem__(self, place: Any) -> Any:
        """The value of a place, or the values of a slice, a list, an array or a mask of places."""
        if place.__class__ is int:
            return self._at(place)
        if not isinstance(place, slice):
            many = hasattr(place, "__len__") and not isinstance(place, str)
            return self._some(place) if many else self._at(place)
        start, stop, step = place.indices(self.table.places)
        if step < 0:
            start, stop = stop + 1, start + 1
        part = self._part(start, max(start, stop))
        return part if step == 1 else part[::step]

    def __setitem__(self, place: Any, value: Any) -> None:
        """Sets the cell of a place, or many: values in order, or one value for all of them."""
        if hasattr(place, "__index__") and not hasattr(place, "__len__"):
            self.table.set(place.__index__(), self.name, value)
        else:
            self.table.set_column(self.name, place, value)

    def _at(self, place: int) -> Value:
        table = self.table
        with table._lock:
            place = table._place_of(place)
            if not table._handle.is_alive(place):
                raise RemovedRow(place=place)
            return table._reader().value(self.index, place)

    def _some(self, places: Any) -> Any:
        """Returns the values of places in the order given; reads each row group at most once."""
        table, found = self.table, dict[int, Value]()
        with table._lock:
            wanted = memoryview(place_buffer(places, table.places)).tolist()
            size = table.limits.group
            for _, part in groupby(sorted(set(wanted)), lambda place: place // size):
                some = list(part)
                start = some[0]
                values, valid, alive = self._raw(start, some[-1] + 1)
                for place in some:
                    has = valid[place - start] and alive[place - start]
                    found[place] = values[place - start] if has else None
        numpy, listed = _numpy(), [found[place] for place in wanted]
        if self.kind is str or numpy is None:
            return listed
        numbers = numpy.array([value or 0 for value in listed], "int64")
        return numpy.ma.array(numbers, mask=[value is None for value in listed])

    def _part(self, start: int, stop: int) -> Any:
        values, valid, alive = self._raw(start, stop)
        numpy = _numpy()
        if self.kind is int and numpy is not None:
            valid &= alive
            return numpy.ma.array(values, mask=numpy.logical_not(valid, out=valid))
        return [v if has and lives else None for v, has, lives in zip(values, valid, alive)]

    def _raw(self, start: int, stop: int) -> tuple[Any, Any, Any]:
        with self.table._lock:
            reader = self.table._reader()
            read = reader.numbers if self.kind is int else reader.texts
            return read(self.index, start, stop)

    def to_numpy(self) -> Any:
        """Returns the whole column as a masked array of numpy, of ``object`` for texts."""
        numpy = needed("numpy", "to_numpy")
        part = self[:]
        if self.kind is int:
            return part
        missing = numpy.fromiter((value is None for value in part), bool, len(part))
        array: Any = numpy.ma.array
        return array(numpy.array(part, dtype=object), mask=missing)

    def to_list(self) -> list[Value]:
        """Returns the whole column as a list, with None for missing cells and removed rows."""
        part = self[:]
        values: list[Value] = part if isinstance(part, list) else part.tolist()
        return values

    def __iter__(self) -> Iterator[Value]:
        """Yields the values of all live rows, in the order of their places."""
        for batch in self.table.batches(columns=[self.name]):
            yield from batch[self.name]

    def __repr__(self) -> str:
        places = "of a closed table" if self.table.closed else f"{len(self):,} places"
        return f"<column {self.name!r} of {self.kind.__name__}, {places}>"


class Batch(Mapping[str, Any]):
    """Live rows of a range of places: ``batch["quantity"]`` is a column, ``batch.places`` places.

    Columns are lists with None for missing cells. ``len(batch)`` counts the columns, as for a dict.
    """

    def __init__(self, places: list[int], columns: dict[str, list[Value]]) -> None:
        self.places = places
        self._columns = columns

    def __getitem__(self, name: str) -> list[Value]:
        """The values of a column, by its name."""
        return self._columns[name]

    def __iter__(self) -> Iterator[str]:
        """The names of the columns."""
        return iter(self._columns)

    def __len__(self) -> int:
        """The number of columns."""
        return len(self._columns)

    def rows(self) -> Iterator[tuple[Value, ...]]:
        """Yields the rows as tuples."""
        return zip(*self._columns.values())

    def __repr__(self) -> str:
        return f"<batch of {len(self.places):,} rows of {', '.join(self._columns)}>"


def read_batch(table: Table, names: list[str], start: int, stop: int) -> Batch:
    """Reads the live rows of a range of places."""
    columns: dict[str, list[Value]] = {}
    alive: Any = b""
    with table._lock:
        for name in names:
            column = Column(table, name)
            values, valid, alive = column._raw(start, stop)
            values, valid, alive = (_plain(part) for part in (values, valid, alive))
            if not all(valid):
                values = [value if has else None for value, has in zip(values, valid)]
            columns[name] = list(compress(values, alive))
    return Batch(list(compress(range(start, stop), alive)), columns)


def _plain(part: Any) -> Any:
    return part.tolist() if hasattr(part, "tolist") else part
