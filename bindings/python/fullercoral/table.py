"""The table."""

from __future__ import annotations

import os
import threading
from ctypes import byref, c_bool
from types import TracebackType
from typing import Any, Iterator, NoReturn, Sequence, SupportsIndex, Union, overload

from . import _header as header
from . import display
from ._csv_write import write_csv
from ._editing import Editing, Progress
from ._frames import schema_of_frame, to_pandas
from ._handle import EMPTY_AT, Handle
from ._lent import lent_text
from ._moving import Moving
from ._reading import Reader
from ._rows import row_class
from .aggregates import Key, Spec, Watched, spec_struct
from .column import Batch, Column, Value, read_batch
from .csv_files import csv_options, load_csv
from .engines import Engine, Memory, close_engine, release, take
from .errors import Absent, BadArgument, Closed, NoAggregate, NoColumn, RemovedRow, WrongKind
from .limits import Limits
from .movement import Mover
from .policy import Policy, build
from .progress import Shown
from .schema import Schema, SchemaLike

_BATCH = 8192


class Table(Editing, Moving):
    """A table whose aggregates stay exact under edits, and whose rows may exceed local memory.

    >>> import fullercoral as fc
    >>> with fc.Table({"sku": str, "quantity": int}, local="1MB") as table:
    ...     sold = table.watch(fc.totals("quantity", by="sku"))
    ...     places = table.extend([("bread", 5), ("rye", 3), ("bread", 2)])
    ...     gone = table.evict()
    ...     table.set(1, "quantity", 9)
    ...     sold.items()
    [('bread', Total(count=2, sum=7)), ('rye', Total(count=1, sum=9))]

    - ``columns``: names and kinds, ``int`` (64 bits, signed) or ``str``.
    - ``local``: the memory for its cells, as ``"64MB"``. ``group``: the rows of a row group.
      ``limits`` sets each limit by itself instead.
    - ``far``: the engine that keeps what is away, `Memory` by default. The table closes it in the
      end. An engine has one table at a time.
    - ``policy``: moves objects when calls need it; with None only your own calls move them.
    - ``contents``: how many contents may be put before the table renews their numbers.

    Rows have places 0, 1, 2, .. in the order of insertion; a removed row's place is never reused.
    A row is a named tuple; ``row._asdict()`` has names that are not identifiers, as "Order ID".
    Several threads may use a table: each call holds its lock.
    """

    def __init__(
        self,
        columns: SchemaLike,
        local: Union[int, str] = "64MB",
        far: Engine | None = None,
        *,
        group: int | None = None,
        limits: Limits | None = None,
        policy: Policy | None = Policy(),
        contents: int = 1 << 32,
    ) -> None:
        self.schema = Schema(columns)
        self.limits = limits or Limits.for_local(self.schema, local, group)
        self.policy = policy
        engine = take(Memory() if far is None else far)
        self._lock = threading.RLock()
        try:
            self._handle = Handle(self.schema, self.limits, contents)
        except BaseException:
            release(engine)
            raise
        self._mover = Mover(self._handle, engine, contents)
        self._watched: list[Watched[Any]] = []
        self._answer: Watched[Any] | None = None  # whose current answer the handle holds
        self._retractions = 0  # edits that may have retracted a row from its key in an answer
        self._places = 0
        self._live = 0
        self._kind_of = {name: (at, kind) for at, (name, kind) in enumerate(self.schema.pairs())}
        self._Row: Any = row_class(self.schema.names)
        self._prepare_edits()
        self._prepare_rows()

    def _prepare_rows(self) -> None:
        """Allocates what every read of a row reuses."""
        no_cell = bytes(8) + bytes(header.Bytes(EMPTY_AT, 0)) + bytes(8)
        self._no_lent = no_cell * self._width
        lent = (header.Cell * self._width).from_buffer_copy(self._no_lent)
        self._lent_at = byref(lent)
        self._lent_bytes = memoryview(lent).cast("B")
        self._lent_words = self._lent_bytes.cast("q")
        self._lent_texts = [lent_text(cell, header.Cell.text_at.offset) for cell in lent]
        self._alive = c_bool()
        self._alive_at = byref(self._alive)
        lib = self._handle.lib
        self._fc_row, self._fc_is_alive = lib.short("fc_row"), lib.short("fc_is_alive")

    # Its end

    def close(self) -> None:
        """Frees the table's memory and closes its engine. Closing twice does nothing."""
        with self._lock:
            if self._handle.is_open:
                self._handle.close()
                self._kind_of.clear()
                self._watched.clear()
                release(self._mover.engine)
                close_engine(self._mover.engine)

    @property
    def closed(self) -> bool:
        """Whether the table is closed."""
        return not self._handle.is_open

    def __enter__(self) -> Table:
        if self.closed:
            raise Closed()
        return self

    def __exit__(
        self,
        kind: type[BaseException] | None,
        error: BaseException | None,
        trace: TracebackType | None,
    ) -> None:
        self.close()

    def __del__(self) -> None:
        handle = getattr(self, "_mover", None) and self._handle
        if handle and handle.is_open:
            try:
                self.close()
            except Exception:
                pass  # nobody is left to be told that the engine cannot be closed

    def __reduce_ex__(self, protocol: SupportsIndex) -> NoReturn:
        """Refuses a copy, which would close the table that it shares, and a pickle."""
        raise TypeError("a table cannot be copied or pickled; use to_csv or to_pandas")

    # Rows

    def __len__(self) -> int:
        """The number of live rows."""
        self._open_handle()
        return self._live

    @property
    def places(self) -> int:
        """The number of places, with those of removed rows."""
        self._open_handle()
        return self._places

    def _column(self, name: str) -> tuple[int, type]:
        """Returns the index and the kind of a column; refuses an unknown name."""
        try:
            return self._kind_of[name]
        except (KeyError, TypeError):
            self._open_handle()  # a closed table raises Closed, not NoColumn
            raise NoColumn(column=name, columns=self.schema.names) from None

    @property
    def columns(self) -> tuple[str, ...]:
        """The names of the columns."""
        return self.schema.names

    @property
    def dtypes(self) -> dict[str, type]:
        """The kinds of the columns, ``int`` or ``str``, by their names."""
        return dict(self.schema.pairs())

    @property
    def shape(self) -> tuple[int, int]:
        """The number of live rows, and the number of columns."""
        return len(self), len(self.schema)

    @overload
    def __getitem__(self, key: str) -> Column:
        ...

    @overload
    def __getitem__(self, key: int) -> Any:
        ...

    @overload
    def __getitem__(self, key: slice) -> list[Any]:
        ...

    def __getitem__(self, key: Union[str, int, slice]) -> Any:
        """A column by its name, a row by its place (counted from the end if negative), or the live
        rows of a slice of places."""
        if isinstance(key, str):
            return Column(self, key)
        if isinstance(key, slice):
            start, stop, step = key.indices(self._places)
            if step != 1:
                raise BadArgument("a slice of rows has no step")
            batches = self.batches(start=start, stop=stop)
            return [row for batch in batches for row in self._of(batch)]
        return self._read_row(key)

    def _of(self, batch: Batch) -> Iterator[Any]:
        return map(self._Row._make, batch.rows())

    def _read_row(self, place: int) -> Any:
        with self._lock:
            place = self._place_of(place)
            self._lent_bytes[:] = self._no_lent
            arguments = self._at, place, self._lent_at, self._width
            code = self._fc_row(*arguments)
            if code:
                self._go_on(code, self._fc_row, *arguments)
                self._lent_bytes[:] = self._no_lent  # the loan ends with the next call
                self._handle.check(self._fc_row(*arguments))
            words: Any = self._lent_words
            row: list[Value] = []
            for at, text in enumerate(self._lent_texts):
                kind = words[4 * at + 3] & 0xFFFFFFFF
                if kind == header.INT:
                    row.append(words[4 * at])
                else:
                    row.append(text() if kind == header.TEXT else None)
            if self._live < self._places:
                self._handle.check(self._fc_is_alive(self._at, place, self._alive_at))
                if not self._alive.value:
                    raise RemovedRow(place=place)
            return self._Row._make(row)

    def __setitem__(self, key: Any, value: Any) -> NoReturn:
        """Refuses an assignment to a column or a row, and names the call that makes it."""
        if isinstance(key, str):
            self._column(key)
            raise TypeError(f"set cells of a column: table[{key!r}][:] = values, or set_column")
        raise TypeError("set cells of a row one by one: table.set(place, column, value)")

    def __delitem__(self, place: int) -> None:
        self.remove(place)

    def is_alive(self, place: int) -> bool:
        """Whether the place has a row that was not removed."""
        with self._lock:
            return self._handle.is_alive(self._place_of(place))

    def _reader(self) -> Reader:
        self._open_handle()
        return Reader(self._mover, self.policy)

    def batches(
        self,
        size: int = _BATCH,
        columns: Sequence[str] | None = None,
        start: int = 0,
        stop: int | None = None,
    ) -> Iterator[Batch]:
        """Yields the live rows in batches of up to ``size`` places, in their order.

        >>> table.extend([("bread", 5), ("rye", 3)])
        range(0, 2)
        >>> for batch in table.batches():
        ...     batch.places, batch["sku"], sum(batch["quantity"])
        ([0, 1], ['bread', 'rye'], 8)
        """
        if size < 1:
            raise BadArgument(f"a batch has at least 1 place, and size is {size}")
        names = list(self.schema.names if columns is None else columns)
        for at in range(start, self._places if stop is None else stop, size):
            end = min(at + size, self._places if stop is None else stop)
            batch = read_batch(self, names, at, end)
            if batch.places:
                yield batch

    def __iter__(self) -> Iterator[Any]:
        """Yields the live rows as named tuples, in the order of their places."""
        for batch in self.batches():
            yield from self._of(batch)

    def __contains__(self, item: object) -> bool:
        """Whether there is a column of this name, or a live row with these cells."""
        if isinstance(item, str):
            self._open_handle()
            return item in self.schema
        return any(row == item for row in self)

    def head(self, rows: int = 5) -> list[Any]:
        """Returns the first live rows.

        >>> table.extend([("bread", 5), ("rye", 3)])
        range(0, 2)
        >>> table.head(1), table.tail(1)
        ([Row(sku='bread', quantity=5)], [Row(sku='rye', quantity=3)])
        """
        return [row for _, row in display.first_rows(self, rows)]

    def tail(self, rows: int = 5) -> list[Any]:
        """Returns the last live rows."""
        return [row for _, row in display.last_rows(self, rows)]

    @classmethod
    def from_pandas(cls, frame: Any, **options: Any) -> Table:
        """Makes a table from a DataFrame of pandas, without its index; options are as for `Table`.

        Columns of whole numbers, of flags, and of floats with whole values become ``int``; columns
        of texts become ``str``. Others are refused; the error says how to convert them.
        """
        made = cls(schema_of_frame(frame), **options)
        try:
            made.extend_columns(frame)
        except BaseException:
            made.close()
            raise
        return made

    def to_pandas(self) -> Any:
        """Returns the live rows as a DataFrame of pandas, with their places as its index.

        Columns of numbers are of type ``int64``, or ``Int64`` if a cell is missing.
        """
        return to_pandas(self)

    # Aggregates

    def watch(self, spec: Spec) -> Watched[Any]:
        """Registers an aggregate (`totals` or `extrema`), which every later edit updates.

        The first question, or `build`, counts the rows that the table has already.

        >>> table.extend([("bread", 5), ("rye", 3)])
        range(0, 2)
        >>> best = table.watch(extrema("quantity", by="sku", where=[("sku", "^=", "br")]))
        >>> best.items()
        [('bread', MinMax(min=5, max=5))]
        """
        with self._lock:
            handle = self._open_handle()
            if not isinstance(spec, Spec):
                said = "watch takes fc.totals(..) or fc.extrema(..)"
                raise WrongKind(f"{said}, not {spec!r:.60}")
            struct, kept = spec_struct(self.schema, spec)
            number = handle.watch(struct)
            del kept
            watched: Watched[Any] = Watched(self, spec, number)
            self._add_watched(watched)
            return watched

    def _add_watched(self, watched: Watched[Any]) -> None:
        self._watched.append(watched)
        self._plan_sets()

    def unwatch(self, watched: Watched[Any]) -> None:
        """Forgets an aggregate; a later one may get its number.

        >>> sold = table.watch(totals("quantity"))
        >>> table.unwatch(sold)
        >>> sold.value
        Traceback (most recent call last):
            ...
        fullercoral.errors.NoAggregate: there is no such aggregate (any more) [12]
        """
        with self._lock:
            self._check_watched(watched)
            self._open_handle().step("unwatch", watched.number)
            watched._number = -1
            self._watched.remove(watched)
            self._plan_sets()
            self._answer = None

    def _check_watched(self, watched: Any) -> None:
        """Refuses anything but an aggregate of this table."""
        if not isinstance(watched, Watched):
            raise WrongKind(f"give the aggregate that watch returned, not {watched!r:.60}")
        if watched.table is not self:
            raise NoAggregate("this aggregate belongs to another table")

    @property
    def watched(self) -> tuple[Watched[Any], ...]:
        """The aggregates of the table."""
        return tuple(self._watched)

    def recount(self, watched: Watched[Any]) -> dict[Key, Any]:
        """Computes an aggregate from all rows, and returns it as a dict from keys to lines.

        The only key of an aggregate without a key column is None. If columns are away, the policy
        builds a second aggregate, row group by row group.

        >>> sold = table.watch(totals("quantity", by="sku"))
        >>> table.extend([("bread", 5), ("rye", 3)])
        range(0, 2)
        >>> table.recount(sold) == sold.to_dict()
        True
        """
        with self._lock:
            self._check_watched(watched)
            handle, number = self._open_handle(), watched.number
            self._answer = None
            absent = self._mover.absent_of(watched.spec.columns())
            if absent is None:
                handle.check(handle.lib.fc_recount(handle.at, number, watched._size_at))
                return dict(watched._lines.first(watched._size.value))
            if self.policy is None:
                raise Absent(column=absent[0], group=absent[1])
            second = self.watch(watched.spec)
            try:
                build(self._mover, self.policy, second.number)
                return second.to_dict()
            finally:
                self.unwatch(second)

    # CSV

    def load_csv(
        self,
        path: Union[str, os.PathLike[str], Any],
        *,
        progress: Union[bool, Progress] = False,
        **options: Any,
    ) -> range:
        """Appends the rows of a CSV file, and returns their places; options are as for `read_csv`.

        The header's names must be those of the table, in any order.

        >>> import io
        >>> table.load_csv(io.StringIO("quantity,sku\\n5,bread\\n,rye\\n"))
        range(0, 2)
        >>> list(table)
        [Row(sku='bread', quantity=5), Row(sku='rye', quantity=None)]
        """
        with Shown(progress, str(path)) as shown:
            return load_csv(self, path, csv_options("load_csv", options), shown)

    def to_csv(
        self,
        path: Union[str, os.PathLike[str], Any],
        *,
        delimiter: str = ",",
        header: bool = True,
        missing: str = "",
        progress: Union[bool, Progress] = False,
    ) -> int:
        """Writes the live rows as CSV, and returns how many they are.

        ``missing`` is the field written for a missing cell. By default it is empty, as for an empty
        text; with ``missing="\\\\N"`` here and in `read_csv` each cell is read back unchanged.

        >>> import sys
        >>> place = table.append(("bread", None))
        >>> table.to_csv(sys.stdout, missing="NA")
        sku,quantity
        bread,NA
        1
        """
        with Shown(progress, str(path), " rows") as shown:
            return write_csv(self, path, delimiter, header, missing, shown)

    # Display

    def plot(self, path: Union[str, os.PathLike[str]], width: int = 720) -> None:
        """Writes the map of row groups by columns as an SVG file."""
        with open(path, "w", encoding="utf-8") as file:
            file.write(self.map().svg(width))

    def __repr__(self) -> str:
        return display.as_text(self)

    def _repr_html_(self) -> str:
        return display.as_html(self)
