"""The edits of a table.

A table prepares the arguments of edits once: cells, pointers to them, and views of them as words of
64 bits. Setting an item of such a view takes a third of the time of setting a structure's field,
and raises for anything but a whole number of 64 bits. A text is passed by the address of its
encoded bytes. Other values, such as a missing cell, are handled after that exception. Taking the
lock and calling the library are then two thirds of the time of an edit.
"""

from __future__ import annotations

import threading
from ctypes import ArgumentError, byref, c_size_t, c_uint32
from itertools import islice
from operator import index as index_of
from typing import TYPE_CHECKING, Any, Callable, Iterable, Mapping, Sequence, Union

from . import _header as header
from . import _setting
from ._buffers import BYTES_AT, ColumnBuffer, cell_value, column_buffer
from ._handle import EMPTY_AT, Handle, leave
from ._pages import MANY
from .errors import BadArgument, Closed, NoRow, NoUtf8, Refused, RowWidth, TextTooLong, WrongKind
from .movement import Mover
from .policy import Helper, Policy
from .schema import Schema

Row = Union[Sequence[Any], Mapping[str, Any]]
Progress = Callable[[int, int], Any]

_ROWS_AT_ONCE = 1 << 16  # how many rows one call inserts; a multiple of 8, for the masks
_ROWS_OF_EXTEND = 10_000
_WORDS = 4  # the words of a cell: number, address of its text, length of its text, kind

# What `Editing.set` needs of a column: its index, the words of the cell (None for texts), a pointer
# to the cell, and whether a set may retract a row from its key.
_Plan = tuple[int, Any, Any, bool]

_encode = str.encode  # raises TypeError for anything but a str


def place_index(place: Any) -> int:
    """Returns a place as an int; refuses anything but a whole number."""
    try:
        return index_of(place)
    except TypeError:
        said = f"a place is a whole number, not {place!r:.60}"
        raise WrongKind(f"{said}: table[place], set(place, column, value)") from None


def _no_row(row: Any) -> WrongKind:
    return WrongKind(f"a row is a list, a tuple or a dict of cells, not {row!r:.60}")


def _length(row: Any) -> int:
    """Returns how many cells a row has; refuses anything but a row."""
    try:
        return len(row)
    except TypeError:
        raise _no_row(row) from None


def _cell(kind: int) -> tuple[Any, Any]:
    """Returns a new cell of a kind as words, and a pointer to it."""
    cell = header.Cell(0, b"", 0, kind)
    return memoryview(cell).cast("B").cast("q"), byref(cell)


class Editing:
    """The edits of a table: a part of `Table`."""

    schema: Schema
    policy: Policy | None
    _lock: threading.RLock
    _handle: Handle
    _mover: Mover
    _watched: list[Any]
    _answer: Any
    _retractions: int
    _places: int
    _live: int

    if TYPE_CHECKING:

        def _column(self, name: str) -> tuple[int, type]:
            ...

    def _prepare_edits(self) -> None:
        """Allocates the arguments that every edit reuses."""
        kinds = self.schema.codes()
        self._width = len(kinds)
        self._row = (header.Cell * self._width)()
        self._row_words = memoryview(self._row).cast("B").cast("q")
        self._row_plan = [(_WORDS * index, kind == header.TEXT) for index, kind in enumerate(kinds)]
        self._restore_row()
        self._number_words, self._number_at = _cell(header.INT)
        self._text_words, self._text_at = _cell(header.TEXT)
        _, self._missing_at = _cell(header.MISSING)
        self._place, self._size = c_uint32(), c_size_t()
        self._at = self._handle.at
        self._row_at, self._place_at = byref(self._row), byref(self._place)
        lib = self._handle.lib
        self._fc_insert, self._fc_set = lib.short("fc_insert"), lib.short("fc_set")
        self._fc_remove = lib.short("fc_remove")
        self._set_plan: dict[str, _Plan] = {}
        self._plan_sets()
        lock = self._lock
        self._for_set = lock.acquire, lock.release, self._set_plan, self._fc_set, self._at
        self._arrays = _setting.Arrays(self._handle)

    def _plan_sets(self) -> None:
        """Plans the sets of each column.

        A set may retract a row if an aggregate has the column as its key or in a test.
        """
        deciding = {name for watched in self._watched for name in watched.spec.deciding()}
        number, text = (self._number_words, self._number_at), (None, self._text_at)
        for index, (name, kind) in enumerate(self.schema.pairs()):
            cell = text if kind is str else number
            self._set_plan[name] = (index, *cell, name in deciding)

    def _forget_answers(self) -> None:
        """Notes that an edit may have changed each answer, and retracted rows from their keys."""
        self._answer = None
        self._retractions += 1

    # One row

    def append(self, row: Any) -> int:
        """Appends a row, given as a sequence or by names, and returns its place.

        A number may have any class with a whole value: 5, ``numpy.int64(5)``, 5.0; True is 1.
        None, `NA`, NaN and pandas' NA are missing cells. All calls that take cells take these.

        >>> table.append(("bread", 5)), table.append({"sku": "rye", "quantity": None})
        (0, 1)
        """
        if row.__class__ is not tuple and row.__class__ is not list and isinstance(row, Mapping):
            row = self._in_order(row)
        with self._lock:
            try:
                if len(row) != self._width:
                    raise self._wrong_width(row)
            except TypeError:
                raise _no_row(row) from None
            words: Any = self._row_words
            texts: list[bytes] = []
            try:
                for value, (at, is_text) in zip(row, self._row_plan):
                    if is_text:
                        text = _encode(value)
                        texts.append(text)
                        words[at + 1] = id(text) + BYTES_AT
                        words[at + 2] = len(text)
                    else:
                        words[at] = value
            except (TypeError, ValueError):
                return self._append_with_missing(row)
            return self._insert_filled(texts)

    def _wrong_width(self, row: Sequence[Any]) -> Refused:
        if not self._handle.is_open:
            return Closed()
        return RowWidth(f"the row has {len(row)} cells, but the table has {self._width} columns")

    def _append_with_missing(self, row: Sequence[Any]) -> int:
        """Appends a row with missing cells; refuses a row with a value that does not fit."""
        if not self._handle.is_open:
            raise Closed()
        words: Any = self._row_words
        texts: list[bytes] = []
        try:
            for value, (at, is_text), name in zip(row, self._row_plan, self.schema):
                cell = cell_value(name, str if is_text else int, value)
                if cell is None:
                    words[at + 1], words[at + 2], words[at + 3] = EMPTY_AT, 0, header.MISSING
                elif is_text:
                    texts.append(_encode(cell))
                    words[at + 1], words[at + 2] = id(texts[-1]) + BYTES_AT, len(texts[-1])
                else:
                    words[at] = cell
            return self._insert_filled(texts)
        finally:
            self._restore_row()

    def _restore_row(self) -> None:
        """Resets the cells of a row: empty, with the kinds of the columns."""
        for at, is_text in self._row_plan:
            kind = header.TEXT if is_text else header.INT
            words = self._row_words
            words[at], words[at + 1], words[at + 2], words[at + 3] = 0, EMPTY_AT, 0, kind

    def _insert_filled(self, texts: list[bytes]) -> int:
        """Inserts the row that was filled in, with these texts, and returns its place."""
        self._answer = None
        code = self._fc_insert(self._at, self._row_at, self._width, self._place_at)
        if code:
            arguments = self._at, self._row_at, self._width, self._place_at
            self._go_on_editing(code, self._fc_insert, *arguments)
        place = self._place.value
        if place == MANY:
            self._handle.use_large_pages()
        self._places = place + 1
        self._live += 1
        return place

    def _in_order(self, row: Mapping[str, Any]) -> list[Any]:
        """Returns the cells of a row given by names, in the order of the columns."""
        for name in row:
            self.schema.index(name)
        absent = [name for name in self.schema if name not in row]
        if absent:
            raise RowWidth(f"the row lacks {', '.join(absent)}; give None for a missing cell")
        return [row[name] for name in self.schema]

    def set(self, place: int, column: str, value: Any) -> None:
        """Sets a cell; None makes it missing. A negative place counts from the end.

        >>> place = table.append(("bread", 5))
        >>> table.set(place, "quantity", 7)
        >>> table[place]
        Row(sku='bread', quantity=7)
        """
        acquire, release, plan, fc_set, at = self._for_set
        try:
            acquire()
            if not 0 <= place < self._places:
                place = self._place_of(place)
            try:
                index, words, cell, may_retract = plan[column]
                if value is None:
                    cell, may_retract = self._missing_at, True
                elif words is not None:
                    words[0] = value
                else:
                    text = _encode(value)
                    words = self._text_words
                    words[1] = id(text) + BYTES_AT
                    words[2] = len(text)
                self._answer = None
                if may_retract:
                    self._retractions += 1
                code = fc_set(at, index, place, cell)
            except (KeyError, TypeError, ValueError, ArgumentError):
                index, place, cell = self._odd_cell(place, column, value)
                self._forget_answers()
                code = fc_set(at, index, place, cell)
            if code:
                self._go_on_editing(code, fc_set, at, index, place, cell)
        except BaseException as error:
            leave(self._lock)
            if error.__class__ is TypeError:
                place_index(place)
            raise
        release()

    def _odd_cell(self, place: int, column: str, value: Any) -> tuple[int, int, Any]:
        """Converts unusual arguments to an index, a place and a cell, or refuses them."""
        if not self._handle.is_open:
            raise Closed()
        place, index, kind = place_index(place), self.schema.index(column), self.schema[column]
        value = cell_value(column, kind, value)
        if value is None:
            return index, place, self._missing_at
        number, text = (value, b"") if kind is int else (0, _encode(value))
        cell = header.Cell(number, text, len(text), self.schema.codes()[index])
        return index, place, byref(cell)

    def set_column(self, column: str, places: Any, values: Any = ...) -> None:
        """Sets cells of a column at many places: the values in order, or one value for all.

        Places are a list, an ``array``, a slice, an array of numpy or pandas, or a mask with a flag
        for each place; a negative one counts from the end. Values come in all forms that
        `extend_columns` takes. A dict or a Series of pandas gives both: ``{place: value}``.

        Nothing is set if a value does not fit the column, or a place does not exist. If a cell is
        refused for another reason (its row was removed, say), the cells before it stay set, and
        the exception's ``cells_set`` counts them. If much is away, sorted places are fastest.

        >>> table.extend([("bread", 5), ("rye", 3), ("oat", 1)])
        range(0, 3)
        >>> table.set_column("quantity", [0, 2], [7, None])
        >>> table.set_column("sku", {1: "RYE", -1: "OAT"})
        >>> list(table)
        [Row(sku='bread', quantity=7), Row(sku='RYE', quantity=3), Row(sku='OAT', quantity=None)]
        """
        if values is ...:
            places, values = _setting.as_pairs(places)
        with self._lock:
            (index, kind), code, done = self._column(column), 0, 0
            if _setting.are_plain(kind, places, values, self._places):
                self._answer = None
                self._retractions += self._set_plan[column][-1]
                code, done = self._arrays.set(index, places, values)
                if not code:
                    return
            try:
                _setting.Cells(self, column, places, values).set(code, done)
            finally:
                self._forget_answers()

    def remove(self, place: int) -> None:
        """Removes a row. Its place is never reused. ``del table[place]`` does the same.

        >>> table.extend([("bread", 5), ("rye", 3)])
        range(0, 2)
        >>> table.remove(0)
        >>> len(table), table.places, table.append(("oat", 1))
        (1, 2, 2)
        """
        with self._lock:
            place = self._place_of(place)
            self._forget_answers()
            code = self._fc_remove(self._at, place)
            if code:
                self._go_on_editing(code, self._fc_remove, self._at, place)
            self._live -= 1

    def _place_of(self, place: int) -> int:
        """Returns an existing place, counted from 0."""
        if not self._handle.is_open:
            raise Closed()
        try:
            at = index_of(place)
        except TypeError:
            at = place_index(place)
        at += self._places if at < 0 else 0
        if not 0 <= at < self._places:
            raise NoRow(place=place, places=self._places)
        return at

    def _go_on(self, code: int, call: Callable[..., int], *arguments: Any) -> None:
        """Retries a refused call as long as the policy can help; else raises its refusal."""
        with Helper(self._mover, self.policy) as helper:
            code = helper.until_done(call, *arguments, code=code)
        if code:
            raise self._handle.refusal(code, **self._about(code, call, arguments))

    def _go_on_editing(self, code: int, call: Callable[..., int], *arguments: Any) -> None:
        """Retries a refused edit. An engine that the policy calls may ask for answers meanwhile."""
        try:
            self._go_on(code, call, *arguments)
        finally:
            self._forget_answers()

    def _about(self, code: int, call: Any, arguments: Any) -> dict[str, Any]:
        """Returns the place that a refused edit is about, or the column of a text too long."""
        names = self.schema.names
        if code == TextTooLong.number and call is self._fc_set:
            return {"column": names[arguments[1]]}
        if code == TextTooLong.number:
            lengths = [self._row_words[at + 2] if is_text else 0 for at, is_text in self._row_plan]
            return {"column": names[lengths.index(max(lengths))]}
        if call is self._fc_set or call is self._fc_remove:
            return {"place": arguments[-2 if call is self._fc_set else -1]}
        return {}

    # Many rows

    def extend(self, rows: Iterable[Row], progress: Progress | None = None) -> range:
        """Appends rows, and returns their places. Reads and inserts the rows in batches.

        If one is refused, the rows before it stay, and the exception's ``inserted`` counts them.
        If ``rows`` itself raises, the rows before that stay too. If ``rows`` appends to this table
        while it is read, those rows get earlier places than the rows that it yields.

        >>> table.extend([("bread", 5), ("rye", 3)])
        range(0, 2)
        """
        if hasattr(rows, "keys"):
            raise BadArgument("extend takes rows; extend_columns takes a dict or a DataFrame")
        first, rows = self._places, iter(rows)
        while True:
            some: list[Row] = []
            try:
                some.extend(islice(rows, _ROWS_OF_EXTEND))  # keeps the rows before an exception
            finally:
                self._extend_some(some, first)
            if not some:
                return range(first, self._places)
            if progress is not None:
                progress(self._places - first, 0)

    def _extend_some(self, some: list[Row], first: int) -> None:
        """Appends rows until one is refused; the refusal counts the rows from ``first`` on."""
        rows: list[Sequence[Any]] = []
        wrong: Refused | None = None
        try:
            for row in some:
                cells = self._in_order(row) if isinstance(row, Mapping) else row
                if _length(cells) != self._width:
                    raise self._wrong_width(cells)
                rows.append(cells)
        except Refused as error:
            wrong = error
        try:
            self._extend_rows(rows)
        except Refused as error:
            wrong = error
        if wrong is not None:
            wrong.details["inserted"] = self._places - first
            raise wrong

    def _extend_rows(self, rows: list[Sequence[Any]]) -> None:
        """Appends rows of the table's width until one does not fit."""
        columns = zip(*rows) if rows else [()] * self._width
        try:
            self.extend_columns(dict(zip(self.schema, columns)))
        except (WrongKind, NoUtf8) as error:
            fitting, wrong = error.details.pop("row", 0), error
        else:
            return
        if fitting:
            self._extend_rows(rows[:fitting])
        raise wrong

    def extend_columns(
        self, columns: Any = None, /, *, progress: Progress | None = None, **named: Any
    ) -> range:
        """Appends rows given column by column, and returns their places.

        Each column is a list, an ``array``, a buffer of 64-bit numbers, or an array of numpy or
        pandas; pass the columns as keyword arguments, a dict or a DataFrame. Missing cells are
        None in lists, masked cells of numpy, and NaN, None or NA of pandas. Buffers of 64-bit
        numbers are not copied.

        Nothing is inserted if a value does not fit its column. If a row is refused for another
        reason (its text is too long, say), the rows before it stay, and the exception's
        ``inserted`` counts them. ``progress`` is called with the rows inserted so far and all rows.

        >>> table.extend_columns(sku=["bread", "rye", None], quantity=[5, None, 2])
        range(0, 3)
        """
        if not self._handle.is_open:
            raise Closed()
        buffers = self._column_buffers(columns, named)
        rows = buffers[0].length
        with self._lock:
            first = self._places
            if first + rows >= MANY:
                self._handle.use_large_pages()
            for start in range(0, rows, _ROWS_AT_ONCE):
                stop = min(start + _ROWS_AT_ONCE, rows)
                self._insert_part(buffers, start, stop, first)
                if progress is not None:
                    progress(stop, rows)
            return range(first, self._places)

    def _column_buffers(self, columns: Any, named: dict[str, Any]) -> list[ColumnBuffer]:
        given = {} if columns is None else {name: columns[name] for name in columns.keys()}
        given |= named
        for name in given:
            self.schema.index(name)
        absent = [name for name in self.schema if name not in given]
        if absent:
            raise BadArgument(f"no values are given for {', '.join(absent)}")
        kinds = zip(self.schema.names, self.schema.kinds)
        buffers = [column_buffer(name, kind, given[name]) for name, kind in kinds]
        lengths = {name: buffer.length for name, buffer in zip(self.schema, buffers)}
        if len(set(lengths.values())) > 1:
            said = ", ".join(f"{name} {length:,}" for name, length in lengths.items())
            raise BadArgument(f"the columns have different lengths: {said}")
        return buffers

    def _insert_part(self, buffers: list[ColumnBuffer], start: int, stop: int, first: int) -> None:
        structs = (header.ColumnStruct * self._width)()
        call, at, inserted = self._handle.lib.fc_insert_columns, self._at, byref(self._size)
        try:
            with Helper(self._mover, self.policy) as helper:
                while start < stop:
                    kept = [buffer.fill(s, start, stop) for buffer, s in zip(buffers, structs)]
                    self._size.value = 0
                    code = call(at, structs, self._width, stop - start, inserted)
                    del kept
                    start += self._size.value
                    if code and not helper.has_helped(code):
                        raise self._handle.refusal(code, **self._long_text(code, buffers, start))
        except Refused as error:
            self._match_places()
            error.details["inserted"] = self._places - first
            raise
        finally:
            self._match_places()

    def _long_text(self, code: int, buffers: list[ColumnBuffer], row: int) -> dict[str, Any]:
        """Returns the column whose text in this row was refused as too long."""
        if code != TextTooLong.number:
            return {}
        cells = [(name, buffer.value(row)) for name, buffer in zip(self.schema, buffers)]
        lengths = {name: len(cell.encode()) for name, cell in cells if isinstance(cell, str)}
        return {"column": max(lengths, key=lambda name: lengths[name])}

    def _match_places(self) -> None:
        """Reads the number of places again after an insert of many rows, also a refused one."""
        if self._handle.is_open:
            places = self._handle.places()
            self._live += places - self._places
            self._places = places
            self._answer = None
