"""Aggregates: specifications, and live answers."""

from __future__ import annotations

import ctypes
from ctypes import byref
from dataclasses import dataclass
from typing import TYPE_CHECKING, Any, Generic, Iterator, NamedTuple, Sequence, TypeVar, Union

from . import _header as header
from ._asking import Slots
from ._buffers import cell_value
from ._handle import leave
from ._lines import KeptLines, LineReader
from ._options import needed
from .errors import BadArgument, BadSpec, NoAggregate, Nothing, WrongKind
from .schema import Schema

if TYPE_CHECKING:
    from .table import Table

_NOTHING = Nothing.number
_new = tuple.__new__  # what a named tuple's own ``_make`` calls

Key = Union[int, str]
Test = tuple[str, str, Key]

_NUMBER_OPS = {"==": 0, "=": 0, "!=": 1, "<": 2, "<=": 3, ">": 4, ">=": 5}
_TEXT_OPS = {"==": 6, "=": 6, "^=": 7, "begins": 7}
_MOST_TESTS = 4


class Total(NamedTuple):
    """A count of values and their exact sum."""

    count: int  # type: ignore[assignment]
    sum: int

    @property
    def mean(self) -> float | None:
        """The sum divided by the count; None if there are no values."""
        return self.sum / self.count if self.count else None


class MinMax(NamedTuple):
    """The least and the greatest value."""

    min: int
    max: int


@dataclass(frozen=True)
class Spec:
    """The specification of an aggregate, made by `totals` or `extrema`."""

    fold: str
    value: str
    by: str | None = None
    where: tuple[Test, ...] = ()

    def columns(self) -> set[str]:
        """Returns the names of the columns that the aggregate reads."""
        return {self.value} | self.deciding()

    def deciding(self) -> set[str]:
        """Returns the names of the columns that decide whether a row counts, and under which key."""
        by = [] if self.by is None else [self.by]
        return {*by, *(column for column, _, _ in self.where)}

    def __repr__(self) -> str:
        by = f", by={self.by!r}" if self.by is not None else ""
        where = f", where={list(self.where)!r}" if self.where else ""
        return f"{self.fold}({self.value!r}{by}{where})"


def totals(value: str, by: str | None = None, where: Sequence[Test] = ()) -> Spec:
    """Counts and sums the values of a column, for each key of the column ``by`` if one is named.

    ``where`` has up to 4 tests that a row must pass: ``(column, op, constant)``. The op is one of
    ``== != < <= > >=`` for numbers; for texts it is ``==``, or ``^=`` for "begins with". A test of
    a missing cell is false. A row without a value or a key does not count.

    >>> totals("quantity", by="sku", where=[("quantity", ">", 0)])
    totals('quantity', by='sku', where=[('quantity', '>', 0)])
    """
    return _spec("totals", value, by, where)


def extrema(value: str, by: str | None = None, where: Sequence[Test] = ()) -> Spec:
    """Keeps the least and the greatest value of a column; the rest is as with `totals`.

    >>> extrema("price")
    extrema('price')
    """
    return _spec("extrema", value, by, where)


def _spec(fold: str, value: str, by: str | None, where: Sequence[Test]) -> Spec:
    if not isinstance(value, str):
        raise BadSpec(f"{fold} takes the name of one column, not {value!r}")
    if by is not None and not isinstance(by, str):
        raise BadSpec(f"by= takes the name of one column, not {by!r}")
    return Spec(fold, value, by, _tests(where))


def _tests(where: Sequence[Test]) -> tuple[Test, ...]:
    tests: list[Any] = [where] if isinstance(where, str) else list(where)
    if any(isinstance(test, str) for test in tests):
        raise BadSpec(f"where is a list of tests: where=[('amount', '>', 0)], not {where!r}")
    for test in tests:
        if len(test) != 3:
            raise BadSpec(f"a test is (column, op, constant), not {test!r}")
    if len(tests) > _MOST_TESTS:
        raise BadSpec()
    return tuple((column, op, constant) for column, op, constant in tests)


def spec_struct(schema: Schema, spec: Spec) -> tuple[header.SpecStruct, Any]:
    """Returns a spec as an ``fc_spec``, and the buffers that must stay alive for the call."""
    if schema[spec.value] is not int:
        raise WrongKind(f"{spec.fold} need a column of numbers, but {spec.value} holds texts")
    tests = (header.TestStruct * max(1, len(spec.where)))()
    for test, (column, op, constant) in zip(tests, spec.where):
        _fill_test(test, schema, column, op, constant)
    return (
        header.SpecStruct(
            ctypes.addressof(tests),
            len(spec.where),
            header.TOTALS if spec.fold == "totals" else header.EXTREMA,
            schema.index(spec.value),
            0 if spec.by is None else schema.index(spec.by),
            spec.by is not None,
        ),
        tests,
    )


def _fill_test(test: header.TestStruct, schema: Schema, column: str, op: str, value: Key) -> None:
    test.column = schema.index(column)
    kind = schema[column]
    ops = _NUMBER_OPS if kind is int else _TEXT_OPS
    if op not in ops:
        known = " ".join(name for name in ops if name not in ("=", "begins"))
        raise BadArgument(f"{op!r} cannot test column {column}: use one of {known}")
    test.op = ops[op]
    test.text_at, test.text_len = b"", 0
    constant = cell_value(column, kind, value)
    if constant is None:
        raise WrongKind(column=column, kind=kind.__name__, value=value)
    if kind is str:
        encoded = str.encode(constant)
        test.text_at, test.text_len = encoded, len(encoded)
    else:
        test.number = constant


Line = TypeVar("Line", Total, MinMax)


class Watched(Generic[Line]):
    """A live aggregate of a table: each answer is of the rows as they are now.

    With a key column it is like a dict from keys to ``Total`` or ``MinMax``, sorted by key:
    ``sold["bread"]``, ``sold.items()``, ``"bread" in sold``, ``len(sold)``. Without one, it has
    ``sold.value``, and ``sold.count`` and ``sold.sum``, or ``sold.min`` and ``sold.max``.

    >>> sold, ends = table.watch(totals("quantity", by="sku")), table.watch(extrema("quantity"))
    >>> table.extend([("bread", 5), ("rye", 3)])
    range(0, 2)
    >>> sold["bread"].sum, "oat" in sold, sold.keys(), ends.max
    (5, False, ['bread', 'rye'], 5)
    >>> table.set(0, "quantity", -1)
    >>> sold["bread"].sum, ends.value
    (-1, MinMax(min=-1, max=3))
    """

    def __init__(self, table: Table, spec: Spec, number: int) -> None:
        self.table = table
        self.spec = spec
        self._number = number
        self._key_kind = None if spec.by is None else table.schema[spec.by]
        self._struct: Any = None  # the spec as an fc_spec, for the script language
        self._sum = header.SumStruct()
        self._sum_at = byref(self._sum)
        self._size = ctypes.c_size_t()
        self._size_at = byref(self._size)
        self._fold: Any = Total if spec.fold == "totals" else MinMax
        self._is_plain = spec.fold == "totals" and spec.by is None
        handle = table._handle
        self._handle = handle
        self._at = handle.at
        self._lines = LineReader(handle, self._fold, self._key_kind)
        self._kept = KeptLines(self._lines)
        self._slots = slots = Slots(handle, self._fold)
        lock, ask = table._lock, slots.fc_ask_key
        parts = lock.acquire, lock.release, slots, slots.of_key, ask, slots.unpack, self._fold
        self._for_get = parts
        self._fc_ask = handle.lib.fast("fc_ask")
        self._fc_plain = handle.lib.short("fc_plain")

    @property
    def number(self) -> int:
        """The aggregate's number in the table."""
        if self._number < 0:
            raise NoAggregate()
        return self._number

    @property
    def closed(self) -> bool:
        """Whether the aggregate was unwatched, or its table is closed."""
        return self._number < 0 or not self.table._handle.is_open

    @property
    def pending(self) -> int:
        """How many row groups the next question has to build into the aggregate first."""
        with self.table._lock:
            return self.table._open_handle().pending(self.number)[0]

    def unwatch(self) -> None:
        """Forgets the aggregate. A table has at most 32 at a time."""
        self.table.unwatch(self)

    # Without a key column

    @property
    def value(self) -> Any:
        """The only line of an aggregate without a key; None for extrema of no values."""
        self._need_no_key()
        with self.table._lock:
            if self._is_plain and self._number >= 0 and self.table._handle.is_open:
                if not self._fc_plain(self._at, self._number, self._sum_at):
                    of = self._sum
                    return Total(of.count, (of.sum_high << 64) + of.sum_low)
            return self._line_of(None)

    def _need_no_key(self) -> None:
        if self.spec.by is not None:
            raise Nothing(f"this aggregate has a line for each {self.spec.by}: ask for one")

    def _part(self, name: str) -> int | None:
        if name not in self._fold._fields:
            raise AttributeError(f"{self.spec!r} has no {name}; it has {self._fold._fields}")
        line: Any = self.value
        return None if line is None else int(getattr(line, name))

    @property
    def count(self) -> int | None:
        """The number of values, for totals without a key."""
        return self._part("count")

    @property
    def sum(self) -> int | None:
        """The sum of the values, for totals without a key."""
        return self._part("sum")

    @property
    def mean(self) -> float | None:
        """The mean of the values, for totals without a key; None if there are none."""
        mean: float | None = self.value.mean if self._fold is Total else self._part("mean")
        return mean

    @property
    def min(self) -> int | None:
        """The least value, for extrema without a key; None if there is none."""
        return self._part("min")

    @property
    def max(self) -> int | None:
        """The greatest value, for extrema without a key; None if there is none."""
        return self._part("max")

    # With a key column

    def __getitem__(self, key: Key) -> Any:
        found = self.get(key)
        if found is None:
            raise self._no_key(key)
        return found

    def _no_key(self, key: Any) -> Exception:
        """Returns the exception for a key without a line, or of a kind that can have none."""
        kind = self._key_kind
        if kind is None or isinstance(key, kind) or (kind is int and hasattr(key, "__index__")):
            return KeyError(key)
        return WrongKind(column=self.spec.by, kind=kind.__name__, value=key)

    def get(self, key: Key, default: Any = None) -> Any:
        """Returns the line of a key, or the default if there is none."""
        if key.__class__ is not self._key_kind:
            return self._get_other(key, default)
        acquire, release, slots, of_key, ask, unpack, fold = self._for_get
        try:
            acquire()
            slot = of_key.get(key) or slots.take(key)
            cell_at, line_at, buffer, start, _ = slot
            code = ask(self._at, self._number, cell_at, line_at)
            if code:
                found = None if code == _NOTHING else self._line_of(key)
            elif slots.has_totals:
                count, low, high = unpack(buffer, start)
                found = _new(fold, (count, (high << 64) + low if high else low))
            else:
                found = _new(fold, unpack(buffer, start))
        except BaseException:
            leave(self.table._lock)
            raise
        release()
        return default if found is None else found

    def _get_other(self, key: Any, default: Any) -> Any:
        """Returns the line of a key that is not exactly an int or a str."""
        if self._key_kind is None:
            raise Nothing("this aggregate has no keys: ask for its value")
        if self._key_kind is int and hasattr(key, "__index__"):
            return self.get(int(key.__index__()), default)
        if not isinstance(key, self._key_kind):
            return default
        return self.get(str.__str__(key), default)

    def _line_of(self, key: Key | None) -> Any:
        """Computes the line of one key and no other; None if there is none."""
        slots, number = self._slots, self.number
        slot = slots.take(key)
        code = slots.fc_ask_key(self._at, number, *slot[:2])
        if code and code != Nothing.number:
            self.table._build_for(self, code)
            slot = slots.take(key)  # an engine may have asked meanwhile
            code = slots.fc_ask_key(self._at, number, *slot[:2])
        if code == Nothing.number:
            return None
        self._handle.check(code)
        return slots.line(slot)

    def _ask(self) -> int:
        """Computes the answer into the handle, unless it is there; returns its number of lines."""
        table = self.table
        if table._answer is self:
            return self._size.value
        number = self.number
        code = self._fc_ask(self._at, number, self._size_at)
        if code:
            table._build_for(self, code)
            self._handle.check(self._fc_ask(self._at, number, self._size_at))
        table._answer = self
        return self._size.value

    def lines(self) -> list[tuple[Key, Line]]:
        """Returns all keys with their lines, sorted: numbers by value, texts by their bytes."""
        with self.table._lock:
            return self._kept.pairs(self._ask(), self.table._retractions)

    def items(self) -> list[tuple[Key, Line]]:
        """Returns all keys with their lines, sorted, as of one moment."""
        return self.lines()

    def keys(self) -> list[Key]:
        """Returns all keys, sorted."""
        with self.table._lock:
            return self._kept.keys(self._ask(), self.table._retractions)

    def values(self) -> list[Line]:
        """Returns the lines of all keys, in the order of the keys."""
        with self.table._lock:
            return self._kept.values(self._ask(), self.table._retractions)

    def __iter__(self) -> Iterator[Key]:
        return iter(self.keys())

    def __contains__(self, key: Key) -> bool:
        return self.get(key) is not None

    def __len__(self) -> int:
        with self.table._lock:
            return self._ask()

    def to_dict(self) -> dict[Key, Line]:
        """Returns all keys with their lines as a dict."""
        return dict(self.lines())

    def to_pandas(self) -> Any:
        """Returns the answer as a DataFrame of pandas, with the keys as its index."""
        pandas = needed("pandas", "to_pandas")
        with self.table._lock:
            keys, columns = self._lines.arrays(self._ask())
        index = None if self.spec.by is None else pandas.Index(keys, name=self.spec.by)
        return pandas.DataFrame(columns, index=index)

    def _repr_html_(self) -> str:
        from .display import answer_as_html

        return answer_as_html(self)

    def __repr__(self) -> str:
        if self.closed:
            return f"<{self.spec!r}, no longer watched>"
        with self.table._lock:
            pending = self.pending
            if pending:
                ask = "value" if self.spec.by is None else "items()"
                return f"<{self.spec!r}, {pending:,} row groups pending: {ask} builds them>"
            count = self._ask()
            shown = self._lines.first(min(count, 10))
        if self.spec.by is None:
            return f"<{self.spec!r}: {shown[0][1] if shown else None}>"
        said: list[str] = [f"  {key!r}: {line}" for key, line in shown]
        said += [f"  and {count - 10:,} keys more"] if count > 10 else []
        return "\n".join([f"<{self.spec!r}", *said]) + ">"
