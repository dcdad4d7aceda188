"""Moves a table's objects by hand, and reports where they are."""

from __future__ import annotations

import threading
from dataclasses import dataclass, fields
from types import TracebackType
from typing import TYPE_CHECKING, Any, Callable, Iterator

from . import _header as header
from ._handle import Handle
from .aggregates import Watched
from .engines import Engine, close_engine, release, take
from .errors import Building, Closed, FarFull, OutOfRange
from .movement import Counters, Mover
from .picture import Map, read_map
from .policy import Helper, Policy, build
from .schema import Schema


@dataclass(frozen=True)
class Stats:
    """The size of a table, its memory, and its movement since it was opened."""

    places: int
    rows: int
    row_groups: int
    objects: int
    away: int
    local_bytes: int
    """How many bytes of local memory the cells may take."""
    local_used: int
    """How many of them are used, with garbage that a compaction would free."""
    faults: int
    moved: Counters

    def __str__(self) -> str:
        moved = self.moved
        lines = [
            f"{self.rows:,} rows at {self.places:,} places in {self.row_groups:,} row groups",
            f"{self.objects - self.away:,} objects are local, {self.away:,} away",
            f"{self.local_used:,} of {self.local_bytes:,} bytes of local memory are used",
            f"{moved.evictions:,} evictions, {moved.fetches:,} fetches "
            f"({moved.prefetches:,} of them ahead), {moved.retries:,} calls repeated",
            f"{moved.scans:,} row groups scanned, {moved.offloads:,} built from far copies",
            f"{moved.bytes_put:,} bytes put, {moved.bytes_got:,} got, {self.faults:,} faults",
        ]
        return "\n".join(lines)


class Pin:
    """A pin, which keeps an object local until ``unpin()`` or the end of a ``with`` block."""

    def __init__(self, table: Moving, column: int, group: int) -> None:
        self._table: Moving | None = table
        self._object = column, group

    def unpin(self) -> None:
        """Ends the pin. A second call does nothing."""
        table, self._table = self._table, None
        if table is not None:
            with table._lock:
                if table._handle.is_open:
                    table._handle.step("unpin", *self._object)

    def __repr__(self) -> str:
        if self._table is None:
            return "<ended pin>"
        column, group = self._object
        return f"<pin on column {self._table.schema.names[column]!r}, row group {group}>"

    def __enter__(self) -> Pin:
        return self

    def __exit__(
        self,
        kind: type[BaseException] | None,
        error: BaseException | None,
        trace: TracebackType | None,
    ) -> None:
        self.unpin()


class Moving:
    """The calls of `Table` that move objects. A column and a row group name an object."""

    schema: Schema
    policy: Policy | None
    _lock: threading.RLock
    _handle: Handle
    _mover: Mover
    _places: int
    _live: int

    if TYPE_CHECKING:

        def _check_watched(self, watched: Any) -> None:
            ...

    def _open_handle(self) -> Handle:
        if not self._handle.is_open:
            raise Closed()
        return self._handle

    def _group(self, group: Any) -> int:
        """Returns a row group as an int; refuses one that does not exist."""
        groups = self._handle.groups()
        if not hasattr(group, "__index__") or not 0 <= group < groups:
            raise OutOfRange(group=group, groups=groups)
        return int(group.__index__())

    def _objects(self, column: str | None, group: int | None) -> Iterator[tuple[int, int]]:
        """Yields the objects of a row group, of a column, or of the table, if neither is named."""
        columns = range(len(self.schema)) if column is None else [self.schema.index(column)]
        groups = range(self._handle.groups()) if group is None else [self._group(group)]
        return ((index, at) for at in groups for index in columns)

    def evict(self, column: str | None = None, group: int | None = None) -> int:
        """Evicts an object, and returns how many objects were evicted.

        Without a row group it evicts the whole column, without a column the whole table. It skips
        objects that are pinned or away already. Aggregates answer as before.

        >>> table.extend([("bread", 5), ("rye", 3)])
        range(0, 2)
        >>> table.evict("quantity", 0), table.evict()
        (1, 1)
        """
        with self._lock:
            handle, gone = self._open_handle(), 0
            for index, at in self._objects(column, group):
                if group is None and not _may_go(handle, index, at):
                    continue
                try:
                    self._mover.evict(index, at)
                except FarFull:
                    if self.policy is None:
                        raise
                    self._mover.renew()
                    self._mover.evict(index, at)
                gone += 1
            return gone

    def fetch(self, column: str | None = None, group: int | None = None) -> int:
        """Fetches an object, and returns how many objects were fetched.

        Without a row group it fetches the whole column, without a column the whole table. It skips
        objects that are local already. If local memory is full, the policy evicts others.

        >>> table.extend([("bread", 5), ("rye", 3)])
        range(0, 2)
        >>> table.evict(), table.fetch("sku", 0), table.fetch()
        (2, 1, 1)
        """
        with self._lock:
            handle, came = self._open_handle(), 0
            for index, at in self._objects(column, group):
                if group is None and handle.object(index, at).local:
                    continue
                with Helper(self._mover, self.policy) as helper:
                    helper.fetch(index, at)
                came += 1
            return came

    def pin(self, column: str, group: int) -> Pin:
        """Pins an object, which keeps it local: ``with table.pin("quantity", 0): ..``.

        The policy fetches it first if it is away.

        >>> place = table.append(("bread", 5))
        >>> with table.pin("quantity", 0):
        ...     table.evict()
        1
        """
        with self._lock:
            handle, index = self._open_handle(), self.schema.index(column)
            group = self._group(group)
            with Helper(self._mover, self.policy) as helper:
                handle.check(helper.until_done(handle.lib.fc_pin, handle.at, index, group))
            return Pin(self, index, group)

    def build(
        self, watched: Watched[Any], progress: Callable[[int, int], Any] | None = None
    ) -> None:
        """Builds all pending row groups into an aggregate now, not at the first question.

        It scans local row groups, and reads the far copies of others without fetching them.

        >>> table.extend([("bread", 5), ("rye", 3)])
        range(0, 2)
        >>> sold = table.watch(totals("quantity"))
        >>> table.build(sold)
        >>> sold.pending
        0
        """
        with self._lock:
            self._open_handle()
            self._check_watched(watched)
            build(self._mover, self.policy, watched.number, progress)

    def _build_for(self, watched: Watched[Any], code: int) -> None:
        """Builds the row groups whose pending state refused a question; else raises."""
        if code != Building.number or self.policy is None:
            raise self._handle.refusal(code)
        build(self._mover, self.policy, watched.number)

    def move_to(self, engine: Engine) -> None:
        """Switches to another engine, which gets the contents of all objects that are away.

        All these contents are in memory for a moment. If an allocation or an engine fails, the
        table is unchanged and keeps its engine. Otherwise the old engine is closed.

        >>> table.extend([("bread", 5), ("rye", 3)])
        range(0, 2)
        >>> gone = table.evict()
        >>> table.move_to(fc.Memory())
        >>> table[1]
        Row(sku='rye', quantity=3)
        """
        with self._lock:
            self._open_handle()
            old = self._mover.engine
            if engine is old:
                return
            take(engine)
            try:
                self._mover.renew(engine)
            except BaseException:
                release(engine)
                raise
            release(old)
            close_engine(old)

    @property
    def engine(self) -> Engine:
        """The engine that keeps what is away."""
        return self._mover.engine

    def map(self) -> Map:
        """Returns a map of row groups by columns, which shows where each object is.

        >>> place = table.append(("bread", 5))
        >>> gone = table.evict("sku")
        >>> print(table.map())
             sku ·
        quantity █
        █ local, without a current copy: 1  · away: 1
        """
        with self._lock:
            return read_map(self._open_handle())

    def stats(self) -> Stats:
        """Returns the table's size, its memory, and its movement since it was opened.

        >>> place = table.append(("bread", 5))
        >>> gone = table.evict()
        >>> stats = table.stats()
        >>> stats.rows, stats.objects, stats.away, stats.moved.evictions, stats.local_used
        (1, 2, 2, 2, 0)
        """
        with self._lock:
            handle = self._open_handle()
            numbers, texts = handle.space(header.INT), handle.space(header.TEXT)
            groups, moved = handle.groups(), self._mover.counters
            return Stats(
                places=self._places,
                rows=self._live,
                row_groups=groups,
                objects=groups * len(self.schema),
                away=self._mover.away,
                local_bytes=handle.limits.local_bytes,
                local_used=header.NUMBER_BYTES * numbers.used + texts.used,
                faults=handle.faults(),
                moved=Counters(**{f.name: getattr(moved, f.name) for f in fields(moved)}),
            )


def _may_go(handle: Handle, column: int, group: int) -> bool:
    state = handle.object(column, group)
    return state.local and not state.pins
