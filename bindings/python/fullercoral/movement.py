"""Moves objects: evicts them, fetches them, and builds row groups from far copies."""

from __future__ import annotations

from array import array
from dataclasses import dataclass
from typing import Callable

from . import _header as header
from ._handle import Handle
from .engines import Engine, shown_engine
from .errors import EngineError, FarFault, FarFull, Refused, RegionFull

Where = Callable[[], tuple["str | None", "int | None"]]  # returns a content's column and row group


@dataclass
class Counters:
    """Counts of movement since a table was opened."""

    evictions: int = 0
    fetches: int = 0
    prefetches: int = 0
    scans: int = 0
    offloads: int = 0
    compactions: int = 0
    retries: int = 0
    contents_put: int = 0
    contents_got: int = 0
    bytes_put: int = 0
    bytes_got: int = 0


class Mover:
    """Moves the objects of a table, and keeps their contents in an engine.

    The library numbers contents from 0, and again from 0 after each renewal. The engine never sees
    a number twice: after a renewal, new contents are numbered from a base on, and objects that were
    away keep their engine numbers. The caller holds the table's lock.
    """

    def __init__(self, handle: Handle, engine: Engine, contents: int) -> None:
        self.handle = handle
        self.engine = engine
        self.contents = contents
        self.counters = Counters()
        self._base = 0
        self._renumbered = array("Q")
        self._segments: dict[int, int] = {}

    # The engine

    def _host_number(self, number: int) -> int:
        if number < len(self._renumbered):
            return self._renumbered[number]
        return self._base + number

    def _put(self, number: int, content: bytes, where: Where) -> None:
        try:
            self.engine.put(self._base + number, content)
        except Exception as error:
            raise _failed(self.engine, "keep", error, where) from error
        self.counters.contents_put += 1
        self.counters.bytes_put += len(content)

    def _get(self, number: int, where: Where) -> bytes:
        """Returns a content from the engine; ``where`` names its object in an error."""
        try:
            content = self.engine.get(number)
            length = len(content)
        except Exception as error:
            raise _failed(self.engine, "return", error, where) from error
        self.counters.contents_got += 1
        self.counters.bytes_got += length
        return content

    def _discard(self, number: int) -> None:
        """Tells the engine to drop a content. A failure does no harm."""
        self._discard_from_engine(self._host_number(number))

    def _discard_from_engine(self, number: int) -> None:
        discard = getattr(self.engine, "discard", None)
        if discard is not None:
            try:
                discard(number)
            except Exception:
                pass

    # One object

    def evict(self, column: int, group: int) -> None:
        """Evicts an object: the engine keeps its content, and its local memory is freed."""
        self._end_evict(self.handle.begin_evict(column, group))

    def evict_coldest(self) -> bool:
        """Evicts the coldest object; returns whether there was one."""
        job = self.handle.begin_coldest()
        if job is None:
            return False
        self._end_evict(job)
        return True

    def _end_evict(self, job: int) -> None:
        handle = self.handle
        try:
            _, _, column, group = handle.job(job)
            before = handle.object(column, group)
            number = self.carry(job)
            self._commit(job, number)
        except BaseException:
            handle.give_up(job)
            raise
        self.counters.evictions += 1
        if number is not None and before.has_copy:
            self._discard(before.copy)

    def _commit(self, job: int, number: int | None) -> None:
        try:
            self.handle.step("commit", job)
        except Refused:
            if number is not None:
                self._discard(number)
            raise

    def carry(self, job: int, group: int | None = None) -> int | None:
        """Carries a job: gets its contents from the engine, or puts its content there.

        Returns the number of the content that was put, or None. Give the row group of an offload,
        so that an error can name the column.
        """
        handle = self.handle
        kind, carried, _, _ = handle.job(job)
        if kind != header.EVICT and not carried:
            self._deliver_all(job, group)
        handle.step("carry", job)
        outgoing = handle.outgoing(job)
        if outgoing is None:
            return None
        number, content = outgoing
        try:
            self._put(number, content, lambda: self._object(job, number, group))
        except EngineError:
            handle.lib.fc_fault(handle.at, job)
            raise
        return number

    def fetch(self, column: int, group: int) -> None:
        """Fetches an object: it becomes local, and keeps its far copy until it is written."""
        self.end_fetch(self.begin_fetch(column, group))

    def begin_fetch(self, column: int, group: int) -> int:
        """Begins a fetch and carries it; `end_fetch` may have to wait for space."""
        job = self.handle.begin_fetch(column, group)
        try:
            self.carry(job)
        except BaseException:
            self.handle.give_up(job)
            raise
        return job

    def end_fetch(self, job: int) -> None:
        """Ends a carried fetch. If it is refused for lack of space, the job stays open."""
        try:
            self.handle.step("install", job)
        except RegionFull:
            raise
        except BaseException:
            self.handle.give_up(job)
            raise
        self.counters.fetches += 1

    def _deliver_all(self, job: int, group: int | None) -> None:
        """Gets all contents that a job needs from the engine."""
        for index in range(header.MAX_COLUMNS + 1):
            number = self.handle.wanted(job, index)
            if number is None:
                return
            self._deliver(job, number, group)

    def _deliver(self, job: int, number: int, group: int | None) -> None:
        def where() -> tuple[str | None, int | None]:
            return self._object(job, number, group)

        try:
            content = self._get(self._host_number(number), where)
        except EngineError:
            self.handle.lib.fc_fault(self.handle.at, job)
            raise
        try:
            self.handle.deliver(job, number, content)
        except FarFault:
            raise _other_bytes(self.engine, where) from None

    def _object(self, job: int, number: int, group: int | None) -> tuple[str | None, int | None]:
        """Returns the column and the row group of a job's content, None if unknown."""
        kind, _, column, at = self.handle.job(job)
        names = self.handle.schema.names
        if kind != header.OFFLOAD:
            return names[column], at
        for column in range(len(names) if group is not None else 0):
            state = self.handle.object(column, group or 0)
            if state.has_copy and state.copy == number:
                return names[column], group
        return None, group

    @property
    def away(self) -> int:
        """How many objects are away."""
        return self.counters.evictions - self.counters.fetches

    def absent_of(self, names: set[str]) -> tuple[str, int] | None:
        """Returns the first object of these columns that is away, by row group, or None."""
        schema = self.handle.schema
        columns = [index for index, name in enumerate(schema) if name in names]
        for group in range(self.handle.groups() if self.away else 0):
            for column in columns:
                if not self.handle.object(column, group).local:
                    return schema.names[column], group
        return None

    def next_segment(self, kind: int, segments: int) -> int:
        """Returns the next segment of a kind to compact, in turn."""
        self._segments[kind] = (self._segments.get(kind, -1) + 1) % segments
        return self._segments[kind]

    # Aggregates

    def scan(self, aggregate: int, group: int) -> None:
        """Scans a row group into an aggregate."""
        self.handle.step("scan", aggregate, group)
        self.counters.scans += 1

    def offload(self, aggregate: int, group: int) -> None:
        """Builds a row group into an aggregate from the far copies of its columns."""
        job = self.handle.begin_offload(aggregate, group)
        try:
            self.carry(job, group)
            self.handle.step("merge", job)
        except BaseException:
            self.handle.give_up(job)
            raise
        self.counters.offloads += 1

    # All objects

    def _split(self) -> tuple[list[tuple[int, int]], list[int]]:
        """Returns the objects that are away, and the far copies of local objects."""
        away, copies = [], []
        for group in range(self.handle.groups()):
            for column in range(len(self.handle.schema)):
                state = self.handle.object(column, group)
                if not state.local:
                    away.append((column, group))
                elif state.has_copy:
                    copies.append(self._host_number(state.copy))
        return away, copies

    def renew(self, engine: Engine | None = None, contents: int | None = None) -> None:
        """Renumbers contents from 0, and moves them to another engine if one is given.

        The contents of all objects that are away are in memory for a moment. If an allocation or an
        engine fails, nothing changes. A renewal ends all jobs.
        """
        capacity = self.contents if contents is None else contents
        away, spare = self._split()
        if len(away) > capacity:
            raise FarFull(f"{len(away):,} objects are away, but only {capacity:,} contents may be")
        kept_at = array("Q")
        for column, group in away:
            number = self._host_number(self.handle.object(column, group).copy)
            kept_at.append(self._copy_over(column, group, number, engine, len(kept_at)))
        self.handle.step("migrate", capacity)
        for number in spare:  # local objects are put again at their next eviction
            self._discard_from_engine(number)
        copies = [self.handle.object(column, group).copy for column, group in away]
        self._base = 0 if engine else self._base + self.contents
        self._renumbered = array("Q", bytes(8 * (max(copies, default=-1) + 1)))
        for number, kept in zip(copies, kept_at):
            self._renumbered[number] = kept
        self.engine = engine or self.engine
        self.contents = capacity

    def _copy_over(
        self, column: int, group: int, number: int, engine: Engine | None, index: int
    ) -> int:
        """Delivers a content for a renewal; returns its number in the next engine."""
        def where() -> tuple[str | None, int | None]:
            return self.handle.schema.names[column], group

        content = self._get(number, where)
        try:
            self.handle.deliver_copy(column, group, content)
        except FarFault:
            raise _other_bytes(self.engine, where) from None
        if engine is None:
            return number
        try:
            engine.put(index, content)
        except Exception as error:
            raise _failed(engine, "keep", error, where) from error
        return index


def _failed(engine: Engine, act: str, error: Exception, where: Where) -> EngineError:
    """Returns the refusal for an exception of an engine."""
    column, group = where()
    cause = f"{type(error).__name__}: {error}"[:200]
    shown = shown_engine(engine)
    return EngineError(column=column, group=group, engine=shown, act=act, cause=cause)


def _other_bytes(engine: Engine, where: Where) -> FarFault:
    """Returns the refusal for a content that differs from the one put."""
    column, group = where()
    return FarFault(column=column, group=group, engine=shown_engine(engine))
