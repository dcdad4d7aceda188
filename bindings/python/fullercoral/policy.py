"""The policy: what to do when local memory is full, or an object is away."""

from __future__ import annotations

from types import TracebackType
from typing import Any, Callable

from . import _header as header
from .errors import Absent, FarFull, Refused, RegionFull, StaleJob
from .movement import Mover

_REGION_FULL, _ABSENT = RegionFull.number, Absent.number
_MOST_COMPACTED = 8  # the most segments of a kind to compact each time


class Policy:
    """Moves objects as calls need them, so a table may exceed its local memory. The default.

    - If local memory is full, it evicts the coldest objects and repeats the call.
    - If an object is away, it fetches it and repeats the call. With ``prefetch``, it also fetches
      the next two of a stride.
    - At the first question, it scans pending row groups, or builds them from their far copies.
    - If the content numbers are used up, it renews the table, which continues with new ones.

    >>> Policy()
    Policy(prefetch=True)
    """

    def __init__(self, prefetch: bool = True) -> None:
        self.prefetch = prefetch

    def __repr__(self) -> str:
        return f"Policy(prefetch={self.prefetch})"


class Helper:
    """Repeats one call until it is done: ``with Helper(..) as helper: helper.until_done(call)``.

    It pins what it fetches until the call ends. So it fetches each object once, and each round
    without a fetch evicts something: the rounds end.
    """

    def __init__(self, mover: Mover, policy: Policy | None) -> None:
        self._mover = mover
        self._handle = mover.handle
        self._policy = policy
        self._pinned: list[tuple[int, int]] = []
        self._evict_next = 1
        limits = mover.handle.limits
        local = max(limits.int_segments * (limits.int_size // limits.group), limits.text_segments)
        self._evict_most = min(64, max(1, local // 8))

    def __enter__(self) -> Helper:
        return self

    def __exit__(
        self,
        kind: type[BaseException] | None,
        error: BaseException | None,
        trace: TracebackType | None,
    ) -> None:
        for column, group in self._pinned:
            self._handle.step("unpin", column, group)
        self._pinned.clear()

    def until_done(self, call: Callable[..., int], *arguments: Any, code: int = 0) -> int:
        """Repeats a call until it is done, or the policy cannot help; returns its last code.

        ``code`` is the code of a first call that the caller made.
        """
        code = code or call(*arguments)
        while code and self.has_helped(code):
            self._mover.counters.retries += 1
            code = call(*arguments)
        return code

    def has_helped(self, code: int) -> bool:
        """Does what a refused call needs; returns False if the policy cannot."""
        if self._policy is None:
            return False
        if code == _REGION_FULL:
            return self.make_space()
        if code == _ABSENT:
            return self.bring(*self._handle.absent())
        return False

    def make_space(self) -> bool:
        """Evicts the coldest objects, twice as many as before; returns False if none can go."""
        gone = 0
        while gone < self._evict_next and self._evict_coldest():
            gone += 1
        self._evict_next = min(2 * self._evict_next, self._evict_most)
        self._compact()
        return gone > 0

    def _evict_coldest(self) -> bool:
        try:
            return self._mover.evict_coldest()
        except FarFull:
            self._mover.renew()
            return self._mover.evict_coldest()

    def _compact(self) -> None:
        """Compacts segments with several objects, while a free segment is there to copy into."""
        schema, limits = self._handle.schema, self._handle.limits
        if schema.count(str):
            self._compact_some(header.TEXT)
        if schema.count(int) and limits.int_size >= 2 * limits.group:
            self._compact_some(header.INT)

    def _compact_some(self, kind: int) -> None:
        """Compacts segments in turn, until a compaction frees a quarter of a segment."""
        space = self._handle.space(kind)
        for _ in range(min(space.segments, _MOST_COMPACTED)):
            segment = self._mover.next_segment(kind, space.segments)
            try:
                self._handle.step("compact", kind, segment)
            except RegionFull:
                return
            self._mover.counters.compactions += 1
            after = self._handle.space(kind)
            if after.free - space.free >= space.size // 4:
                return
            space = after

    def bring(self, column: int, group: int) -> bool:
        """Fetches and pins an object, and prefetches; returns False if it is pinned already."""
        if (column, group) in self._pinned:
            return False
        self.fetch(column, group)
        self._handle.step("pin", column, group)
        self._pinned.append((column, group))
        if self._policy is not None and self._policy.prefetch:
            self._prefetch(column)
        return True

    def fetch(self, column: int, group: int) -> None:
        """Fetches an object, and makes space for it if needed."""
        while True:
            job = self._mover.begin_fetch(column, group)
            try:
                return self._install(job)
            except StaleJob:
                continue  # a renewal meanwhile ended all jobs
            except BaseException:
                self._handle.give_up(job)
                raise

    def _install(self, job: int) -> None:
        while True:
            try:
                return self._mover.end_fetch(job)
            except RegionFull:
                if self._policy is None or not self.make_space():
                    raise

    def _prefetch(self, column: int) -> None:
        """Fetches the objects to be used next, until one does not fit or fails."""
        for group in self._handle.proposals(column):
            try:
                self.fetch(column, group)
                self._mover.counters.prefetches += 1
            except StaleJob:
                continue
            except Refused:
                return


def build(
    mover: Mover,
    policy: Policy | None,
    aggregate: int,
    progress: Callable[[int, int], Any] | None = None,
) -> None:
    """Builds all pending row groups into an aggregate."""
    pending, first = mover.handle.pending(aggregate)
    total = pending
    while pending:
        _build_group(mover, policy, aggregate, first)
        pending, first = mover.handle.pending(aggregate)
        if progress is not None:
            progress(total - pending, total)


def _build_group(mover: Mover, policy: Policy | None, aggregate: int, group: int) -> None:
    try:
        return mover.scan(aggregate, group)
    except Absent:
        pass
    try:
        return mover.offload(aggregate, group)
    except StaleJob:
        pass  # some of its columns are away, and others were written since
    with Helper(mover, policy) as helper:
        scan = mover.handle.lib.fc_scan
        mover.handle.check(helper.until_done(scan, mover.handle.at, aggregate, group))
    mover.counters.scans += 1
