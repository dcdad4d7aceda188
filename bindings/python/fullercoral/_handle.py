"""A handle on a table of the library, whose calls take and return values of Python.

These calls copy what the library lends, which ends with the next call. A refused call raises the
exception with its number. The caller holds the table's lock.
"""

from __future__ import annotations

import ctypes
import threading
from ctypes import byref, c_bool, c_size_t, c_uint32, c_uint64
from typing import Any, NamedTuple

from . import _header as header
from ._library import Library, library
from ._pages import LargePages
from .errors import BY_NUMBER, Refused
from .limits import Limits
from .schema import Schema

EMPTY = (c_uint64 * 8)()
EMPTY_AT = ctypes.addressof(EMPTY)  # the address of an array of length 0, aligned for all kinds


def leave(lock: threading.RLock) -> None:
    """Releases a lock after an exception, unless this thread did not have the lock yet.

    Edits call ``acquire`` and ``release``, since a ``with`` block takes twice as long, which is a
    fifth of the cost of an edit. An exception, as by Ctrl-C, may then come from ``acquire``.
    """
    if lock._is_owned():  # type: ignore[attr-defined]
        lock.release()


def no_bytes() -> header.Bytes:
    """Returns an empty ``fc_bytes`` for a call to fill."""
    return header.Bytes(EMPTY_AT, 0)


class ObjectState(NamedTuple):
    """The state of an object, as the library reports it."""

    copy: int
    version: int
    pins: int
    local: bool
    dirty: bool
    hot: bool
    has_copy: bool


class Space(NamedTuple):
    """The local memory of one kind, in numbers (of 16 bytes) or bytes of texts."""

    used: int
    free: int
    segments: int
    size: int


class Handle:
    """An open table of the library."""

    def __init__(self, schema: Schema, limits: Limits, contents: int) -> None:
        self.schema = schema
        self.limits = limits
        self.lib: Library = library()
        self._table = header.TableHandle()
        self.at = byref(self._table)
        self._details = header.Details()
        self._number32, self._number64 = c_uint32(), c_uint64()
        self._other32, self._size, self._flag = c_uint32(), c_size_t(), c_bool()
        self._bytes = header.Bytes()
        self._object = header.ObjectStruct()
        self._groups = (c_uint32 * 2)()
        self.lines: Any = None  # a buffer of lines, made by the first reader of an answer
        kinds = (c_uint32 * len(schema))(*schema.codes())
        lim = limits.to_header()
        self._pages = LargePages(limits.local_bytes)
        with self._pages:
            self.check(self.lib.fc_open(self.at, kinds, len(kinds), byref(lim), contents))

    @property
    def is_open(self) -> bool:
        """Whether the table is open."""
        return bool(self._table.at)

    def close(self) -> None:
        """Closes the table and frees its memory. Closing twice does nothing."""
        if self._table.at:
            self.check(self.lib.fc_close(self.at))

    def use_large_pages(self) -> None:
        """Asks for large pages for local memory first used from now on."""
        self._pages.ask()

    def refusal(self, code: int, **more: Any) -> Refused:
        """Returns the exception of a code, with the details that the library has."""
        kind = BY_NUMBER.get(code, Refused)
        details: dict[str, Any] = dict(more)
        if code in (15, 16) and self.lib.fc_last_refusal(self.at, byref(self._details)) == 0:
            if code == 15:
                details["pending"] = self._details.pending
            else:
                details["column"] = self.schema.names[self._details.column]
                details["group"] = self._details.group
        return kind(**details) if kind is not Refused else Refused(f"the call returned {code}")

    def absent(self) -> tuple[int, int]:
        """Returns the column's index and the row group of the object that was away."""
        self.check(self.lib.fc_last_refusal(self.at, byref(self._details)))
        return self._details.column, self._details.group

    def check(self, code: int) -> None:
        """Raises the exception of a code, unless the code is 0."""
        if code:
            raise self.refusal(code)

    # Jobs

    def begin_evict(self, column: int, group: int) -> int:
        """Begins to evict an object, and returns the job's number."""
        code = self.lib.fc_begin_evict(self.at, column, group, byref(self._number64))
        if code:
            raise self.refusal(code, evicting=True)
        return self._number64.value

    def begin_coldest(self) -> int | None:
        """Begins to evict the coldest object, and returns the job's number; None if none may go."""
        code = self.lib.fc_begin_coldest(self.at, byref(self._number64))
        if code == 104:
            return None
        self.check(code)
        return self._number64.value

    def begin_fetch(self, column: int, group: int) -> int:
        """Begins to fetch an object, and returns the job's number."""
        self.check(self.lib.fc_begin_fetch(self.at, column, group, byref(self._number64)))
        return self._number64.value

    def begin_offload(self, aggregate: int, group: int) -> int:
        """Begins to build a row group from its copies, and returns the job's number."""
        self.check(self.lib.fc_begin_offload(self.at, aggregate, group, byref(self._number64)))
        return self._number64.value

    def job(self, job: int) -> tuple[int, bool, int, int]:
        """Returns a job's kind, whether it is carried, its column and its row group."""
        about = header.JobStruct()
        self.check(self.lib.fc_job_of(self.at, job, byref(about)))
        return about.kind, about.carried, about.column, about.group

    def wanted(self, job: int, index: int) -> int | None:
        """Returns the number of a content that a job needs, or None if it needs no more."""
        code = self.lib.fc_wanted(self.at, job, index, byref(self._number64))
        if code == 104:
            return None
        self.check(code)
        return self._number64.value

    def deliver(self, job: int, number: int, content: bytes) -> None:
        """Gives a job a content that it needs."""
        at, length = _address(content)
        self.check(self.lib.fc_deliver(self.at, job, number, at, length))

    def outgoing(self, job: int) -> tuple[int, bytes] | None:
        """Returns the number and content that a carried eviction wants kept, or None."""
        self._bytes.at, self._bytes.len = EMPTY_AT, 0
        lent = byref(self._bytes)
        code = self.lib.fc_outgoing(self.at, job, byref(self._number64), lent)
        if code == 104:
            return None
        self.check(code)
        return self._number64.value, ctypes.string_at(self._bytes.at, self._bytes.len)

    def step(self, name: str, *arguments: int) -> None:
        """Calls a function that takes numbers and writes nothing, named without ``fc_``."""
        self.check(getattr(self.lib, f"fc_{name}")(self.at, *arguments))

    def give_up(self, job: int) -> None:
        """Ends a job, unless it has ended."""
        self.lib.fc_give_up(self.at, job)

    def deliver_copy(self, column: int, group: int, content: bytes) -> None:
        """Gives the content of an object that is away, for a renewal."""
        at, length = _address(content)
        self.check(self.lib.fc_deliver_copy(self.at, column, group, at, length))

    # Aggregates

    def watch(self, spec: header.SpecStruct) -> int:
        """Registers an aggregate, and returns its number."""
        self.check(self.lib.fc_watch(self.at, byref(spec), byref(self._number32)))
        return self._number32.value

    def pending(self, aggregate: int) -> tuple[int, int]:
        """Returns how many row groups are pending in an aggregate, and the first of them."""
        count, first = byref(self._number32), byref(self._other32)
        self.check(self.lib.fc_pending(self.at, aggregate, count, first))
        return self._number32.value, self._other32.value

    # Readers

    def is_alive(self, place: int) -> bool:
        """Returns whether the row of a place is alive."""
        self.check(self.lib.fc_is_alive(self.at, place, byref(self._flag)))
        return self._flag.value

    def proposals(self, column: int) -> list[int]:
        """Returns the row groups of a column to prefetch, as its accesses suggest."""
        count = byref(self._size)
        self.check(self.lib.fc_proposals(self.at, column, self._groups, 2, count))
        return list(self._groups[: self._size.value])

    def places(self) -> int:
        """Returns how many places there are."""
        self.check(self.lib.fc_places(self.at, byref(self._number32)))
        return self._number32.value

    def object(self, column: int, group: int) -> ObjectState:
        """Returns the state of an object."""
        self.check(self.lib.fc_object_of(self.at, column, group, byref(self._object)))
        of = self._object
        return ObjectState(of.copy, of.version, of.pins, of.local, of.dirty, of.hot, of.has_copy)

    def space(self, kind: int) -> Space:
        """Returns the space of local memory of a kind."""
        space = header.SpaceStruct()
        self.check(self.lib.fc_space_of(self.at, kind, byref(space)))
        return Space(space.used, space.free, space.segments, space.size)

    def faults(self) -> int:
        """Returns how many faults were counted."""
        self.check(self.lib.fc_faults(self.at, byref(self._number64)))
        return self._number64.value

    def groups(self) -> int:
        """Returns how many row groups have places."""
        return -(-self.places() // self.limits.group)


def _address(content: Any) -> tuple[Any, int]:
    """Returns a content's buffer and its length; an engine may return any bytes-like object."""
    if not isinstance(content, bytes):
        content = bytes(content)
    return content, len(content)
