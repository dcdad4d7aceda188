"""Large pages for a table's local memory.

An edit at a random place touches some five pages of local memory. A processor caches the addresses
of some 1,500 pages: with pages of 4 KB most lookups miss that cache, with pages of 2 MB none.
Linux allocates large pages at the first use of memory for which a program has asked for them.
"""

from __future__ import annotations

import ctypes
import mmap
from types import TracebackType

MANY = 1 << 16  # a table asks for large pages from so many places on
_LEAST = 8 << 20  # and if it has at least so many bytes of local memory

Range = tuple[int, int]


class LargePages:
    """Finds the memory allocated within a ``with`` block, to ask for large pages for it.

    Memory that another thread allocates meanwhile may get them too. A system without large pages
    ignores the request.
    """

    def __init__(self, size: int) -> None:
        self._size = size
        self._ranges: list[Range] = []

    def __enter__(self) -> None:
        if self._size >= _LEAST:
            self._ranges = _mapped()

    def __exit__(
        self,
        kind: type[BaseException] | None,
        error: BaseException | None,
        trace: TracebackType | None,
    ) -> None:
        if self._ranges:
            new = ranges_without(_mapped(), self._ranges)
            self._ranges = [(start, stop) for start, stop in new if stop - start >= _LEAST // 2]

    def ask(self) -> None:
        """Asks for large pages. A second call does nothing."""
        ranges, self._ranges = self._ranges, []
        for start, stop in ranges:
            _ask_for_large(start, stop)


def _mapped() -> list[Range]:
    """Returns this process's anonymous memory, in order; nothing if the system does not tell."""
    found = []
    try:
        with open("/proc/self/maps", encoding="utf-8", errors="replace") as lines:
            for line in lines:
                parts = line.split()
                if len(parts) == 5 and parts[1] == "rw-p":  # mapped files have a sixth part, a path
                    start, stop = parts[0].split("-")
                    found.append((int(start, 16), int(stop, 16)))
    except (OSError, ValueError):
        return []
    return found


def ranges_without(ranges: list[Range], others: list[Range]) -> list[Range]:
    """Returns the parts of ranges that are in none of the others; both lists are in order.

    >>> ranges_without([(0, 10), (20, 30)], [(2, 4), (8, 22)])
    [(0, 2), (4, 8), (22, 30)]
    """
    parts = []
    for start, stop in ranges:
        for first, last in others:
            if start < last and first < stop:
                if start < first:
                    parts.append((start, first))
                start = max(start, last)
        if start < stop:
            parts.append((start, stop))
    return parts


def _ask_for_large(start: int, stop: int) -> None:
    advise = ctypes.CDLL(None).madvise
    advise.argtypes = ctypes.c_void_p, ctypes.c_size_t, ctypes.c_int
    advise(start, stop - start, mmap.MADV_HUGEPAGE)  # a failure does no harm
