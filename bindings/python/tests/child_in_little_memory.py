"""A process with limited address space, which holds a table of 8 times as many bytes.

Its argument is the limit in bytes. It prints the table's state, and the process's peak memory.
"""

from __future__ import annotations

import resource
import sys
from array import array

import fullercoral as fc
from fullercoral._library import library

COLUMNS = [f"c{number}" for number in range(16)]
ROWS_AT_ONCE = 4096
TIMES = 8


def main(most: int, path: str) -> None:
    sys.modules["numpy"] = None  # type: ignore[assignment]  # it needs more memory than the limit
    library()
    resource.setrlimit(resource.RLIMIT_AS, (most, most))
    rows = TIMES * most // (8 * len(COLUMNS)) // ROWS_AT_ONCE * ROWS_AT_ONCE + ROWS_AT_ONCE
    kinds = dict.fromkeys(COLUMNS, int)
    with fc.Table(kinds, local=most // 8, far=fc.Files(path), group=4096) as table:
        total = table.watch(fc.totals("c7"))
        ends = table.watch(fc.extrema("c15", by="c0"))
        key = array("q", (row % 3 for row in range(ROWS_AT_ONCE)))
        for first in range(0, rows, ROWS_AT_ONCE):
            numbers = array("q", range(first, first + ROWS_AT_ONCE))
            columns = dict.fromkeys(COLUMNS, numbers)
            table.extend_columns({**columns, "c0": key})
        assert total.value == (rows, rows * (rows - 1) // 2), total.value
        for place in range(0, rows, rows // 50):
            table.set(place, "c7", 0)
        due = rows * (rows - 1) // 2 - sum(range(0, rows, rows // 50))
        assert total.sum == due, total.sum
        assert ends[(rows - 1) % ROWS_AT_ONCE % 3].max == rows - 1
        assert [row.c7 for row in (table[0], table[1], table[-1])] == [0, 1, rows - 1]
        assert table["c3"][rows // 2 : rows // 2 + 10][3] == rows // 2 + 3
        stats = table.stats()
    print(rows * len(COLUMNS) * 8, stats.objects, stats.away, peak())


def peak() -> int:
    """Returns the peak memory of this process (getrusage would include its parent's)."""
    with open("/proc/self/status") as file:
        line = next(line for line in file if line.startswith("VmHWM:"))
    return 1024 * int(line.split()[1])


if __name__ == "__main__":
    main(int(sys.argv[1]), sys.argv[2])
