"""Large pages for local memory: finding the new memory, and asking for large pages."""

from __future__ import annotations

import unittest
import unittest.mock
from array import array
from pathlib import Path

import fullercoral as fc
from fullercoral import _pages

_SWITCH = Path("/sys/kernel/mm/transparent_hugepage/enabled")


def _asked() -> int:
    """Returns for how many bytes this process has asked for large pages."""
    size = total = 0
    for line in Path("/proc/self/smaps").read_text().splitlines():
        if line.startswith("Size:"):
            size = 1024 * int(line.split()[1])
        elif line.startswith("VmFlags:") and "hg" in line.split():
            total += size
    return total


class Ranges(unittest.TestCase):
    def test_what_is_in_no_other(self) -> None:
        others = [(10, 20), (30, 40), (40, 50)]
        for ranges, due in (
            ([], []),
            ([(0, 5), (50, 60)], [(0, 5), (50, 60)]),
            ([(10, 20), (32, 38)], []),
            ([(5, 15)], [(5, 10)]),
            ([(15, 35)], [(20, 30)]),
            ([(0, 100)], [(0, 10), (20, 30), (50, 100)]),
        ):
            self.assertEqual(_pages.ranges_without(ranges, others), due)
        self.assertEqual(_pages.ranges_without([(1, 2)], []), [(1, 2)])


class Tables(unittest.TestCase):
    @unittest.skipUnless(_SWITCH.exists(), "skipped: the system has no large pages")
    def test_they_are_asked_for_where_a_table_is_large(self) -> None:
        before, many = _asked(), array("q", range(_pages.MANY))
        with fc.Table({"quantity": int}, local="4MB") as table:
            table.extend_columns(quantity=many)
            self.assertEqual(_asked(), before)
        for is_one in (False, True):
            with fc.Table({"quantity": int}, local="64MB") as table:
                table.extend_columns(quantity=many[1:])
                self.assertEqual(_asked(), before)
                for number in range(2):
                    table.append((number,)) if is_one else table.extend([(number,)])
                self.assertGreaterEqual(_asked() - before, 60_000_000)
                self.assertEqual(table["quantity"].to_list()[-3:], [_pages.MANY - 1, 0, 1])
            self.assertLess(_asked() - before, 60_000_000)

    def test_a_system_that_cannot_tell_its_memory(self) -> None:
        with unittest.mock.patch("builtins.open", side_effect=OSError):
            with fc.Table({"quantity": int}, local="64MB") as table:
                table.extend_columns(quantity=array("q", bytes(8 * _pages.MANY)))
                self.assertEqual(table.append((1,)), _pages.MANY)


if __name__ == "__main__":
    unittest.main()
