"""The line of one key: keys with and without a slot, refusals, and the table's lock."""

from __future__ import annotations

import threading
import unittest
from typing import Any
from unittest import mock

import fullercoral as fc
from fullercoral import _asking, errors
from fullercoral._handle import leave

from .optional import numpy

KINDS = {"sku": str, "city": int, "quantity": int}


class Named(str):
    """A subclass of str."""


class Numbered(int):
    """A subclass of int."""


class Case(unittest.TestCase):
    def setUp(self) -> None:
        self.table = fc.Table(KINDS, local="1MB")
        self.addCleanup(self.table.close)

    def is_free(self) -> bool:
        """Whether another thread can take the table's lock."""
        taken: list[bool] = []

        def take() -> None:
            taken.append(self.table._lock.acquire(blocking=False))
            if taken[0]:
                self.table._lock.release()

        thread = threading.Thread(target=take)
        thread.start()
        thread.join()
        return taken[0]


class Keys(Case):
    def test_each_question_has_the_line_as_it_is_now(self) -> None:
        table = self.table
        by_text = table.watch(fc.totals("quantity", by="sku"))
        by_number = table.watch(fc.extrema("quantity", by="city"))
        texts, numbers = ["", "a", "é", "x\0y", "日本" * 9, "x" * 4096], [0, -1, 2**63 - 1, -(2**63)]
        rows = [(text, numbers[at % 4], at) for at, text in enumerate(texts)]
        table.extend(rows)
        for quantity in (5, -7, 2**62):
            for place, (text, number, _) in enumerate(rows):
                table.set(place, "quantity", quantity + place)
                self.assertEqual(by_text[text], fc.Total(1, quantity + place))
                self.assertEqual(by_number[number], table.recount(by_number)[number])
        self.assertEqual([type(by_text["a"]), type(by_number[0])], [fc.Total, fc.MinMax])

    def test_sums_beyond_64_bits(self) -> None:
        sold = self.table.watch(fc.totals("quantity", by="sku"))
        for value in (2**63 - 1, -(2**63)):
            self.table.extend([(str(value), 1, value)] * 3)
            self.assertEqual(sold[str(value)], fc.Total(3, 3 * value))

    def test_more_keys_than_have_slots(self) -> None:
        with mock.patch.object(_asking, "MOST_SLOTS", 70):
            table = self.table
            sold = table.watch(fc.totals("quantity", by="sku"))
            cities = table.watch(fc.totals("quantity", by="city"))
            table.extend((f"sku{n}", n, n) for n in range(200))
            for _ in range(2):
                for n in (*range(200), *reversed(range(200))):
                    self.assertEqual((sold[f"sku{n}"].sum, cities[n].sum), (n, n))
            self.assertEqual((len(sold._slots.of_key), len(cities._slots.of_key)), (70, 70))

    def test_keys_that_no_line_has(self) -> None:
        self.table.extend([("bread", 1, 5), ("", 0, 3)])
        sold = self.table.watch(fc.totals("quantity", by="sku"))
        cities = self.table.watch(fc.totals("quantity", by="city"))
        for _ in range(2):
            for key in ("oat", "\ud800", "x" * 5000, 1, None, b"bread", ("bread",), [], 1.0):
                self.assertEqual((sold.get(key), sold.get(key, 7), key in sold), (None, 7, False))
            for key in (7, 2**63, -(2**70), "1", None, 1.0, []):
                self.assertEqual((cities.get(key), key in cities), (None, False))
            self.assertEqual((sold["bread"].sum, cities[1].sum), (5, 5))
        for watched, key, kind in (
            (sold, "oat", KeyError),
            (cities, 7, KeyError),
            (sold, 1, errors.WrongKind),
            (cities, "1", errors.WrongKind),
            (cities, None, errors.WrongKind),
        ):
            with self.assertRaises(kind):
                watched[key]
        self.table.append(("oat", 7, 1))
        self.assertEqual((sold["oat"], cities[7]), (fc.Total(1, 1), fc.Total(1, 1)))

    def test_keys_of_other_classes(self) -> None:
        self.table.extend([("bread", 1, 5), ("rye", 0, 3)])
        sold = self.table.watch(fc.totals("quantity", by="sku"))
        cities = self.table.watch(fc.totals("quantity", by="city"))
        self.assertEqual((sold[Named("bread")].sum, cities[Numbered(1)].sum), (5, 5))
        self.assertEqual((cities[True].sum, cities[False].sum), (5, 3))

    def test_a_key_is_one_column(self) -> None:
        for spec in (lambda: fc.totals("city", by=["sku"]), lambda: fc.extrema(["city"])):
            with self.assertRaisesRegex(errors.BadSpec, "takes the name of one column, not "):
                spec()

    @unittest.skipUnless(numpy, "skipped: numpy is not installed")
    def test_keys_of_numpy(self) -> None:
        self.table.extend([("bread", 1, 5), ("rye", 0, 3)])
        sold = self.table.watch(fc.totals("quantity", by="sku"))
        cities = self.table.watch(fc.totals("quantity", by="city"))
        self.assertEqual((cities[numpy.int64(1)].sum, sold[numpy.str_("rye")].sum), (5, 3))
        with self.assertRaises(KeyError):
            cities[numpy.uint8(7)]

    def test_without_a_key_column(self) -> None:
        plain = self.table.watch(fc.extrema("quantity"))
        self.assertIsNone(plain.value)
        self.table.append(("bread", 1, 5))
        self.assertEqual(plain.value, fc.MinMax(5, 5))
        for key in ("bread", 1, None):
            with self.assertRaises(errors.Nothing):
                plain.get(key)


class Refusals(Case):
    def refused(self, kind: type[BaseException], call: Any, *arguments: Any) -> None:
        with self.assertRaises(kind):
            call(*arguments)
        self.assertTrue(self.is_free())

    def test_the_lock_is_free_after_each(self) -> None:
        table = self.table
        table.extend([("bread", 1, 5), ("rye", 2, 3)])
        sold, other = (table.watch(fc.totals("quantity", by="sku")) for _ in range(2))
        self.assertEqual(sold["bread"].sum, 5)
        self.refused(errors.NoRow, table.set, 2, "quantity", 1)
        self.refused(errors.NoColumn, table.set, 0, "prize", 1)
        self.refused(errors.WrongKind, table.set, 0, "quantity", "x")
        self.refused(errors.WrongKind, table.set, 0, "quantity", 2**63)
        self.refused(TypeError, table.set, "x", "quantity", 1)
        table.remove(1)
        self.refused(errors.RemovedRow, table.set, 1, "quantity", 1)
        table.unwatch(sold)
        self.refused(errors.NoAggregate, sold.get, "bread")
        again = table.watch(fc.totals("quantity", by="sku"))
        self.assertEqual((again["bread"].sum, other["bread"].sum), (5, 5))
        self.refused(errors.NoAggregate, sold.get, "bread")
        table.close()
        self.refused(errors.Closed, other.get, "bread")
        self.refused(errors.Closed, table.set, 0, "quantity", 1)

    def test_row_groups_that_are_pending(self) -> None:
        with fc.Table(KINDS, local="1MB", policy=None) as table:
            table.append(("bread", 1, 5))
            sold = table.watch(fc.totals("quantity", by="sku"))
            for _ in range(2):
                with self.assertRaises(errors.Building):
                    sold.get("bread")
            table.build(sold)
            self.assertEqual(sold["bread"].sum, 5)

    def test_an_exception_before_the_lock_is_taken(self) -> None:
        lock = threading.RLock()
        leave(lock)
        lock.acquire()
        leave(lock)
        with self.assertRaises(RuntimeError):
            lock.release()

    def test_several_threads_ask_and_edit(self) -> None:
        table = self.table
        table.extend((f"sku{n}", n, 0) for n in range(40))
        sold = table.watch(fc.totals("quantity", by="sku"))
        sold.items()

        def edit(first: int) -> None:
            for value in range(1, 100):
                for place in range(first, 40, 4):
                    table.set(place, "quantity", value)
                    wrong.extend([place] * (sold[f"sku{place}"].sum != value))

        wrong: list[int] = []
        threads = [threading.Thread(target=edit, args=(first,)) for first in range(4)]
        for thread in threads:
            thread.start()
        for thread in threads:
            thread.join()
        self.assertEqual((wrong, {line.sum for line in sold.values()}), ([], {99}))


if __name__ == "__main__":
    unittest.main()
