"""All lines of an answer, which reuses those of the last one that did not change."""

from __future__ import annotations

import random
import unittest
from array import array
from typing import Any, Callable
from unittest import mock

import fullercoral as fc
from fullercoral import _lines

from .plain import PlainTable

KINDS = {"sku": str, "city": int, "quantity": int}
SKUS = [f"sku{at}" for at in range(40)]
SPECS = [
    fc.totals("quantity", by="sku"),
    fc.totals("quantity", by="city", where=[("quantity", ">", 3), ("sku", "^=", "sku1")]),
    fc.extrema("quantity", by="sku", where=[("city", "!=", 5)]),
    fc.extrema("city", by="city"),
    fc.totals("city"),
]


class Asking(fc.Memory):
    """Asks a question before it returns a content."""

    ask: Callable[[], Any] = staticmethod(list)

    def get(self, number: int) -> bytes:
        self.ask()
        return super().get(number)


def in_order(lines: dict[Any, Any]) -> list[Any]:
    """Returns the lines of a plain table's answer as ``items`` has them."""
    keys = sorted(lines, key=lambda key: key.encode() if isinstance(key, str) else key)
    return [(key, lines[key]) for key in keys]


class Reused(unittest.TestCase):
    def setUp(self) -> None:
        for name, value in (("LINES", 16), ("_BLOCK", 4)):
            patch = mock.patch.object(_lines, name, value)
            patch.start()
            self.addCleanup(patch.stop)
        self.random = random.Random(7)
        self.table, self.plain = fc.Table(KINDS, local="1MB"), PlainTable(KINDS)
        self.addCleanup(self.table.close)

    def append(self, *row: Any) -> None:
        self.table.append(row)
        self.plain.append(list(row))

    def value(self, name: str) -> Any:
        if self.random.random() < 0.1:
            return None
        return self.random.choice(SKUS) if name == "sku" else self.random.randrange(40)

    def edit(self) -> None:
        """Makes a random edit on both tables: mostly a set of a number that is no key."""
        live = [place for place, row in enumerate(self.plain.rows) if row is not None]
        way, place = self.random.random(), self.random.choice(live)
        if way < 0.1:
            self.append(*map(self.value, KINDS))
        elif way < 0.15 and len(live) > 20:
            self.table.remove(place)
            self.plain.remove(place)
        elif way < 0.3:
            name = self.random.choice(list(KINDS))
            places, values = self.random.sample(live, 2), [self.value(name), self.value(name)]
            self.table.set_column(name, places, values)
            for one, value in zip(places, values):
                self.plain.set(one, name, value)
        elif way < 0.4:
            name, number = self.random.choice(["city", "quantity"]), self.random.randrange(9)
            self.table.set_column(name, array("I", [place]), array("q", [number]))
            self.plain.set(place, name, number)
        else:
            name = "quantity" if way < 0.8 else self.random.choice(list(KINDS))
            value = self.value(name)
            self.table.set(place, name, value)
            self.plain.set(place, name, value)

    def test_random_edits(self) -> None:
        for _ in range(60):
            self.append(*map(self.value, KINDS))
        watched = [self.table.watch(spec) for spec in SPECS]
        for step in range(3000):
            self.edit()
            if step % 50 == 0:
                self.table.unwatch(watched[0])
                watched.append(self.table.watch(watched.pop(0).spec))
            for one in self.random.sample(watched, 2):
                due = in_order(self.plain.answer(one.spec))
                ask = self.random.choice(["items", "keys", "values"])
                part = {"items": due, "keys": [k for k, _ in due], "values": [v for _, v in due]}
                self.assertEqual(getattr(one, ask)(), part[ask], (one.spec, ask))

    def test_a_key_in_the_place_of_another(self) -> None:
        edits: list[Callable[[fc.Table], Any]] = [
            lambda table: table.remove(0),
            lambda table: table.set(0, "sku", None),
            lambda table: table.set(0, "sku", "brioche"),
            lambda table: table.set(0, "quantity", None),
            lambda table: table.set(0, "quantity", fc.NA),
            lambda table: table.set(0, "city", 9),
            lambda table: table.set_column("quantity", [0], [None]),
            lambda table: table.set_column("city", array("I", [0]), array("q", [9])),
        ]
        for edit in edits:
            with fc.Table(KINDS, local="1MB") as table:
                sold = table.watch(fc.totals("quantity", by="sku", where=[("city", "<", 9)]))
                table.extend([("bread", 1, 5), ("rye", 1, 7)])
                self.assertEqual(sold.items(), [("bread", (1, 5)), ("rye", (1, 7))])
                edit(table)
                if "brioche" not in table["sku"].to_list():
                    table.append(("brioche", 1, 5))
                self.assertEqual(sold.items(), [("brioche", (1, 5)), ("rye", (1, 7))])

    def test_lines_that_are_equal_are_the_same_objects(self) -> None:
        self.table.extend((sku, 1, 5) for sku in SKUS)
        sold = self.table.watch(fc.totals("quantity", by="sku"))
        before = sold.items()
        self.table.set(0, "quantity", 7)
        after = sold.items()
        changed = [key for (key, _), was, now in zip(before, before, after) if was is not now]
        self.assertIn("sku0", changed)
        self.assertLessEqual(len(changed), 4)

    def test_the_list_is_the_callers(self) -> None:
        self.table.extend([("bread", 1, 5), ("rye", 1, 7)])
        sold = self.table.watch(fc.totals("quantity", by="sku"))
        sold.items().clear()
        self.table.set(0, "quantity", 6)
        sold.items().reverse()
        self.assertEqual(sold.items(), [("bread", (1, 6)), ("rye", (1, 7))])

    def test_more_lines_than_are_kept(self) -> None:
        sold = self.table.watch(fc.totals("quantity", by="city"))
        self.table.extend(("bread", city, 5) for city in range(30))
        with mock.patch.object(_lines, "MOST_KEPT", 35):
            for cities in (30, 40, 40, 36, 35, 35):
                while len(sold) < cities:
                    self.table.append(("rye", len(sold), 5))
                while len(sold) > cities:
                    self.table.remove(self.table.places - 1 - (40 - len(sold)))
                self.table.set(0, "quantity", cities)
                due = self.table.recount(sold)
                self.assertEqual(sold.values(), list(due.values()))
                self.assertEqual(sold.items(), list(due.items()))
                self.assertEqual(sold.keys(), list(due))
                self.assertEqual(len(sold._kept._pairs), cities if cities <= 35 else 0)

    def test_an_engine_that_asks_while_an_edit_waits(self) -> None:
        engine = Asking()
        with fc.Table(KINDS, local="1MB", far=engine) as table:
            sold = table.watch(fc.totals("quantity", by="sku"))
            table.extend([("bread", 1, 5), ("rye", 1, 7)])
            sold.items()
            table.evict()
            engine.ask = sold.items  # type: ignore[method-assign]
            table.set(0, "sku", "brioche")
            self.assertEqual(sold.items(), [("brioche", (1, 5)), ("rye", (1, 7))])
            table.evict()
            table.remove(1)
            table.append(("sage", 1, 7))
            self.assertEqual(sold.items(), [("brioche", (1, 5)), ("sage", (1, 7))])


if __name__ == "__main__":
    unittest.main()
