"""Random operations, each compared with a plain table of lists, also over faulty engines."""

from __future__ import annotations

import os
import random
import unittest
from array import array
from typing import Any

import fullercoral as fc

from .engines import Faulty
from .plain import PlainTable

KINDS = {"sku": str, "quantity": int, "price": int, "note": str}
TEXTS = ["", "bread", "rye", "oat", "brioche", "é", "日本", "a,b", 'he said "no"', "x" * 40]
SPECS = [
    fc.totals("quantity"),
    fc.totals("quantity", by="sku"),
    fc.totals("price", by="quantity", where=[("sku", "^=", "br")]),
    fc.extrema("price"),
    fc.extrema("quantity", by="note", where=[("price", ">", 0), ("price", "!=", 7)]),
    fc.extrema("quantity", by="price", where=[("note", "==", "rye"), ("quantity", "<=", 5)]),
]


class Run:
    """A run of random operations over a table and a plain one."""

    def __init__(self, test: unittest.TestCase, seed: int, chance: float, policy: Any) -> None:
        self.test = test
        self.random = random.Random(seed)
        self.engine = Faulty(seed, chance)
        limits = fc.Limits(group=16, int_segments=24, int_size=16, text_segments=8, text_size=4096)
        self.table = fc.Table(KINDS, far=self.engine, limits=limits, policy=policy)
        self.plain = PlainTable(KINDS)
        self.watched: list[fc.Watched[Any]] = []
        self.faults = self.away = self.done = 0

    def operations(self, count: int) -> None:
        names = [name for name in dir(self) if name.startswith("do_")]
        weights = [_WEIGHTS.get(name[3:], 1) for name in names]
        for name in self.random.choices(names, weights, k=count):
            try:
                getattr(self, name)()
                self.done += 1
            except fc.FarFault:
                self.faults += 1
            except (fc.errors.Absent, fc.errors.RegionFull, fc.errors.Building):
                if self.table.policy is not None:
                    raise
                self.away += 1

    def same(self, given: Any, due: Any) -> None:
        self.test.assertEqual(given, due)

    def value(self, name: str) -> Any:
        if self.random.random() < 0.1:
            return self.random.choice([None, fc.NA])
        if KINDS[name] is str:
            return self.random.choice(TEXTS)
        return self.random.choice(
            [0, 1, 5, 7, -3, 2**63 - 1, -(2**63), self.random.randrange(100)]
        )

    def row(self) -> list[Any]:
        return [self.value(name) for name in KINDS]

    def place(self) -> int:
        return self.random.randrange(len(self.plain.rows) + 2)

    def both(self, real: Any, plain: Any) -> None:
        """Makes a call on both tables; if the plain one refuses, the table must too."""
        try:
            due, error = plain(), None
        except fc.Refused as refused:
            due, error = None, refused
        if error is None:
            self.same(real(), due)
        else:
            with self.test.assertRaises(type(error)):
                real()

    # Edits: the plain table comes second, since the other may fail by its engine

    def do_append(self) -> None:
        if len(self.plain.rows) > 1500:
            return
        row = self.row()
        place = self.table.append(dict(zip(KINDS, row)) if self.random.random() < 0.2 else row)
        self.same(place, self.plain.append(_none(row)))

    def do_extend(self) -> None:
        if len(self.plain.rows) > 1500:
            return
        rows = [self.row() for _ in range(self.random.randrange(40))]
        columns = dict(zip(KINDS, map(list, zip(*rows)))) if rows else {name: [] for name in KINDS}
        before = len(self.plain.rows)
        try:
            places = self.table.extend_columns(columns)
        except fc.Refused as error:
            for row in rows[: error.inserted]:
                self.plain.append(_none(row))
            raise
        for row in rows:
            self.plain.append(_none(row))
        self.same(places, range(before, before + len(rows)))

    def do_set(self) -> None:
        place, name = self.place(), self.random.choice(list(KINDS))
        value = self.value(name)
        try:
            self.plain.row(place)
        except fc.Refused as error:
            with self.test.assertRaises(type(error)):
                self.table.set(place, name, value)
            return
        self.table.set(place, name, value)
        self.plain.set(place, name, _none([value])[0])

    def do_set_column(self) -> None:
        name, rows = self.random.choice(list(KINDS)), len(self.plain.rows)
        places = [self.place() for _ in range(self.random.randrange(30))]
        values = [self.value(name) for _ in places]
        given: tuple[Any, Any] = (
            [place - rows if place % 2 and place < rows else place for place in places],
            values,
        )
        if KINDS[name] is int and self.random.random() < 0.5:
            values = [value or 0 for value in values]
            given = array("I", places), array("q", values)
        due: type[fc.Refused] | None = None
        if any(place >= rows for place in places):
            due, many = fc.errors.NoRow, 0
        else:
            gone = [at for at, place in enumerate(places) if self.plain.rows[place] is None]
            due, many = (fc.errors.RemovedRow, gone[0]) if gone else (None, len(places))
        done = 0
        try:
            self.table.set_column(name, *given)
            done = len(places)
        except fc.Refused as error:
            done = error.cells_set or 0
            if due is None or not isinstance(error, due):
                raise
        finally:
            for place, value in zip(places[:done], _none(values)):
                self.plain.set(place, name, value)
        self.same(done, many)

    def do_remove(self) -> None:
        place = self.place()
        try:
            self.plain.row(place)
        except fc.Refused as error:
            with self.test.assertRaises(type(error)):
                self.table.remove(place)
            return
        self.table.remove(place)
        self.plain.remove(place)

    # Reading

    def do_row(self) -> None:
        place = self.place()
        self.both(lambda: tuple(self.table[place]), lambda: self.plain.row(place))

    def do_part(self) -> None:
        name = self.random.choice(list(KINDS))
        start, stop = sorted((self.place(), self.place()))
        part = self.table[name][start:stop]
        part = part if isinstance(part, list) else part.tolist()
        self.same(part, self.plain.part(name, start, stop))

    def do_count(self) -> None:
        self.same(len(self.table), len(self.plain.live()))
        self.same(self.table.places, len(self.plain.rows))

    def do_all_rows(self) -> None:
        self.same([tuple(row) for row in self.table], self.plain.live())

    # Aggregates

    def do_watch(self) -> None:
        if len(self.watched) < 6:
            self.watched.append(self.table.watch(self.random.choice(SPECS)))

    def do_unwatch(self) -> None:
        if len(self.watched) > 3:
            self.watched.pop(self.random.randrange(len(self.watched))).unwatch()

    def do_ask(self) -> None:
        if not self.watched:
            return
        watched = self.random.choice(self.watched)
        due = self.plain.answer(watched.spec)
        self.same(watched.to_dict(), due)
        if watched.spec.by is None:
            self.same(watched.value, due.get(None))
        else:
            for key in self.random.sample(list(due), min(3, len(due))):
                self.same(watched[key], due[key])
            self.same("none such" in watched, False)

    def do_recount(self) -> None:
        if self.watched:
            watched = self.random.choice(self.watched)
            self.same(self.table.recount(watched), self.plain.answer(watched.spec))

    # Movement

    def an_object(self) -> tuple[str, int]:
        groups = -(-len(self.plain.rows) // 16)
        return self.random.choice(list(KINDS)), self.random.randrange(groups + 1)

    def do_evict(self) -> None:
        try:
            self.table.evict(*self.an_object())
        except (fc.errors.OutOfRange, fc.errors.Absent):
            pass

    def do_fetch(self) -> None:
        try:
            self.table.fetch(*self.an_object())
        except (fc.errors.OutOfRange, fc.errors.StaleJob):
            pass

    def do_pin(self) -> None:
        try:
            with self.table.pin(*self.an_object()):
                self.do_ask()
                self.do_set()
        except fc.errors.OutOfRange:
            pass

    def do_evict_all(self) -> None:
        self.table.evict()

    def do_renew(self) -> None:
        chance, self.engine.chance = self.engine.chance, self.engine.chance / 50
        try:
            self.table._mover.renew()
        finally:
            self.engine.chance = chance


_WEIGHTS = {
    "append": 30, "extend": 8, "set": 40, "set_column": 8, "remove": 12, "row": 20, "part": 12,
    "ask": 12, "watch": 3, "evict": 12, "fetch": 10, "recount": 4, "all_rows": 2, "pin": 4,
}  # fmt: skip


def _none(row: list[Any]) -> list[Any]:
    return [None if value is fc.NA else value for value in row]


class RandomOperations(unittest.TestCase):
    """``FULLERCORAL_TIMES`` multiplies the number of operations."""

    def run_many(self, count: int, chance: float, policy: Any, seed: int) -> Run:
        count *= int(os.environ.get("FULLERCORAL_TIMES", "1"))
        run = Run(self, seed, chance, policy)
        with self.subTest(seed=seed):
            run.operations(count)
            run.engine.chance = 0
            for watched in run.watched if policy is not None else []:
                self.assertEqual(watched.to_dict(), run.plain.answer(watched.spec))
            if policy is not None:
                self.assertEqual([tuple(row) for row in run.table], run.plain.live())
        run.table.close()
        return run

    def test_a_sound_engine_and_the_policy(self) -> None:
        run = self.run_many(8000, 0.0, fc.Policy(), 1)
        self.assertEqual(run.faults, 0)
        self.assertEqual(run.done, 8000 * int(os.environ.get("FULLERCORAL_TIMES", "1")))

    def test_a_policy_without_prefetch(self) -> None:
        self.assertEqual(self.run_many(2000, 0.0, fc.Policy(prefetch=False), 2).faults, 0)

    def test_an_engine_that_lies_now_and_then(self) -> None:
        run = self.run_many(6000, 0.02, fc.Policy(), 3)
        self.assertGreater(run.faults, 10)
        self.assertGreater(run.engine.lies, 10)

    def test_an_engine_that_lies_all_the_time(self) -> None:
        self.assertGreater(self.run_many(2000, 0.5, fc.Policy(), 4).faults, 100)

    def test_no_policy(self) -> None:
        run = self.run_many(2000, 0.05, None, 5)
        self.assertGreater(run.away, 100)


if __name__ == "__main__":
    unittest.main()
