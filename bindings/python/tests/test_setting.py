"""Many cells of a column at once: all forms of places and values, refusals, and objects away."""

from __future__ import annotations

import random
import unittest
from array import array
from typing import Any

import fullercoral as fc
from fullercoral import errors

from .engines import Faulty
from .optional import numpy, pandas

KINDS = {"sku": str, "quantity": int}
SMALL = fc.Limits(group=16, int_segments=4, int_size=16, text_segments=4, text_size=1024)
ROWS = 10


class Case(unittest.TestCase):
    def setUp(self) -> None:
        self.table = fc.Table(KINDS, local="1MB")
        self.addCleanup(self.table.close)
        self.table.extend((f"sku{n}", n) for n in range(ROWS))

    def sets(self, places: Any, values: Any, due: dict[int, Any], column: str = "quantity") -> None:
        """Sets cells, checks that only the expected ones changed, and sets them back."""
        before = self.table[column].to_list()
        with self.subTest(places=type(places), values=type(values)):
            self.table.set_column(column, places, values)
            after = [due.get(place, value) for place, value in enumerate(before)]
            self.assertEqual(self.table[column].to_list(), after)
        self.table.set_column(column, range(ROWS), before)

    def refused(self, kind: type[fc.Refused], said: str, *arguments: Any) -> fc.Refused:
        with self.subTest(said=said), self.assertRaises(kind) as caught:
            self.table.set_column(*arguments)
        self.assertIn(said, str(caught.exception))
        return caught.exception

    def as_at_first(self) -> None:
        self.assertEqual(list(self.table), [(f"sku{n}", n) for n in range(ROWS)])


class Places(Case):
    def test_sequences(self) -> None:
        due = {7: 70, 2: 20}
        for places in ([7, 2], (7, 2), iter([7, 2]), [-3, -8], [-3, 2], array("q", [7, 2])):
            self.sets(places, [70, 20], due)
        for typecode in "IHbB":
            self.sets(array(typecode, [7, 2]), [70, 20], due)
        self.sets(memoryview(array("I", [7, 2])), [70, 20], due)
        self.sets(memoryview(array("I", [7, 0, 2]))[::2], [70, 20], due)
        self.sets(bytes([7, 2]), [70, 20], due)
        self.sets(range(7, 1, -5), [70, 20], due)
        self.sets(slice(2, 8, 5), [20, 70], due)
        self.sets(slice(None), range(90, 100), dict(zip(range(ROWS), range(90, 100))))
        self.sets([], [], {})
        self.sets(slice(5, 2), [], {})

    def test_masks(self) -> None:
        mask = [place in (2, 7) for place in range(ROWS)]
        self.sets(mask, [20, 70], {7: 70, 2: 20})
        self.sets(tuple(mask), 5, {7: 5, 2: 5})
        self.refused(errors.BadArgument, "2 flags, but the table has 10", "quantity", mask[:2], 5)
        self.refused(errors.BadArgument, "True and False, not 7", "quantity", [*mask[:-1], 7], 5)

    def test_the_last_of_a_place_counts(self) -> None:
        self.sets([3, 3, 3], [1, None, 33], {3: 33})

    def test_a_mapping_has_both(self) -> None:
        self.table.set_column("sku", {7: "seven", -1: None})
        self.assertEqual(self.table["sku"][7:], ["seven", "sku8", None])
        self.refused(errors.BadArgument, "a mapping or a Series", "quantity", [1, 2])

    def test_places_that_are_none(self) -> None:
        for place in (10, -11, 2**32, 2**70, -(2**70)):
            error = self.refused(errors.NoRow, "the last one is 9", "quantity", [1, place], [5, 5])
            self.assertEqual((error.place, error.cells_set), (place, None))
        self.refused(errors.BadArgument, "not 'x'", "quantity", ["x"], [5])
        self.refused(errors.BadArgument, "not 1.5", "quantity", [1, 1.5], [5, 5])
        self.refused(errors.BadArgument, "not None", "quantity", [None], [5])
        self.as_at_first()


class Values(Case):
    def test_numbers(self) -> None:
        ends = [2**63 - 1, -(2**63)]
        self.sets([0, 9], ends, dict(zip([0, 9], ends)))
        self.sets([0, 9], array("q", ends), dict(zip([0, 9], ends)))
        self.sets([0, 9], [None, fc.NA], {0: None, 9: None})
        self.sets([0, 9], (value for value in (5, None)), {0: 5, 9: None})

    def test_texts(self) -> None:
        self.sets([0, 9, 4], ["", "é", "x" * 4096], {0: "", 9: "é", 4: "x" * 4096}, "sku")
        self.sets([0, 9], [None, "日本"], {0: None, 9: "日本"}, "sku")

    def test_one_value_for_all(self) -> None:
        self.sets([0, 9], 7, {0: 7, 9: 7})
        self.sets([0, 9], None, {0: None, 9: None})
        self.sets(slice(0, 9), fc.NA, dict.fromkeys(range(9)))
        self.sets([0, 9], "日本", {0: "日本", 9: "日本"}, "sku")
        self.sets([0, 9], None, {0: None, 9: None}, "sku")
        self.sets([], 7, {})

    def test_many_with_missing_ones_between(self) -> None:
        draw = random.Random(7)
        self.table.extend((f"sku{n}", n) for n in range(ROWS, 30_000))
        places = draw.sample(range(30_000), 20_003)
        numbers = [draw.choice([None, draw.randrange(10**6)]) for _ in places]
        texts = [draw.choice([None, "", f"text {n % 97}", "é"]) for n in places]
        sold = self.table.watch(fc.totals("quantity", by="sku"))
        sold.items()
        for column, values in (("quantity", numbers), ("sku", texts)):
            due: list[Any] = self.table[column].to_list()
            self.table.set_column(column, places, values)
            for place, value in zip(places, values):
                due[place] = value
            self.assertEqual(self.table[column].to_list(), due)
            self.assertEqual(sold.to_dict(), self.table.recount(sold))

    def test_what_does_not_fit_is_named_and_nothing_is_set(self) -> None:
        def refused(kind: type[fc.Refused], said: str, *arguments: Any) -> None:
            error = self.refused(kind, said, *arguments)
            self.assertEqual((error.place, error.cells_set), (4, None))

        wrong, places = errors.WrongKind, [0, 4]
        refused(wrong, "quantity holds whole numbers of 64 bits, not 'x' for place 4",
                "quantity", places, [1, "x"])  # fmt: skip
        refused(wrong, "1.5 for place 4", "quantity", places, [None, 1.5])
        refused(wrong, f"{2**63} for place 4", "quantity", [-10, -6], [1, 2**63])
        refused(wrong, "column sku holds texts, not 5 for place 4", "sku", places, ["x", 5])
        refused(wrong, "b'x' for place 4", "sku", places, [None, b"x"])
        refused(errors.NoUtf8, "for place 4 holds half", "sku", places, ["x", "\ud800"])
        self.refused(wrong, "not 'x'", "quantity", places, "x")
        self.refused(wrong, "not 1.5", "quantity", places, 1.5)
        self.refused(wrong, "not 5", "sku", places, 5)
        self.refused(errors.NoColumn, "no column 'prize'", "prize", places, 5)
        self.as_at_first()

    def test_as_many_values_as_places(self) -> None:
        for values in ([], [1], [1, 2, 3], array("q", [1, 2, 3]), (1,)):
            said = f"there are {len(values)} values for 2 places of column quantity"
            self.refused(errors.BadArgument, said, "quantity", [0, 1], values)
        self.refused(errors.BadArgument, "1 values", "sku", slice(0, 2), ["x"])
        self.as_at_first()


class Refusals(Case):
    def ended(self, kind: type[fc.Refused], said: str, *arguments: Any) -> None:
        error = self.refused(kind, said, *arguments)
        self.assertIn("; 2 cells were set before", str(error))
        self.assertEqual((error.cells_set, error.place, error.inserted), (2, 4, None))

    def test_those_before_stay(self) -> None:
        table, places = self.table, [1, 2, 4, 5]
        self.ended(errors.TextTooLong, "for place 4 of column sku has 4,097 characters",
                   "sku", places, ["a", "b", "x" * 4097, "c"])  # fmt: skip
        self.assertEqual(table["sku"][1:6], ["a", "b", "sku3", "sku4", "sku5"])
        table.remove(4)
        self.ended(errors.RemovedRow, "the row of place 4 was removed", "quantity", places, 70)
        self.assertEqual(table["quantity"].to_list()[1:6], [70, 70, 3, None, 5])
        sold = table.watch(fc.totals("quantity"))
        self.assertEqual(sold.sum, sum(range(ROWS)) - 4 - 3 + 140)

    def test_too_many_bytes_of_few_characters(self) -> None:
        self.ended(errors.TextTooLong, "2,049 characters, which take more than 4,096 bytes",
                   "sku", [1, 2, 4], ["a", "b", "é" * 2049])  # fmt: skip

    def test_the_limit_of_edits(self) -> None:
        limits = fc.Limits(16, 4, 16, 4, 1024, edits=12)
        with fc.Table(KINDS, limits=limits) as table:
            table.extend((f"sku{n}", n) for n in range(ROWS))
            with self.assertRaises(errors.EditsUsedUp) as caught:
                table.set_column("quantity", slice(None), 7)
            self.assertEqual((caught.exception.cells_set, caught.exception.place), (2, 2))
            self.assertEqual(table["quantity"].to_list(), [7, 7, *range(2, ROWS)])

    def test_texts_that_fit_no_segment(self) -> None:
        with fc.Table(KINDS, limits=SMALL) as table:
            table.extend((f"sku{n}", n) for n in range(16))
            with self.assertRaises(errors.ChunkFull) as caught:
                table.set_column("sku", range(16), "x" * 300)
            done = caught.exception.cells_set
            self.assertTrue(0 < done < 16)
            self.assertEqual(table["sku"][done - 1 : done + 1], ["x" * 300, f"sku{done}"])

    def test_a_closed_table(self) -> None:
        self.table.close()
        for places in ([0], []):
            self.refused(errors.Closed, "closed", "quantity", places, 7)


class Arrays(Case):
    """Places and numbers as arrays, which the library reads without a copy."""

    def arrays(self, places: Any, values: Any) -> tuple[Any, Any]:
        return array("I", places), array("q", values)

    def test_all_are_set_in_order(self) -> None:
        sold = self.table.watch(fc.totals("quantity", by="sku"))
        for places in ([], [7], [7, 2], [3, 3, 3], [9, 0, 9, 0]):
            values = range(70, 70 + len(places))
            self.sets(*self.arrays(places, values), dict(zip(places, values)))
            self.assertEqual(sold.to_dict(), self.table.recount(sold))

    def test_many(self) -> None:
        """So many rows that the library reads ahead what it sets."""
        table = fc.Table(KINDS, local="16MB")
        self.addCleanup(table.close)
        table.extend((f"sku{n}", n) for n in range(70_000))
        sold = table.watch(fc.totals("quantity", by="sku"))
        draw, due = random.Random(9), list(range(70_000))
        for _ in range(3):
            places = [draw.randrange(70_000) for _ in range(20_001)]
            values = [draw.randrange(-(2**63), 2**63) for _ in places]
            table.set_column("quantity", *self.arrays(places, values))
            for place, value in zip(places, values):
                due[place] = value
            self.assertEqual(table["quantity"].to_list(), due)
            self.assertEqual(sold.to_dict(), table.recount(sold))

    def test_an_answer_of_before_is_not_shown_again(self) -> None:
        sold = self.table.watch(fc.totals("quantity", by="sku"))
        for value in (7, 8):
            self.table.set_column("quantity", *self.arrays([3], [value]))
            self.assertEqual((dict(sold.items())["sku3"].sum, sold["sku3"].sum), (value, value))

    def test_nothing_is_set_if_one_does_not_fit(self) -> None:
        for place in (10, 2**24, 2**32 - 1):
            arguments = self.arrays([1, place, 2], [5, 5, 5])
            error = self.refused(errors.NoRow, "the last one is 9", "quantity", *arguments)
            self.assertEqual((error.place, error.cells_set), (place, None))
        uneven = self.arrays([1, 2], [5])
        self.refused(errors.BadArgument, "there are 1 values for 2", "quantity", *uneven)
        self.refused(errors.WrongKind, "5 for place 1", "sku", *self.arrays([1, 2], [5, 5]))
        self.refused(errors.NoColumn, "no column 'prize'", "prize", *self.arrays([1], [5]))
        self.as_at_first()
        self.table.close()
        for places in ([], [0]):
            self.refused(errors.Closed, "closed", "quantity", *self.arrays(places, places))

    def test_those_before_a_removed_row_stay(self) -> None:
        self.table.remove(4)
        arguments = self.arrays([1, 2, 4, 5, 1], [71, 72, 74, 75, 76])
        error = self.refused(errors.RemovedRow, "the row of place 4", "quantity", *arguments)
        self.assertEqual((error.cells_set, error.place), (2, 4))
        self.assertEqual(self.table["quantity"].to_list()[:6], [0, 71, 72, 3, None, 5])

    def test_the_limit_of_edits(self) -> None:
        limits = fc.Limits(16, 4, 16, 4, 1024, edits=12)
        with fc.Table(KINDS, limits=limits) as table:
            table.extend((f"sku{n}", n) for n in range(ROWS))
            with self.assertRaises(errors.EditsUsedUp) as caught:
                table.set_column("quantity", *self.arrays([5, 6, 7], [70, 71, 72]))
            self.assertEqual((caught.exception.cells_set, caught.exception.place), (2, 7))
            self.assertEqual(table["quantity"].to_list()[5:8], [70, 71, 7])

    def test_they_keep_their_length_meanwhile(self) -> None:
        places, values = self.arrays([1, 2], [71, 72])
        self.table.set_column("quantity", places, values)
        places.append(3)
        values.append(73)
        self.table.set_column("quantity", places, values)
        self.assertEqual(self.table["quantity"].to_list()[1:5], [71, 72, 73, 4])


class Away(unittest.TestCase):
    def filled(self, rows: int = 400, **options: Any) -> fc.Table:
        table = fc.Table(KINDS, limits=SMALL, **options)
        self.addCleanup(table.close)
        table.extend((f"sku{n % 5}", n) for n in range(rows))
        return table

    def test_the_policy_fetches_and_evicts_on_the_way(self) -> None:
        table, draw = self.filled(), random.Random(3)
        sold = table.watch(fc.totals("quantity", by="sku"))
        sold.items()
        places = [draw.randrange(400) for _ in range(1000)]
        values = [draw.randrange(1000) for _ in places]
        due = list(range(400))
        for order in (sorted(range(1000), key=lambda at: places[at]), range(1000)):
            fetches = table.stats().moved.fetches
            table.set_column("quantity", [places[at] for at in order], [values[at] for at in order])
            for at in order:
                due[places[at]] = values[at]
            self.assertEqual(table["quantity"].to_list(), due)
            self.assertEqual(sold.to_dict(), table.recount(sold))
            self.assertGreater(table.stats().moved.fetches, fetches + 20)
        self.assertEqual(table.map().counts()["pinned"], 0)
        table.set_column("sku", range(400), "rye")
        self.assertEqual(sold.to_dict(), {"rye": fc.Total(400, sum(due))})

    def test_an_object_that_is_away_ends_it_without_policy(self) -> None:
        table = self.filled(48, policy=None)
        table.evict("sku", 1)
        with self.assertRaises(errors.Absent) as caught:
            table.set_column("quantity", [0, 1, 17, 2], [70, 71, 72, 73])
        error = caught.exception
        self.assertEqual((error.column, error.group, error.place), ("sku", 1, 17))
        self.assertIn("column sku is away in row group 1", str(error))
        self.assertIn("2 cells were set before", str(error))
        self.assertEqual(table["quantity"].to_list()[:3], [70, 71, 2])
        table.fetch("sku", 1)
        table.set_column("quantity", [17, 2], [72, 73])
        self.assertEqual(table["quantity"].to_list()[17], 72)

    def test_chunks_that_are_away_in_the_middle_of_arrays(self) -> None:
        engine = Faulty(1, 0.0)
        table = self.filled(48, far=engine)
        sold = table.watch(fc.totals("quantity", by="sku"))
        self.assertEqual(sold["sku0"].count, 10)
        places, values = array("I", [0, 17, 1, 33, 17, 2]), array("q", range(70, 76))
        due = list(range(48))
        for place, value in zip(places, values):
            due[place] = value
        for column, group in (("sku", 1), ("quantity", 1), ("quantity", 2)):
            table.evict(column, group)
        table.set_column("quantity", places, values)
        self.assertEqual(table.stats().moved.retries, 3)
        self.assertEqual(table["quantity"].to_list(), due)
        self.assertEqual(sold.to_dict(), table.recount(sold))
        table.evict("quantity", 2)
        engine.chance = 1.0
        with self.assertRaises(fc.FarFault) as caught:
            table.set_column("quantity", places, array("q", [80] * 6))
        self.assertEqual(caught.exception.cells_set, 3)
        engine.chance = 0.0
        due[0] = due[17] = due[1] = 80
        self.assertEqual(table["quantity"].to_list(), due)
        self.assertEqual(sold["sku1"].sum, sum(due[1::5]))

    def test_arrays_without_policy(self) -> None:
        table = self.filled(48, policy=None)
        table.evict("sku", 1)
        with self.assertRaises(errors.Absent) as caught:
            table.set_column("quantity", array("I", [0, 1, 17, 2]), array("q", [70, 71, 72, 73]))
        self.assertEqual((caught.exception.place, caught.exception.cells_set), (17, 2))
        self.assertEqual(table["quantity"].to_list()[:3], [70, 71, 2])

    def test_an_engine_that_fails_ends_it_and_nothing_is_lost(self) -> None:
        engine = Faulty(1, 0.0)
        table = self.filled(48, far=engine)
        table.evict("quantity", 1)
        engine.chance = 1.0
        with self.assertRaises(fc.FarFault) as caught:
            table.set_column("quantity", [0, 17], [70, 72])
        self.assertEqual(caught.exception.cells_set, 1)
        engine.chance = 0.0
        table.set_column("quantity", [17], [72])
        self.assertEqual(table["quantity"].to_list(), [70, *range(1, 17), 72, *range(18, 48)])


class Assignment(Case):
    def test_as_numpy_has_it(self) -> None:
        quantity, sku = self.table["quantity"], self.table["sku"]
        quantity[0] = 70
        quantity[-1] = None
        quantity[1:3] = [71, 72]
        quantity[[4, 3]] = (74, 73)
        quantity[5:9:2] = 0
        sku[8:] = "end"
        sku[[place == 7 for place in range(ROWS)]] = ["seven"]
        self.assertEqual(quantity.to_list(), [70, 71, 72, 73, 74, 0, 6, 0, 8, None])
        self.assertEqual(sku[6:], ["sku6", "seven", "end", "end"])
        with self.assertRaises(errors.NoRow):
            quantity[10] = 7
        with self.assertRaises(errors.BadArgument):
            quantity[0:3] = [1, 2]

    def test_places_that_can_be_set_can_be_read(self) -> None:
        table = self.table
        table.set(7, "quantity", None)
        table.remove(4)
        mask = [place in (2, 7) for place in range(ROWS)]
        for places, due in (
            ([7, 2, -1, 2], [7, 2, 9, 2]),
            (array("I", [3, 4]), [3, 4]),
            (mask, [2, 7]),
            (range(9, 0, -4), [9, 5, 1]),
            ([], []),
        ):
            numbers, texts = table["quantity"][places], table["sku"][places]
            self.assertEqual(list(texts), [None if n == 4 else f"sku{n}" for n in due])
            numbers = numbers if isinstance(numbers, list) else numbers.tolist()
            self.assertEqual(numbers, [None if n in (4, 7) else n for n in due])
        for wrong, kind in (([10], errors.NoRow), (["x"], errors.BadArgument), ("x", TypeError)):
            with self.assertRaises(kind):
                table["quantity"][wrong]

    def test_places_of_many_row_groups_are_read(self) -> None:
        with fc.Table(KINDS, limits=SMALL) as table:
            table.extend((f"sku{n}", n) for n in range(400))
            places = random.Random(2).choices(range(400), k=300)
            self.assertEqual(list(table["quantity"][places]), places)
            self.assertEqual(table["sku"][places], [f"sku{n}" for n in places])

    @unittest.skipUnless(numpy, "skipped: numpy is not installed")
    def test_in_place(self) -> None:
        part = self.table["quantity"][numpy.array([3, -1])]
        self.assertEqual((part.tolist(), part.dtype), ([3, 9], numpy.int64))
        self.assertEqual(self.table["quantity"][numpy.arange(ROWS) > 7].tolist(), [8, 9])
        self.table["quantity"][2:5] *= 10
        self.table["quantity"][numpy.array([0, 9])] = numpy.array([5, 6])
        self.assertEqual(self.table["quantity"].to_list(), [5, 1, 20, 30, 40, 5, 6, 7, 8, 6])


@unittest.skipUnless(numpy, "skipped: numpy is not installed")
class Numpy(Case):
    def test_places(self) -> None:
        due = {7: 70, 2: 20}
        for kind in ("int64", "uint32", "uint64", "int8", "uint8", ">i4", object):
            self.sets(numpy.array([7, 2], dtype=kind), [70, 20], due)
        self.sets(numpy.array([-3, 2]), [70, 20], due)
        self.sets(numpy.array([7, 0, 2, 0])[::2], [70, 20], due)
        self.sets(numpy.array([], dtype="int64"), [], {})
        mask = numpy.zeros(ROWS, dtype=bool)
        mask[[2, 7]] = True
        self.sets(mask, [20, 70], due)
        self.refused(errors.BadArgument, "9 flags", "quantity", mask[:9], 5)
        self.refused(errors.BadArgument, "array of 1", "quantity", numpy.zeros((1, 1), int), 5)
        self.refused(errors.BadArgument, "not 1.5", "quantity", numpy.array([1.5]), 5)
        for place, kind in ((10, "int64"), (-11, "int8"), (2**64 - 1, "uint64"), (200, "uint8")):
            places = numpy.array([0, place], dtype=kind)
            error = self.refused(errors.NoRow, "the last one is 9", "quantity", places, 5)
            self.assertEqual(error.place, place)
        self.as_at_first()

    def test_values(self) -> None:
        due = {7: 70, 2: None}
        self.sets([7, 2], numpy.ma.array([70, 1], mask=[False, True]), due)
        self.sets([7, 2], numpy.array([70, numpy.nan]), due)
        self.sets([7, 2], numpy.array([70, 20], dtype="uint16"), {7: 70, 2: 20})
        self.sets([7, 2], numpy.int32(5), {7: 5, 2: 5})
        self.sets([7, 2], numpy.array(["a", "é"]), {7: "a", 2: "é"}, "sku")
        for values in (numpy.array([1, 1.5]), numpy.array([1, 2**63], dtype="uint64")):
            error = self.refused(errors.WrongKind, "for place 2", "quantity", [7, 2], values)
            self.assertEqual(error.place, 2)
        self.as_at_first()

    def test_a_place_of_numpy(self) -> None:
        table, place = self.table, numpy.int64(3)
        table.set(place, "quantity", 33)
        table.set(place, "sku", None)
        self.assertEqual((table[place], table["quantity"][place]), ((None, 33), 33))
        table["quantity"][place] = 34
        self.assertTrue(table.is_alive(place))
        table.remove(place)
        self.assertFalse(table.is_alive(place))


@unittest.skipUnless(pandas, "skipped: pandas is not installed")
class Pandas(Case):
    def test_series(self) -> None:
        due = {7: 70, 2: None}
        self.sets(pandas.Series([7, 2]), pandas.Series([70, None], dtype="Int64"), due)
        self.sets(pandas.Index([7, 2]), pandas.Series([70, None]), due)
        mask = pandas.Series(range(ROWS)).isin([2, 7])
        self.sets(mask, [20, 70], {2: 20, 7: 70})
        self.sets(mask.astype("boolean"), [20, 70], {2: 20, 7: 70})
        self.sets([7, 2], pandas.Series(["a", None]), {7: "a", 2: None}, "sku")

    def test_a_frame_goes_back_where_it_came_from(self) -> None:
        self.table.remove(4)
        frame = self.table.to_pandas()
        sold = frame[frame.quantity > 5].quantity * 10
        self.table.set_column("quantity", sold)
        self.assertEqual(list(self.table["quantity"]), [0, 1, 2, 3, 5, 60, 70, 80, 90])


if __name__ == "__main__":
    unittest.main()
