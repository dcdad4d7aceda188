"""The table: rows, cells, columns, and refusals."""

from __future__ import annotations

import copy
import gc
import pickle
import tempfile
import threading
import unittest
from pathlib import Path
from typing import Any, Iterator
from unittest import mock

import fullercoral as fc
from fullercoral import errors

COLUMNS = {"sku": str, "quantity": int}


class Case(unittest.TestCase):
    def setUp(self) -> None:
        self.table = fc.Table(COLUMNS, local="1MB")
        self.addCleanup(self.table.close)


class Rows(Case):
    def test_a_row_is_read_as_it_was_appended(self) -> None:
        table = self.table
        self.assertEqual(table.append(("bread", 5)), 0)
        self.assertEqual(table.append(["", -(2**63)]), 1)
        self.assertEqual(table.append({"quantity": 2**63 - 1, "sku": "日本"}), 2)
        self.assertEqual(table[0], ("bread", 5))
        self.assertEqual((table[1].sku, table[-1].quantity), ("", 2**63 - 1))
        self.assertEqual(repr(table[0]), "Row(sku='bread', quantity=5)")

    def test_names_that_are_not_identifiers(self) -> None:
        with fc.Table({"Order ID": int, "class": str, "n": int}, local="1MB") as table:
            table.append({"n": 3, "Order ID": 7, "class": "x"})
            for row in (table[0], *table, *table.head(1)):
                self.assertEqual(row._asdict(), {"Order ID": 7, "class": "x", "n": 3})
                self.assertEqual((row, row.n, row._0), ((7, "x", 3), 3, 7))
            self.assertEqual(repr(table[0]), "Row({'Order ID': 7, 'class': 'x', 'n': 3})")
            self.assertEqual(table["Order ID"][0], 7)

    def test_missing_cells(self) -> None:
        table = self.table
        table.extend([(None, None), ("bread", fc.NA), (fc.NA, 5)])
        self.assertEqual(list(table), [(None, None), ("bread", None), (None, 5)])
        table.set(0, "sku", "rye")
        table.set(2, "quantity", None)
        table.append(("oat", 1))
        self.assertEqual(list(table), [("rye", None), ("bread", None), (None, None), ("oat", 1)])

    def test_texts_of_every_kind(self) -> None:
        texts = ["", "\0", "a\0b", "é", "日本語", "👩‍🍳", "x" * 4096, "\n", '"']
        self.table.extend((text, at) for at, text in enumerate(texts))
        self.assertEqual(self.table["sku"][:], texts)
        self.assertEqual([row.sku for row in self.table], texts)
        for place, text in enumerate(reversed(texts)):
            self.table.set(place, "sku", text)
        self.assertEqual(self.table["sku"][:], texts[::-1])

    def test_removed_rows_keep_their_places(self) -> None:
        table = self.table
        table.extend([("bread", 5), ("rye", 3), ("oat", 1)])
        del table[1]
        self.assertEqual((len(table), table.places), (2, 3))
        self.assertEqual(list(table), [("bread", 5), ("oat", 1)])
        self.assertEqual(table["quantity"].to_list(), [5, None, 1])
        self.assertEqual(list(table["quantity"]), [5, 1])
        self.assertEqual([table.is_alive(place) for place in range(3)], [True, False, True])
        for refused in (
            lambda: table[1],
            lambda: table.set(1, "sku", "x"),
            lambda: table.remove(1),
        ):
            with self.assertRaises(errors.RemovedRow):
                refused()
        self.assertEqual(table.append(("cake", 9)), 3)

    def test_negative_places_and_slices(self) -> None:
        table = self.table
        table.extend((f"sku{n}", n) for n in range(10))
        table.set(-1, "quantity", 90)
        table.remove(-2)
        self.assertEqual(table[-1], ("sku9", 90))
        self.assertEqual(table["quantity"][-1], 90)
        self.assertEqual(table[7:], [("sku7", 7), ("sku9", 90)])
        self.assertEqual(table["sku"][2:5], ["sku2", "sku3", "sku4"])
        self.assertEqual(table["sku"][5:2], [])
        self.assertEqual(table["sku"][4:1:-1], ["sku4", "sku3", "sku2"])
        self.assertEqual(table["sku"][::4], ["sku0", "sku4", None])
        self.assertEqual(table["sku"][100:200], [])
        for place in (10, -11, 2**40):
            with self.assertRaises(IndexError):
                table[place]
            with self.assertRaises(IndexError):
                table["quantity"][place]

    def test_what_is_in_a_table(self) -> None:
        self.table.append(("bread", 5))
        self.assertEqual((self.table.shape, self.table.dtypes), ((1, 2), COLUMNS))
        there = [item in self.table for item in ("sku", "prize", ("bread", 5), ("bread", 6))]
        self.assertEqual(there, [True, False, True, False])

    def test_batches(self) -> None:
        table = self.table
        table.extend((f"sku{n}", n) for n in range(1000))
        for place in range(0, 1000, 2):
            table.remove(place)
        batches = list(table.batches(300))
        self.assertEqual([len(batch.places) for batch in batches], [150, 150, 150, 50])
        self.assertEqual(sum(sum(batch["quantity"]) for batch in batches), sum(range(1, 1000, 2)))
        self.assertEqual(list(batches[0].rows())[0], ("sku1", 1))
        self.assertEqual(table.head(2), [("sku1", 1), ("sku3", 3)])
        self.assertEqual(table.tail(2), [("sku997", 997), ("sku999", 999)])

    def test_extend_counts_the_rows_inserted_before_a_refusal(self) -> None:
        table = self.table
        with self.assertRaises(errors.TextTooLong) as caught:
            table.extend([("bread", 5), ("rye", 3), ("x" * 4097, 1), ("oat", 1)])
        self.assertEqual((caught.exception.inserted, len(table)), (2, 2))
        with self.assertRaises(errors.RowWidth) as width:
            table.extend([("bread", 5), ("rye",)])
        self.assertEqual((width.exception.inserted, len(table)), (1, 3))
        for rows, kind in (
            ([("oat", 5), ("rye", "x"), (5, 5)], errors.WrongKind),
            ([("oat", 5), (5, 5), ("rye", "x")], errors.WrongKind),
            ([("oat", 5), ("\udfff", 5), ("rye",)], errors.NoUtf8),
            ([{"sku": "oat", "quantity": 5}, {"sku": "rye"}], errors.RowWidth),
            ([("oat", 5), 5], errors.WrongKind),
        ):
            before = len(table)
            with self.subTest(rows=rows), self.assertRaises(kind) as caught:
                table.extend(rows)
            self.assertIn("; 1 row was inserted before", str(caught.exception))
            self.assertEqual((len(table), table[-1]), (before + 1, ("oat", 5)))
        self.assertEqual(table.extend([]), range(8, 8))
        self.assertEqual(table.extend(iter([("cake", 1)])), range(8, 9))

    def test_rows_before_an_exception_of_their_own_stay(self) -> None:
        def rows(last: object) -> Iterator[Any]:
            yield "bread", 5
            yield last
            raise RuntimeError("no more")

        with self.assertRaisesRegex(RuntimeError, "no more"):
            self.table.extend(rows(("rye", 3)))
        self.assertEqual(list(self.table), [("bread", 5), ("rye", 3)])
        with self.assertRaises(errors.WrongKind) as caught:
            self.table.extend(rows(("rye", "x")))
        self.assertEqual((caught.exception.inserted, len(self.table)), (1, 3))


class Refusals(Case):
    def refused(self, kind: type[Exception], said: str, call: Any) -> None:
        with self.subTest(said=said), self.assertRaises(kind) as caught:
            call()
        self.assertIn(said, str(caught.exception))

    def test_each_refusal_names_its_cause(self) -> None:
        table = self.table
        table.append(("bread", 5))
        self.refused(
            errors.NoColumn,
            "no column 'prize'; the columns are sku, quantity [4]",
            lambda: table.set(0, "prize", 1),
        )
        self.refused(errors.NoColumn, "no column 'prize'", lambda: table["prize"])
        self.refused(
            errors.WrongKind,
            "column sku holds texts, not 5 [5]",
            lambda: table.set(0, "sku", 5),
        )
        self.refused(
            errors.WrongKind,
            "quantity holds whole numbers of 64 bits, not 'x'",
            lambda: table.append(("bread", "x")),
        )
        self.refused(errors.WrongKind, "1.5", lambda: table.set(0, "quantity", 1.5))
        self.refused(errors.WrongKind, f"not {2**63}", lambda: table.set(0, "quantity", 2**63))
        self.refused(errors.WrongKind, "not b'bread'", lambda: table.append((b"bread", 1)))
        self.refused(errors.RowWidth, "but the table has 2", lambda: table.append((1, 2, 3)))
        self.refused(errors.RowWidth, "the row lacks sku", lambda: table.append({"quantity": 1}))
        self.refused(errors.NoColumn, "prize", lambda: table.append({"prize": 1}))
        long = "a text for column sku has more than 4,096 bytes"
        for call in (
            lambda: table.set(0, "sku", "x" * 4097),
            lambda: table.append(("é" * 2049, 1)),
            lambda: table.append(("é" * 2049, None)),
            lambda: table.extend_columns(sku=["x" * 4097], quantity=[None]),
        ):
            self.refused(errors.TextTooLong, long, call)
        self.refused(errors.NoUtf8, "surrogate", lambda: table.set(0, "sku", "\ud800"))
        self.refused(errors.NoUtf8, "surrogate", lambda: table.append(("\udfff", 1)))
        self.refused(errors.NoRow, "no place 7; the last one is 0 [8]", lambda: table[7])
        self.refused(errors.StaleJob, "[20]", lambda: table.fetch("sku", 0))
        self.assertEqual(list(table), [("bread", 5)])
        table.set(0, "quantity", 6)
        self.assertEqual(list(table), [("bread", 6)])

    def test_what_pandas_has_and_a_column_has_not(self) -> None:
        column: Any = self.table["quantity"]
        asked = r"a column has no max: ask table.watch\(fc.extrema\('quantity'\)\).max"
        with self.assertRaisesRegex(AttributeError, asked):
            column.max()
        with self.assertRaisesRegex(AttributeError, "^a column has no describe$"):
            column.describe()

    def test_row_groups_that_do_not_exist(self) -> None:
        table = self.table
        self.refused(errors.OutOfRange, "it has none yet", lambda: table.evict("sku", 0))
        table.append(("bread", 5))
        said = "the table has no row group 1; row groups are 0 to 0 [14]"
        for call in (table.evict, table.fetch, table.pin):
            self.refused(errors.OutOfRange, said, lambda: call("sku", 1))  # noqa: B023
        self.refused(errors.OutOfRange, "no row group 'x'", lambda: table.evict("sku", "x"))

    def test_arguments_of_wrong_types(self) -> None:
        table = self.table
        table.append(("bread", 5))
        sold = table.watch(fc.totals("quantity"))
        for kind, said, call in (
            (TypeError, "watch takes fc.totals(..) or", lambda: table.watch("quantity")),
            (TypeError, "aggregate that watch returned, not 'x'", lambda: table.recount("x")),
            (TypeError, "that watch returned", lambda: table.build(5)),
            (TypeError, "that watch returned", lambda: table.unwatch(None)),
            (TypeError, "not 'quantity': table[place]", lambda: table.set("quantity", 0, 1)),
            (TypeError, "not 1.5: table[place]", lambda: table.set(0.0 + 1.5, "sku", "x")),
            (TypeError, "not 0.0: table[place]", lambda: table.set(0.0, "sku", "x")),
            (TypeError, "not None", lambda: table[None]),
            (TypeError, "a row is a list, a tuple or a dict", lambda: table.append(5)),
            (TypeError, "of cells, not 0", lambda: table.extend(n for n in range(3))),
            (ValueError, "at least 1 place, and size is 0", lambda: list(table.batches(size=0))),
            (ValueError, "extend_columns takes a dict", lambda: table.extend({"sku": ["x"]})),
            (TypeError, "table['sku'][:] = values", lambda: table.__setitem__("sku", "x")),
            (KeyError, "no column 'prize'", lambda: table.__setitem__("prize", 5)),
            (TypeError, "table.set(place, column, value)", lambda: table.__setitem__(0, ("x", 1))),
            (ValueError, "as {'quantity': int}, not 'a'", lambda: fc.Table(["a", "b"])),
        ):
            self.refused(kind, said, call)
        self.assertEqual((list(table), sold.sum), ([("bread", 5)], 5))
        with mock.patch.dict("sys.modules", pandas=None):
            self.refused(ImportError, "to_pandas needs pandas", table.to_pandas)
            self.refused(ImportError, "to_pandas needs pandas", sold.to_pandas)

    def test_they_are_pythons_exceptions_too(self) -> None:
        kinds = {
            errors.NoColumn: KeyError,
            errors.WrongKind: TypeError,
            errors.NoRow: IndexError,
            errors.NoMemory: MemoryError,
            errors.FarFault: OSError,
            errors.RowWidth: ValueError,
            errors.EngineError: errors.FarFault,
        }
        for kind, built_in in kinds.items():
            self.assertTrue(issubclass(kind, built_in) and issubclass(kind, fc.Refused))

    def test_they_can_be_pickled(self) -> None:
        error = errors.Absent(column="sku", group=3)
        again = pickle.loads(pickle.dumps(error))
        self.assertEqual((str(again), again.group), (str(error), 3))

    def test_schemas(self) -> None:
        for columns, said in (
            ({}, "1 to 16 columns"),
            ({f"c{n}": int for n in range(17)}, "not 17"),
            ({"a": float}, "column 'a' is to hold float"),
            ({"": int}, "not empty"),
            ([("a", int), ("a", str)], "two columns are named 'a'"),
        ):
            self.refused(errors.BadSchema, said, lambda: fc.Table(columns))  # noqa: B023
        self.refused(
            errors.BadSchema, "not an amount of memory", lambda: fc.Table(COLUMNS, local="much")
        )
        for local, said in (
            ("64", "'64' has no unit; write '64MB'"),
            (64, "64 is too little memory for a table"),
            (0, "0 is too little"),
            ("100TB", "is more memory than a table can use; write '32GiB'"),
        ):
            with self.subTest(local=local), self.assertRaisesRegex(errors.BadSchema, said):
                fc.Table(COLUMNS, local=local)
        self.refused(errors.BadSchema, "group is 1 to 65,536", lambda: fc.Table(COLUMNS, group=0))

    def test_a_closed_table(self) -> None:
        table = self.table
        sold, sku = table.watch(fc.totals("quantity")), table["sku"]
        table.append(("bread", 5))
        table.close()
        table.close()
        self.assertTrue(table.closed)
        for call in (
            lambda: table.append(("rye", 1)),
            lambda: table.append(("rye",)),
            lambda: table.append(("rye", "x")),
            lambda: table.extend([("rye",)]),
            lambda: table.extend_columns(sku=["rye"]),
            lambda: len(table),
            lambda: table.places,
            lambda: list(table),
            lambda: table["sku"],
            lambda: table["prize"],
            lambda: table.set(0, "prize", 1),
            lambda: table[0],
            lambda: table.set(0, "sku", "x"),
            lambda: table["sku"][0:1],
            lambda: table.watch(fc.totals("quantity")),
            lambda: table.evict(),
            lambda: table.stats(),
            lambda: sold.value,
            table.__enter__,
        ):
            with self.assertRaises(errors.Closed):
                call()
        self.assertIn("closed", repr(table))
        self.assertIn("no longer watched", repr(sold))
        self.assertIn("of a closed table", repr(sku))
        self.assertIn("closed", table._repr_html_())


class Life(unittest.TestCase):
    def test_a_table_that_is_dropped_frees_its_engine(self) -> None:
        engine = fc.Memory()
        table = fc.Table(COLUMNS, far=engine)
        with self.assertRaisesRegex(errors.BadArgument, "another open table uses"):
            fc.Table(COLUMNS, far=engine)
        del table
        gc.collect()
        fc.Table(COLUMNS, far=engine).close()

    def test_no_copy_closes_a_table(self) -> None:
        with fc.Table(COLUMNS, local="1MB") as table, tempfile.TemporaryDirectory() as folder:
            table.append(("bread", 5))
            table.move_to(fc.Files(Path(folder, "x.far")))
            table.evict()
            for call in (copy.copy, copy.deepcopy, pickle.dumps):
                with self.assertRaisesRegex(TypeError, "copied or pickled; use to_csv or"):
                    call(table)
                with self.assertRaisesRegex(TypeError, "Files cannot be copied"):
                    call(table.engine)
            gc.collect()
            self.assertEqual(list(table), [("bread", 5)])

    def test_no_engine(self) -> None:
        with self.assertRaisesRegex(TypeError, "is not an engine"):
            fc.Table(COLUMNS, far=object())  # type: ignore[arg-type]
        with self.assertRaisesRegex(TypeError, r"for a file, write fc.Files\('x.far'\)"):
            fc.Table(COLUMNS, far="x.far")  # type: ignore[arg-type]

    def test_threads_share_a_table(self) -> None:
        with fc.Table(COLUMNS, local="64KB") as table:
            sold = table.watch(fc.totals("quantity", by="sku"))

            def work(name: str) -> None:
                for number in range(500):
                    place = table.append((name, number))
                    table.set(place, "quantity", number + 1)
                    if number % 50 == 0:
                        self.assertGreater(sold[name].count, 0)
                        table.evict()

            threads = [threading.Thread(target=work, args=(f"t{n}",)) for n in range(4)]
            for thread in threads:
                thread.start()
            for thread in threads:
                thread.join()
            due = fc.Total(500, sum(range(1, 501)))
            self.assertEqual(sold.to_dict(), {f"t{n}": due for n in range(4)})


if __name__ == "__main__":
    unittest.main()
