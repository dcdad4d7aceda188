"""Many rows by columns: lists, arrays, buffers, and numpy and pandas if they are installed."""

from __future__ import annotations

import unittest
from array import array
from typing import Any

import fullercoral as fc
from fullercoral import errors
from fullercoral._buffers import BYTES_AT, _bits_between, address_of, pack_bits

from .optional import numpy, pandas


class Case(unittest.TestCase):
    def setUp(self) -> None:
        self.numbers = fc.Table({"n": int}, local="1MB")
        self.texts = fc.Table({"t": str}, local="1MB")
        self.addCleanup(self.numbers.close)
        self.addCleanup(self.texts.close)

    def comes_back(self, values: Any, due: list[Any]) -> None:
        with self.subTest(values=type(values)):
            first = self.numbers.places
            self.numbers.extend_columns(n=values)
            self.assertEqual(self.numbers["n"].to_list()[first:], due)

    def texts_come_back(self, values: Any, due: list[Any]) -> None:
        first = self.texts.places
        self.texts.extend_columns(t=values)
        self.assertEqual(self.texts["t"].to_list()[first:], due)

    def refused(self, kind: type[Exception], said: str, **columns: Any) -> None:
        table = self.numbers if "n" in columns else self.texts
        before = table.places
        with self.assertRaises(kind) as caught:
            table.extend_columns(**columns)
        self.assertIn(said, str(caught.exception))
        self.assertEqual(table.places, before)


class Lists(Case):
    def test_numbers(self) -> None:
        ends = [2**63 - 1, -(2**63), 0]
        self.comes_back(ends, ends)
        self.comes_back(tuple(ends), ends)
        self.comes_back([1, None, 3, fc.NA], [1, None, 3, None])
        self.comes_back(range(3), [0, 1, 2])
        self.comes_back((n for n in (1, None)), [1, None])
        self.comes_back([True, False], [1, 0])
        self.comes_back([], [])
        self.comes_back([None] * 17, [None] * 17)

    def test_buffers(self) -> None:
        self.comes_back(array("q", [1, -2]), [1, -2])
        self.comes_back(memoryview(array("q", [1, -2])), [1, -2])
        self.comes_back(memoryview(array("q", [1, 2, 3, 4]))[::2], [1, 3])
        self.comes_back(memoryview(bytes(array("q", [7]))).cast("q"), [7])
        odd = memoryview(b"\0" + bytes(array("q", [7, -8])))[1:].cast("q")
        self.comes_back(odd, [7, -8])
        self.comes_back(array("b", [1, -2]), [1, -2])
        self.comes_back(array("I", [2**32 - 1]), [2**32 - 1])
        self.comes_back(bytes([1, 255]), [1, 255])

    def test_texts(self) -> None:
        self.texts_come_back(["a", "", "é"], ["a", "", "é"])
        self.texts_come_back(("a", None, fc.NA), ["a", None, None])
        self.texts_come_back((t for t in "xyz"), ["x", "y", "z"])
        self.texts_come_back([], [])

    def test_a_single_cell_and_one_in_a_list_follow_one_rule(self) -> None:
        nan, numbers, texts = float("nan"), self.numbers, self.texts
        cells: list[tuple[Any, Any]] = [(5.0, 5), (-0.0, 0), (True, 1), (nan, None), (fc.NA, None)]
        cells += [(-(2.0**63), -(2**63))]
        if numpy is not None:
            cells += [(numpy.float64(4), 4), (numpy.float32(4), 4), (numpy.uint8(4), 4)]
            cells += [(numpy.float32("nan"), None), (numpy.ma.masked, None)]
        if pandas is not None:
            cells += [(pandas.NA, None), (pandas.NaT, None)]
        for cell, due in cells:
            with self.subTest(cell=repr(cell)):
                self.comes_back([cell, 7], [due, 7])
                place = numbers.append((cell,))
                self.assertEqual(numbers[place], (due,))
                numbers.set(place, "n", 7)
                numbers.set(place, "n", cell)
                numbers.extend([(cell,), (8,)])
                self.assertEqual(list(numbers["n"])[-3:], [due, due, 8])
                if due is None:
                    texts.set(texts.append((cell,)), "t", cell)
                    self.texts_come_back(["a", cell], ["a", None])
        for wrong in (1.5, 2.0**63, float("inf"), "1", b"1", [], 1j):
            for call in (lambda: numbers.set(0, "n", wrong), lambda: numbers.append((wrong,))):
                with self.assertRaises(errors.WrongKind):
                    call()
            self.refused(errors.WrongKind, "whole numbers", n=[1, wrong])
        total = numbers.watch(fc.totals("n", where=[("n", "==", 8.0)]))
        self.assertEqual(total.sum, 8 * len(cells))

    def test_what_does_not_fit_is_named_and_nothing_goes_in(self) -> None:
        self.refused(errors.WrongKind, "column n holds whole numbers", n=[1, "x"])
        self.refused(errors.WrongKind, "1.5", n=[1, 1.5])
        self.refused(errors.WrongKind, str(2**63), n=[1, 2**63])
        self.refused(errors.WrongKind, "'12'", n="12")
        self.refused(errors.WrongKind, "column t holds texts, not 5", t=["a", 5])
        self.refused(errors.WrongKind, "one text", t="abc")
        self.refused(errors.NoUtf8, "surrogate", t=["a", "\ud800"])

    def test_columns_that_do_not_match(self) -> None:
        with fc.Table({"a": int, "b": int}, local="1MB") as table:
            for columns, kind, said in (
                ({"a": [1]}, errors.BadArgument, "no values are given for b"),
                ({"a": [1], "b": [1, 2]}, errors.BadArgument, "a 1, b 2"),
                ({"a": [1], "b": [1], "c": [1]}, errors.NoColumn, "'c'"),
            ):
                with self.assertRaises(kind) as caught:
                    table.extend_columns(columns)
                self.assertIn(said, str(caught.exception))
            self.assertEqual(table.extend_columns({"b": [2]}, a=[1]), range(0, 1))
            self.assertEqual(table[0], (1, 2))

    def test_more_rows_than_local_memory_in_parts(self) -> None:
        values = [None if n % 11 == 3 else n for n in range(150_001)]
        texts = [None if n % 13 == 5 else f"sku{n % 97}" for n in range(150_001)]
        calls: list[tuple[int, int]] = []
        with fc.Table({"n": int, "t": str}, local="256KB") as table:
            table.extend_columns(n=[7], t=["first"])
            table.extend_columns(n=values, t=texts, progress=lambda *done: calls.append(done))
            self.assertEqual(table["n"].to_list(), [7, *values])
            self.assertEqual(table["t"][:], ["first", *texts])
            self.assertGreater(table.stats().away, 100)
        self.assertEqual(calls, [(65_536, 150_001), (131_072, 150_001), (150_001, 150_001)])

    def test_an_empty_buffer_has_an_aligned_address(self) -> None:
        for buffer in (array("q"), bytes(), bytearray(), array("Q", [])):
            self.assertEqual(address_of(buffer) % 8, 0)

    def test_bits(self) -> None:
        flags = [n % 3 == 0 for n in range(100)]
        bits = pack_bits(flags)
        for start, stop in ((0, 100), (8, 50), (3, 99), (5, 6), (7, 7), (63, 100)):
            part = _bits_between(bits, start, stop)
            self.assertEqual(len(part), (stop - start + 7) // 8)
            self.assertEqual(part, pack_bits(flags[start:stop]))


@unittest.skipUnless(numpy, "skipped: numpy is not installed")
class Numpy(Case):
    def test_numbers_of_every_width(self) -> None:
        self.comes_back(numpy.array([1, -2, 3]), [1, -2, 3])
        for kind in ("int8", "int16", "int32", "uint8", "uint32", "uint64", ">i8"):
            self.comes_back(numpy.array([1, 100], dtype=kind), [1, 100])
        self.comes_back(numpy.arange(10)[::3], [0, 3, 6, 9])
        self.comes_back(numpy.array([], dtype="int64"), [])
        self.comes_back(numpy.array([1, None], dtype=object), [1, None])
        self.comes_back(numpy.frombuffer(b"\1" + bytes(16), "<i8", offset=1), [0, 0])
        frozen = numpy.array([5, 6])
        frozen.flags.writeable = False
        self.comes_back(frozen, [5, 6])

    def test_masks_and_floats(self) -> None:
        masked = numpy.ma.array([1, 2, 3], mask=[False, True, False])
        self.comes_back(masked, [1, None, 3])
        self.comes_back(numpy.ma.array([1, 2]), [1, 2])
        self.comes_back(numpy.array([1.0, numpy.nan, -3.0]), [1, None, -3])
        self.refused(errors.WrongKind, "1.5", n=numpy.array([1.0, 1.5]))
        self.refused(errors.WrongKind, "1e+300", n=numpy.array([1e300]))
        self.refused(errors.WrongKind, str(2**63), n=numpy.array([2**63], dtype="uint64"))
        self.refused(errors.BadArgument, "1 dimension, not 2", n=numpy.zeros((2, 2), dtype="int64"))

    def test_texts(self) -> None:
        self.texts_come_back(numpy.array(["a", "é"]), ["a", "é"])
        self.texts_come_back(numpy.array(["a", None], dtype=object), ["a", None])

    def test_a_column_is_read_as_a_masked_array(self) -> None:
        table = self.numbers
        table.extend_columns(n=[1, None, 3, 4])
        table.remove(3)
        part = table["n"][0:4]
        self.assertIsInstance(part, numpy.ma.MaskedArray)
        self.assertEqual(part.dtype, numpy.int64)
        self.assertEqual(part.mask.tolist(), [False, True, False, True])
        self.assertEqual(int(part.sum()), 4)
        self.assertEqual(table["n"].to_numpy().tolist(), [1, None, 3, None])
        table.set(1, "n", numpy.int64(2))
        self.assertEqual(table[1], (2,))
        table.append((numpy.int32(9),))
        self.assertEqual(table[-1], (9,))

    def test_a_column_of_texts(self) -> None:
        self.texts.extend_columns(t=["a", None])
        array_ = self.texts["t"].to_numpy()
        self.assertEqual((array_.dtype, array_.mask.tolist()), (object, [False, True]))


@unittest.skipUnless(pandas, "skipped: pandas is not installed")
class Pandas(Case):
    def test_series(self) -> None:
        self.comes_back(pandas.Series([1, 2]), [1, 2])
        self.comes_back(pandas.Series([1, None]), [1, None])
        self.comes_back(pandas.Series([1, None], dtype="Int64"), [1, None])
        self.comes_back(pandas.Series([1, 2], dtype="Int32"), [1, 2])
        self.comes_back(pandas.Series([1, pandas.NA], dtype=object), [1, None])
        self.texts_come_back(pandas.Series(["a", None]), ["a", None])
        self.texts_come_back(pandas.Series(["a", pandas.NA], dtype="string"), ["a", None])
        self.texts_come_back(pandas.Series(["a", "b", "a"], dtype="category"), ["a", "b", "a"])
        self.refused(errors.WrongKind, "1.5", n=pandas.Series([1.5]))

    def test_a_frame_goes_in_and_comes_back(self) -> None:
        frame = pandas.DataFrame({"sku": ["bread", "rye", None], "quantity": [5, 3, None]})
        with fc.Table({"sku": str, "quantity": int}, local="1MB") as table:
            sold = table.watch(fc.totals("quantity", by="sku"))
            table.extend_columns(frame)
            back = table.to_pandas()
            self.assertEqual(back["sku"].tolist(), ["bread", "rye", None])
            self.assertEqual(str(back["quantity"].dtype), "Int64")
            self.assertEqual(back.index.tolist(), [0, 1, 2])
            answer = sold.to_pandas()
            self.assertEqual(answer.loc["bread"].tolist(), [1, 5])
            self.assertEqual((answer.index.name, list(answer)), ("sku", ["count", "sum"]))
            due = frame.dropna().groupby("sku")["quantity"].agg(["count", "sum"])
            self.assertEqual(answer["sum"].tolist(), due["sum"].tolist())
            plain = table.watch(fc.extrema("quantity")).to_pandas()
            self.assertEqual(plain.values.tolist(), [[3, 5]])

    def test_a_table_of_a_frame(self) -> None:
        columns: dict[str, Any] = {"Order ID": [3, 1], "sku": ["a", None]}
        columns |= {"quantity": [5.0, None], "paid": [True, False]}
        frame = pandas.DataFrame(columns, index=["x", "y"])
        frame["city"] = frame["sku"].astype("category")
        with fc.Table.from_pandas(frame, local="1MB") as table:
            due = {"Order ID": int, "sku": str, "quantity": int, "paid": int, "city": str}
            self.assertEqual((table.dtypes, table.shape), (due, (2, 5)))
            self.assertEqual(list(table), [(3, "a", 5, 1, "a"), (1, None, None, 0, None)])
            again = fc.Table.from_pandas(table.to_pandas(), local="1MB")
            self.assertEqual((list(again), again.schema), (list(table), table.schema))
            again.close()
        for values, said in (
            ([1.5, 2], r"column n has decimals.*\* 100\).round"),
            (pandas.to_datetime(["2024-01-01"]), r"datetime64.*astype\(str\) makes texts"),
            ([b"x", 1], "is of object"),
        ):
            with self.assertRaisesRegex(errors.WrongKind, said):
                fc.Table.from_pandas(pandas.DataFrame({"n": values}))
        for wrong in (5, {"n": [1]}, [1]):
            with self.assertRaisesRegex(errors.WrongKind, "takes a DataFrame of pandas"):
                fc.Table.from_pandas(wrong)

    def test_an_answer_as_a_frame(self) -> None:
        with fc.Table({"key": int, "n": int}, local="1MB") as table:
            by_key = table.watch(fc.totals("n", by="key"))
            ends = table.watch(fc.extrema("n", by="key"))
            self.assertEqual(len(by_key.to_pandas()), 0)
            table.extend_columns(key=range(600), n=range(-300, 300))
            frame = by_key.to_pandas()
            self.assertEqual([str(kind) for kind in frame.dtypes], ["int64", "int64"])
            self.assertEqual((frame.index.tolist(), str(frame.index.dtype)), ([*range(600)], "int64"))
            self.assertEqual(frame["sum"].tolist(), list(range(-300, 300)))
            self.assertEqual(frame["count"].tolist(), [1] * 600)
            self.assertEqual(ends.to_pandas()["max"].tolist(), list(range(-300, 300)))
            table.extend_columns(key=[7, 7, 8, 8], n=[2**63 - 1] * 2 + [-(2**63)] * 2)
            sums = by_key.to_pandas()["sum"].tolist()
            self.assertEqual(sums[6:10], [-294, 2**64 - 295, -(2**64) - 292, -291])


class Addresses(unittest.TestCase):
    def test_the_address_of_bytes(self) -> None:
        for content in (b"x", b"bread", bytes(1000)):
            self.assertEqual(id(content) + BYTES_AT, address_of(content))

    def test_what_only_looks_like_a_text(self) -> None:
        class Odd:
            def encode(self) -> int:
                return 5

        class Loud(str):
            def encode(self, *arguments: Any) -> Any:
                return 5

        with fc.Table({"sku": str, "quantity": int}, local="1MB") as table:
            for call in (
                lambda: table.append((Odd(), 1)),
                lambda: table.set(table.append(("x", 1)), "sku", Odd()),
            ):
                with self.assertRaises(errors.WrongKind):
                    call()
            table.append((Loud("loud"), 1))
            table.set(0, "sku", Loud("LOUD"))
            self.assertEqual(table["sku"][:], ["LOUD", "loud"])


if __name__ == "__main__":
    unittest.main()
