"""CSV files: reading, writing, guessed kinds, and invalid files."""

from __future__ import annotations

import gzip
import io
import random
import tempfile
import unittest
from pathlib import Path
from typing import Any

import fullercoral as fc

HEAD = "sku,quantity\n"


def read(text: str | bytes, **options: Any) -> fc.Table:
    content = text.encode() if isinstance(text, str) else text
    return fc.read_csv(io.BytesIO(content), local="1MB", **options)


class Reading(unittest.TestCase):
    def rows(self, text: str | bytes, **options: Any) -> list[tuple[Any, ...]]:
        with read(text, **options) as table:
            return [tuple(row) for row in table]

    def test_a_header_and_guessed_kinds(self) -> None:
        with read(HEAD + "bread,5\nrye,\n,-7\n") as table:
            self.assertEqual(table.schema, fc.Schema({"sku": str, "quantity": int}))
            self.assertEqual(list(table), [("bread", 5), ("rye", None), ("", -7)])

    def test_kinds_are_guessed_as_one_would(self) -> None:
        cases = {
            "1\n2\n": int,
            "-5\n9223372036854775807\n": int,
            "9223372036854775808\n": str,
            "1.5\n2\n": str,
            "007\n008\n": str,
            "0\n10\n": int,
            "+49\n1\n": str,
            '""\n""\n': str,
            "2024-01-01\n": str,
            " 5 \n6\n": int,
        }
        for text, kind in cases.items():
            with self.subTest(text=text), read("a\n" + text) as table:
                self.assertIs(table.schema["a"], kind)

    def test_kinds_may_be_given(self) -> None:
        with read("zip,n\n007,1\n", types={"zip": int, "n": str}) as table:
            self.assertEqual(list(table), [(7, "1")])

    def test_no_header(self) -> None:
        self.assertEqual(self.rows("1,a\n2,b\n", header=False), [(1, "a"), (2, "b")])
        with read("1,a\n", header=False, names=["n", "t"]) as table:
            self.assertEqual(table.columns, ("n", "t"))
        with read("x,y\n1,a\n", names=["n", "t"]) as table:
            self.assertEqual((table.columns, list(table)), (("n", "t"), [(1, "a")]))

    def test_some_columns(self) -> None:
        with read("a,b,c\n1,2.5,x\n", columns=["c", "a"]) as table:
            self.assertEqual((table.columns, list(table)), (("c", "a"), [("x", 1)]))

    def test_quotes_ends_of_lines_and_marks(self) -> None:
        self.assertEqual(self.rows('a,b\r\n"x, ""y""",1\r\n'), [('x, "y"', 1)])
        self.assertEqual(self.rows('a,b\n"two\nlines",1\n'), [("two\nlines", 1)])
        self.assertEqual(self.rows("\ufeffa,b\nx,1"), [("x", 1)])
        self.assertEqual(self.rows("a;b\nx;1\n", delimiter=";"), [("x", 1)])
        self.assertEqual(self.rows("a,b\n\nx,1\n\n\ny,2\n\n"), [("x", 1), ("y", 2)])
        self.assertEqual(self.rows("a,b\nx, 5 \n"), [("x", 5)])

    def test_what_is_missing(self) -> None:
        self.assertEqual(
            self.rows(HEAD + "\\N,\\N\nb,1\n", missing="\\N"), [(None, None), ("b", 1)]
        )
        self.assertEqual(self.rows(HEAD + ",1\n", missing=""), [(None, 1)])

    def test_decimals_are_read_exactly_by_a_conversion(self) -> None:
        text = "sku,price\nbread,1.99\nrye,\noat,3\n"
        self.assertEqual(
            self.rows(text, convert={"price": fc.scaled(2)}),
            [("bread", 199), ("rye", None), ("oat", 300)],
        )
        self.assertEqual(self.rows(text, convert={"sku": str.upper})[0], ("BREAD", "1.99"))
        for digits in (-1, "2", 19, 1.0):
            with self.assertRaisesRegex(ValueError, "scaled takes 0 to 18 decimals"):
                fc.scaled(digits)
        for wrong, said in (("x", "'x' is not a decimal"), ("1.999", "more than 2 decimals")):
            with self.assertRaises(fc.CsvError) as caught:
                self.rows(text + f"cake,{wrong}\n", convert={"price": fc.scaled(2)})
            self.assertIn(said, str(caught.exception))
            self.assertEqual((caught.exception.line, caught.exception.column), (5, "price"))

    def test_decimals_after_guessed_numbers(self) -> None:
        text = "a\n" + "1\n" * 1500 + "1.5\n2.25\n"
        with self.assertRaises(fc.CsvError) as caught:
            read(text)
        self.assertIn("convert={'a': fc.scaled(2)} reads decimals", str(caught.exception))
        with read(text, convert={"a": fc.scaled(2)}) as table:
            self.assertEqual(table[-2:], [(150,), (225,)])
        with self.assertRaises(fc.CsvError) as caught:
            read(text, convert={"a": fc.scaled(1)})
        self.assertTrue(str(caught.exception).endswith("more than 1 decimals: use scaled(2)"))
        with self.assertRaisesRegex(TypeError, "convert of column a: 'cents' is not a function"):
            read(text, convert={"a": "cents"})

    def test_a_file_with_only_a_header(self) -> None:
        self.assertEqual(self.rows(HEAD), [])

    def test_many_rows_in_chunks_with_progress(self) -> None:
        text = HEAD + "".join(f"sku{n % 9},{n}\n" for n in range(45_000))
        with tempfile.TemporaryDirectory() as folder:
            path = Path(folder, "orders.csv")
            path.write_text(text)
            calls: list[tuple[int, int]] = []
            with fc.read_csv(path, local="1MB", progress=lambda *done: calls.append(done)) as table:
                self.assertEqual(len(table), 45_000)
                self.assertEqual(table[44_999], ("sku8", 44_999))
                self.assertGreater(table.stats().away, 0)
            self.assertGreater(len(calls), 2)
            self.assertEqual(calls[-1], (len(text), len(text)))
            packed = Path(folder, "orders.csv.gz")
            packed.write_bytes(gzip.compress(text.encode()))
            with fc.read_csv(packed) as table:
                self.assertEqual(len(table), 45_000)

    def test_load_csv_takes_the_columns_in_any_order(self) -> None:
        with fc.Table({"sku": str, "quantity": int}, local="1MB") as table:
            self.assertEqual(table.load_csv(io.StringIO("quantity,sku\n5,bread\n")), range(0, 1))
            self.assertEqual(table.load_csv(io.StringIO(HEAD + "rye,6\n")), range(1, 2))
            self.assertEqual(list(table), [("bread", 5), ("rye", 6)])
            with self.assertRaisesRegex(fc.CsvError, "no column 'quantity'"):
                table.load_csv(io.StringIO("sku\nbread\n"))
            with self.assertRaisesRegex(fc.CsvError, "the table has no column 'price'"):
                table.load_csv(io.StringIO("sku,quantity,price\nbread,5,6\n"))


class Broken(unittest.TestCase):
    """Each error names the place: line, column, text."""

    def refused(self, content: str | bytes, said: str, **due: Any) -> None:
        options = due.pop("options", {})
        with self.subTest(said=said):
            with self.assertRaises(fc.CsvError) as caught:
                read(content, **options)
            self.assertIn(said, str(caught.exception))
            for name, value in due.items():
                self.assertEqual(getattr(caught.exception, name), value)

    def test_the_shape(self) -> None:
        self.refused("", "the file is empty")
        self.refused("a,,c\n1,2,3\n", "column 2 has no name", line=1)
        self.refused("a,b,a\n1,2,3\n", "two columns are named 'a'", line=1)
        self.refused(HEAD + "bread,5\nrye\n", "1 field instead of 2", line=3)
        self.refused(HEAD + "bread,5,6\n", "3 fields instead of 2", line=2)
        wide = ",".join(f"c{n}" for n in range(17))
        self.refused(wide + "\n", "17 columns, but a table has at most 16")

    def test_quotes(self) -> None:
        self.refused(HEAD + 'bread,5\n"rye,6\n', "a quote is opened but never closed")
        self.refused(HEAD + '"bread"s,5\n', "a closing quote is followed by neither", line=2)

    def test_numbers(self) -> None:
        many = HEAD + "bread,5\n" * 1500
        due = {"line": 1502, "column": "quantity"}
        self.refused(many + "rye,six\n", "'six' is not a whole number of 64", text="six", **due)
        self.refused(many + "rye,1e5\n", "int was guessed", text="1e5", **due)
        self.refused(many + f"rye,{2**63}\n", "not a whole number", text=str(2**63), **due)
        self.refused(many + "rye,1_000\n", "not a whole number", text="1_000", **due)
        self.refused(many + "rye,5-\n", "not a whole number", text="5-", **due)
        options = {"types": {"sku": int}}
        self.refused(HEAD + "bread,5\n", "line 2, column sku: 'bread'", options=options)

    def test_texts(self) -> None:
        self.refused(
            HEAD.encode() + b"bread,5\nr\xffe,6\n", "is not valid UTF-8", line=3, column="sku"
        )
        long = "x" * 4097
        self.refused(HEAD + f"bread,5\n{long},6\n", "has 4,097 bytes", line=3, column="sku")
        self.refused(HEAD + "x" * 140_000 + ",6\n", "field larger than field limit", line=2)

    def test_a_fault_after_a_text_of_several_lines(self) -> None:
        self.refused(
            HEAD + '"a\nb\nc",5\nd,x\n', "'x' is no", line=5, options={"types": {"quantity": int}}
        )

    def test_unknown_options(self) -> None:
        for option, said in (
            ("sep", "read_csv has no option sep; use delimiter"),
            ("dtype", "use types"),
            ("usecols", "use columns"),
            ("lokal", "use local"),
            ("index_col", "its options are delimiter, header, names"),
        ):
            with self.assertRaisesRegex(TypeError, said):
                read(HEAD, **{option: 1})
        with fc.Table({"n": int}, local="1MB") as table:
            with self.assertRaisesRegex(TypeError, "load_csv has no option local"):
                table.load_csv(io.StringIO("n\n5\n"), local="1MB")

    def test_another_delimiter(self) -> None:
        for mark in ";\t|":
            text = f"a{mark}b\n1{mark}2,5\n"
            self.refused(text, f"delimiter={mark!r} splits it, delimiter=',' keeps it", line=1)
            with read(text, delimiter=mark) as table:
                self.assertEqual(list(table), [(1, "2,5")])
        self.refused("1;2\n", "the first row is one field, '1;2'", options={"header": False})
        with read("a;b\n1;2\n", delimiter=",") as table:
            self.assertEqual((table.columns, list(table)), (("a;b",), [("1;2",)]))
        self.refused(HEAD, "a delimiter is one character", options={"delimiter": "::"})

    def test_encodings(self) -> None:
        text = HEAD + "Müller,5\n"
        with read(text.encode("latin-1"), encoding="latin-1") as table:
            self.assertEqual(list(table), [("Müller", 5)])
        with read(text.encode("utf-16"), encoding="utf-16") as table:
            self.assertEqual(list(table), [("Müller", 5)])
        said = "b'M\\xfcller' is not valid UTF-8: try encoding=\"latin-1\""
        self.refused(text.encode("latin-1"), said, line=2, column="sku")
        self.refused("Größe\n5\n".encode("latin-1"), 'try encoding="latin-1"', line=1)
        self.refused(text, "unknown encoding 'utf8000'", options={"encoding": "utf8000"})

    def test_a_file_that_is_not_there(self) -> None:
        with self.assertRaises(FileNotFoundError):
            fc.read_csv("/no/such/file.csv")

    def test_rows_of_earlier_chunks_stay(self) -> None:
        with fc.Table({"sku": str, "quantity": int}, local="1MB") as table:
            text = HEAD + "bread,5\n" * 25_000 + "rye,x\n"
            with self.assertRaises(fc.CsvError) as caught:
                table.load_csv(io.StringIO(text))
            self.assertEqual(caught.exception.line, 25_002)
            self.assertGreaterEqual(len(table), 1000)
            self.assertEqual(table["quantity"].to_list(), [5] * len(table))


class Writing(unittest.TestCase):
    def test_what_is_written_reads_back(self) -> None:
        rows = random.Random(5)
        texts = ["bread", "", "a,b", 'say "no"', "two\nlines", "é日", " x ", "\\n", "007", None]
        cells = [(rows.choice(texts), rows.choice([0, -5, 2**63 - 1, None])) for _ in range(3000)]
        with fc.Table({"sku": str, "quantity": int}, local="64KB") as table:
            table.extend(cells)
            for place in range(0, 3000, 3):
                del table[place]
            left = [row for place, row in enumerate(cells) if place % 3]
            with tempfile.TemporaryDirectory() as folder:
                path = Path(folder, "orders.csv")
                self.assertEqual(table.to_csv(path, missing="\\N"), 2000)
                kinds = {"sku": str, "quantity": int}
                with fc.read_csv(path, missing="\\N", types=kinds, local="64KB") as again:
                    self.assertEqual([tuple(row) for row in again], left)

    def test_as_it_looks(self) -> None:
        with fc.Table({"sku": str, "quantity": int}, local="64KB") as table:
            table.extend([("bread", 5), (None, None), ("a,b", -1)])
            out = io.StringIO()
            table.to_csv(out)
            self.assertEqual(out.getvalue(), 'sku,quantity\nbread,5\n,\n"a,b",-1\n')
            out = io.StringIO()
            table.to_csv(out, header=False, delimiter=";", missing="NA")
            self.assertEqual(out.getvalue(), "bread;5\nNA;NA\na,b;-1\n")


if __name__ == "__main__":
    unittest.main()
