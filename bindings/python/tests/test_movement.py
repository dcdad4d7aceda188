"""Evictions and fetches; aggregates stay exact; engines fail and nothing is lost."""

from __future__ import annotations

import random
import tempfile
import unittest
from pathlib import Path
from typing import Any

import fullercoral as fc
from fullercoral import errors

from .engines import Broken, Faulty

KINDS = {"sku": str, "quantity": int}
SMALL = fc.Limits(group=16, int_segments=4, int_size=16, text_segments=4, text_size=1024)


class Dumb:
    """An engine with only put and get."""

    def __init__(self) -> None:
        self.contents: dict[int, bytes] = {}

    def put(self, number: int, content: bytes) -> None:
        self.contents[number] = content

    def get(self, number: int) -> bytes:
        return self.contents[number]


def filled(rows: int = 200, **options: Any) -> fc.Table:
    options.setdefault("limits", SMALL)
    table = fc.Table(KINDS, **options)
    table.extend((f"sku{n % 5}", n) for n in range(rows))
    return table


class Aggregates(unittest.TestCase):
    def test_one_key_is_asked_alone(self) -> None:
        with filled() as table:
            sold = table.watch(fc.totals("quantity", by="sku"))
            ends = table.watch(fc.extrema("quantity", by="quantity"))
            low = table.watch(fc.extrema("quantity", where=[("quantity", "<", 0)]))
            self.assertEqual(sold["sku1"], (40, sum(range(1, 200, 5))))
            self.assertEqual((ends[7], ends.get(-1), low.value), ((7, 7), None, None))
            table.set(7, "quantity", -7)
            self.assertEqual((ends.get(7), ends[-7], low.value), (None, (-7, -7), (-7, -7)))
            for absent in ("sku", "sku10", "", "a" * 5000, "\ud800", "\0"):
                self.assertIsNone(sold.get(absent))
            for absent in (1 << 63, -(1 << 63) - 1, 200):
                self.assertNotIn(absent, ends)
            self.assertIsNone(table._answer)  # no answer was made
            self.assertEqual(sold.to_dict()["sku1"], sold["sku1"])
            ends.unwatch()
            for call in (lambda: ends[7], lambda: ends.get(1 << 63)):
                with self.assertRaises(errors.NoAggregate):
                    call()

    def test_all_kinds(self) -> None:
        with fc.Table(KINDS, local="1MB") as table:
            sold = table.watch(fc.totals("quantity", by="sku", where=[("quantity", ">", 0)]))
            best = table.watch(fc.extrema("quantity", by="sku"))
            plain, ends = table.watch(fc.totals("quantity")), table.watch(fc.extrema("quantity"))
            by_number = table.watch(fc.totals("quantity", by="quantity"))
            self.assertEqual((plain.value, ends.value, ends.min), (fc.Total(0, 0), None, None))
            self.assertEqual((len(sold), sold.items(), "bread" in sold), (0, [], False))
            table.extend([("bread", 5), ("rye", 3), ("bread", -2), (None, 9), ("oat", None)])
            self.assertEqual(sold["bread"], fc.Total(1, 5))
            self.assertEqual(sold.items(), [("bread", (1, 5)), ("rye", (1, 3))])
            self.assertEqual(best["bread"], fc.MinMax(-2, 5))
            self.assertEqual((plain.count, plain.sum, ends.min, ends.max), (4, 15, -2, 9))
            self.assertEqual((plain.mean, best.get("x"), sold["bread"].mean), (3.75, None, 5.0))
            self.assertIsNone(fc.Total(0, 0).mean)
            self.assertEqual(by_number.keys(), [-2, 3, 5, 9])
            self.assertEqual(
                (by_number[-2], by_number.get(7), by_number.get(7, 0)), ((1, -2), None, 0)
            )
            self.assertEqual((list(sold), sold.values()), (["bread", "rye"], [(1, 5), (1, 3)]))
            self.assertNotIn(5, sold)
            with self.assertRaises(KeyError):
                sold["oat"]
            for wrong in (lambda: plain["x"], lambda: sold.value, lambda: sold.sum):
                with self.assertRaises(errors.Nothing):
                    wrong()
            with self.assertRaises(AttributeError):
                plain.min

    def test_each_of_many_keys_is_found_and_no_other(self) -> None:
        draw = random.Random(9)
        texts = {"", "a", "a\0", "é", "日本", "x" * 4096, *(f"sku{n}" for n in range(500))}
        numbers = {0, -1, 2**63 - 1, -(2**63), *(draw.randrange(-999, 999) for _ in range(500))}
        for kind, keys in ((str, texts), (int, numbers)):
            with fc.Table({"key": kind, "n": int}, local="4MB") as table:
                shuffled: list[Any] = draw.sample(sorted(keys), len(keys))
                table.extend_columns(key=shuffled, n=range(len(shuffled)))
                by_key = table.watch(fc.totals("n", by="key"))
                for n, key in enumerate(shuffled):
                    self.assertEqual(by_key[key], fc.Total(1, n))
                in_order = sorted(keys, key=lambda key: key.encode() if kind is str else key)
                self.assertEqual(by_key.keys(), in_order)
                for absent in ("b", "a\0\0", "sku", "x" * 4097, "\ud800", 1000, 2**63, 2**70, None):
                    self.assertNotIn(absent, by_key)
                    self.assertEqual(by_key.get(absent, "none"), "none")
                table.set_column("n", range(10), [-n for n in range(10)])
                self.assertEqual(by_key[shuffled[7]], fc.Total(1, -7))

    def test_answers_of_hundreds_of_keys_come_whole(self) -> None:
        most, least = 2**63 - 1, -(2**63)
        for count in (1, 255, 256, 257, 700):
            names = [f"é{n:03}" for n in range(count)]
            values = [[most, least, n - 9][n % 3] for n in range(count)] * 2
            due = {n: fc.Total(2, 2 * values[n]) for n in range(count)}
            ends = {n: fc.MinMax(values[n], values[n]) for n in range(count)}
            with fc.Table({"name": str, "number": int, "n": int}, local="4MB") as table:
                table.extend_columns(name=names * 2, number=[*range(count)] * 2, n=values)
                for by, keys in (("name", names), ("number", list(range(count)))):
                    for spec, lines in ((fc.totals("n", by), due), (fc.extrema("n", by), ends)):
                        watched = table.watch(spec)
                        self.assertEqual(watched.keys(), keys)
                        self.assertEqual(watched.values(), list(lines.values()))
                        self.assertEqual(watched.items(), list(zip(keys, lines.values())))
                        self.assertEqual(watched.to_dict(), dict(zip(keys, lines.values())))
                        self.assertIs(type(watched.values()[0]), type(lines[0]))
                        self.assertEqual(table.recount(watched), watched.to_dict())
                        self.assertEqual(len(repr(watched).splitlines()), 1 + min(count, 11))

    def test_sums_are_exact_beyond_64_bits(self) -> None:
        with fc.Table({"n": int}, local="1MB") as table:
            total = table.watch(fc.totals("n"))
            keyed = table.watch(fc.totals("n", by="n"))
            for value in (2**63 - 1, -(2**63)):
                table.extend_columns(n=[value] * 3)
                self.assertEqual(keyed[value], fc.Total(3, 3 * value))
            self.assertEqual(total.sum, -3)

    def test_tests_of_rows(self) -> None:
        with fc.Table(KINDS, local="1MB") as table:
            table.extend([("bread", 5), ("rye", 3), ("brioche", 4), (None, 5), ("", None)])
            for where, due in (
                ([("sku", "==", "bread")], 5),
                ([("sku", "^=", "br")], 9),
                ([("sku", "^=", "")], 12),
                ([("quantity", "!=", 5)], 7),
                ([("quantity", ">=", 4), ("quantity", "<", 5)], 4),
                ([("quantity", "<=", 3), ("sku", "==", "bread")], 0),
            ):
                with self.subTest(where=where):
                    self.assertEqual(table.watch(fc.totals("quantity", where=where)).sum, due)
            for where in ([("sku", "<", "a")], [("quantity", "^=", 5)], [("quantity", "~", 5)]):
                with self.assertRaises(errors.BadArgument):
                    table.watch(fc.totals("quantity", where=where))
            for where in (
                [("sku", "==", 5)],
                [("quantity", ">", "5")],
                [("quantity", ">", 2**63)],
            ):
                with self.assertRaises(errors.WrongKind):
                    table.watch(fc.totals("quantity", where=where))
            with self.assertRaises(errors.BadSpec):
                fc.totals("quantity", where=[("quantity", ">", 0)] * 5)
            for where in (("quantity", ">", 0), "quantity > 0"):
                with self.assertRaisesRegex(errors.BadSpec, "where is a list of tests"):
                    fc.totals("quantity", where=where)  # type: ignore[arg-type]
            with self.assertRaisesRegex(errors.BadSpec, "a test is "):
                fc.totals("quantity", where=[("quantity", ">")])  # type: ignore[list-item]

    def test_at_most_32_and_numbers_are_used_again(self) -> None:
        with fc.Table(KINDS, local="1MB") as table:
            watched = [table.watch(fc.totals("quantity")) for _ in range(32)]
            with self.assertRaises(errors.TooManyAggregates):
                table.watch(fc.totals("quantity"))
            watched[3].unwatch()
            with self.assertRaises(errors.NoAggregate):
                watched[3].value
            self.assertEqual(table.watch(fc.totals("quantity")).number, 3)
            self.assertEqual(len(table.watched), 32)

    def test_reprs(self) -> None:
        with filled(40) as table:
            sold = table.watch(fc.totals("quantity", by="sku"))
            self.assertIn("3 row groups pending: items() builds them", repr(sold))
            self.assertEqual(sold.pending, 3)
            sold.items()
            self.assertEqual(sold.pending, 0)
            self.assertIn("'sku0': Total(count=8, sum=140)", repr(sold))
            ends = table.watch(fc.extrema("quantity"))
            self.assertEqual(ends.value, (0, 39))
            self.assertEqual(repr(ends), "<extrema('quantity'): MinMax(min=0, max=39)>")


class ByPolicy(unittest.TestCase):
    def test_a_table_larger_than_local_memory_just_works(self) -> None:
        with filled(2000) as table:
            sold = table.watch(fc.totals("quantity", by="sku"))
            due = {f"sku{k}": fc.Total(400, sum(range(k, 2000, 5))) for k in range(5)}
            self.assertEqual(sold.to_dict(), due)
            self.assertEqual(table["quantity"].to_list(), list(range(2000)))
            self.assertEqual(table.recount(sold), due)
            for place in range(0, 2000, 50):
                table.set(place, "quantity", table[place].quantity + 1)
                table.set(place, "sku", "sku0")
            self.assertEqual(sold["sku0"].sum, due["sku0"].sum + 40)
            moved = table.stats().moved
            self.assertGreater(moved.prefetches, 0)
            self.assertGreater(moved.offloads, 0)
            self.assertEqual(table.stats().faults, 0)

    def test_answers_need_no_fetch(self) -> None:
        with filled(64) as table:
            sold = table.watch(fc.totals("quantity"))
            self.assertEqual(sold.sum, sum(range(64)))
            table.evict()
            fetches = table.stats().moved.fetches
            self.assertEqual(sold.sum, sum(range(64)))
            later = table.watch(fc.extrema("quantity"))
            self.assertEqual(later.value, (0, 63))
            self.assertEqual(table.stats().moved.fetches, fetches)
            self.assertEqual(table.stats().away, 8)

    def test_a_region_that_is_too_small_for_one_row(self) -> None:
        limits = fc.Limits(group=16, int_segments=1, int_size=16, text_segments=1, text_size=64)
        with fc.Table({"a": int, "b": int}, limits=limits) as table:
            with self.assertRaises(errors.RegionFull):
                table.append((1, 2))
            self.assertEqual(len(table), 0)

    def test_texts_of_a_row_group_that_fit_no_segment(self) -> None:
        with fc.Table(KINDS, limits=SMALL) as table, self.assertRaises(errors.ChunkFull) as caught:
            table.append(("x" * 2000, 1))
        self.assertIn("group=", str(caught.exception))

    def test_numbers_of_contents_are_used_up(self) -> None:
        engine = Dumb()
        with filled(100, far=engine, contents=20) as table:
            for round_ in range(20):
                table.evict()
                for place in range(0, 100, 16):
                    table.set(place, "quantity", round_)
            self.assertEqual([row.quantity for row in table[1:16]], [*range(1, 16)])
            self.assertEqual([table[place].quantity for place in range(0, 100, 16)], [19] * 7)
            self.assertGreater(max(engine.contents), 20)


class ByHand(unittest.TestCase):
    def test_nothing_moves_without_a_policy(self) -> None:
        with filled(32, policy=None) as table:
            self.assertEqual(table.evict("quantity", 0), 1)
            with self.assertRaises(errors.Absent) as caught:
                table.set(3, "sku", "x")
            self.assertEqual((caught.exception.column, caught.exception.group), ("quantity", 0))
            self.assertIn("column quantity is away in row group 0; fetch it", str(caught.exception))
            with self.assertRaisesRegex(errors.Absent, "is away already in row group 0"):
                table.evict("quantity", 0)
            for call in (lambda: table[3], lambda: table["quantity"][0:20], lambda: list(table)):
                with self.assertRaises(errors.Absent):
                    call()
            self.assertEqual(table["sku"][0:2], ["sku0", "sku1"])
            sold = table.watch(fc.totals("quantity"))
            with self.assertRaises(errors.Building):
                sold.value
            with self.assertRaises(errors.Absent):
                table.recount(sold)
            table.build(sold)
            self.assertEqual(sold.sum, sum(range(32)))
            self.assertEqual(table.fetch("quantity", 0), 1)
            self.assertEqual(table[3], ("sku3", 3))
            with self.assertRaises(errors.StaleJob):
                table.fetch("quantity", 0)
            with self.assertRaises(errors.RegionFull):
                table.extend(("x", n) for n in range(100))

    def test_pins(self) -> None:
        with filled(32) as table:
            with table.pin("quantity", 0) as pin:
                self.assertEqual(repr(pin), "<pin on column 'quantity', row group 0>")
                with self.assertRaises(errors.Pinned):
                    table.evict("quantity", 0)
                self.assertEqual(table.evict(), 3)
                self.assertEqual(table.map().counts()["pinned"], 1)
            pin.unpin()
            self.assertEqual(table.evict(), 1)
            with table.pin("sku", 1):
                self.assertEqual(table.map().states[0], ("away", "pinned"))

    def test_columns_and_all_of_the_table(self) -> None:
        with filled(48) as table:
            self.assertEqual((table.evict("sku"), table.evict(), table.evict()), (3, 3, 0))
            self.assertEqual((table.fetch("quantity"), table.stats().away), (3, 3))
            self.assertEqual(table.fetch(), 3)
            self.assertEqual(table.map().counts(), {"dirty": 0, "clean": 6, "away": 0, "pinned": 0})

    def test_move_to(self) -> None:
        old = fc.Memory()
        with filled(64, far=old) as table:
            sold = table.watch(fc.totals("quantity"))
            table.evict()
            new = Dumb()
            table.move_to(new)
            self.assertEqual((len(old), len(new.contents)), (0, 8))
            self.assertEqual((sold.sum, table[63]), (sum(range(64)), ("sku3", 63)))
            table.evict()
            self.assertEqual(list(table["quantity"]), list(range(64)))
            table.move_to(new)
            with filled(1, far=old) as other:
                other.evict()

    def test_a_move_that_fails_leaves_all_as_it_was(self) -> None:
        with filled(64) as table:
            table.evict()
            before = table.engine
            with self.assertRaises(fc.EngineError) as caught:
                table.move_to(Faulty(1, 1.0))
            self.assertIsInstance(caught.exception.__cause__, Broken)
            self.assertIs(table.engine, before)
            self.assertEqual(list(table["quantity"]), list(range(64)))


class Engines(unittest.TestCase):
    def test_an_engine_that_fails_and_comes_back(self) -> None:
        engine = Faulty(7, 1.0)
        with filled(32, far=engine) as table:
            sold = table.watch(fc.totals("quantity"))
            with self.assertRaises(fc.EngineError) as caught:
                table.evict("quantity", 0)
            self.assertIsInstance(caught.exception.__cause__, Broken)
            self.assertEqual((caught.exception.number, caught.exception.name), (21, "FarFault"))
            self.assertEqual((table.stats().away, table.stats().faults), (0, 1))
            self.assertEqual(sold.sum, sum(range(32)))
            engine.chance = 0
            table.evict()
            self.assertEqual(list(table["quantity"]), list(range(32)))

    def test_whatever_comes_back_instead_is_refused(self) -> None:
        engine = Dumb()
        with filled(16, far=engine, policy=None) as table:
            table.evict("quantity", 0)
            table.fetch("quantity", 0)
            table.set(0, "quantity", 77)
            table.evict()
            right = dict(engine.contents)
            number = max(right, key=lambda n: (len(right[n]) > 130, n))
            others = [content for n, content in right.items() if n != number]
            changed = right[number]
            lies = [b"", changed[:-1], changed + b"\0", *others]
            lies += [
                bytes([byte ^ 1 << bit if at == i else byte for i, byte in enumerate(changed)])
                for at in range(0, len(changed), 17)
                for bit in (0, 7)
            ]
            for lie in lies:
                engine.contents[number] = lie
                with self.assertRaises(fc.FarFault):
                    table.fetch("quantity", 0)
                self.assertEqual(table.stats().away, 2)
            engine.contents = right
            table.fetch()
            self.assertEqual(list(table["quantity"]), [77, *range(1, 16)])
            self.assertEqual(table.stats().faults, len(lies))

    def test_a_fault_names_the_object_and_what_may_help(self) -> None:
        engine = fc.Memory()
        with filled(64, far=engine) as table:
            sold = table.watch(fc.totals("quantity", by="sku"))
            table.evict()
            right = dict(engine._contents)
            said = r"Memory\(\) returns other bytes than were put for column sku of row group 2"
            for contents, kind, due in (
                (dict.fromkeys(right, b"x"), fc.FarFault, said + ": restore them and call again"),
                ({}, fc.EngineError, r"cannot return column sku of row group 2 \(KeyError: "),
            ):
                engine._contents = contents
                for call in (lambda: table[40], lambda: table["sku"][32:34]):
                    with self.subTest(said=due), self.assertRaisesRegex(kind, due) as caught:
                        call()
                    self.assertEqual((caught.exception.column, caught.exception.group), ("sku", 2))
                for call in (sold.items, lambda: table.move_to(fc.Memory())):
                    with self.assertRaisesRegex(kind, "column sku of row group 0"):
                        call()
            engine._contents = right
            self.assertEqual((table[40], sold["sku0"].count), (("sku0", 40), 13))
            full = fc.EngineError
            engine.put = lambda *content: 1 / 0  # type: ignore[assignment,method-assign]
            table.set(40, "quantity", 7)
            with self.assertRaisesRegex(full, r"cannot keep column quantity of row group 2 \(Zero"):
                table.evict("quantity", 2)

    def test_an_engine_that_returns_no_bytes(self) -> None:
        engine = Dumb()
        with filled(16, far=engine) as table:
            table.evict()
            right = dict(engine.contents)
            for wrong in (None, 5, [1, 2]):
                engine.contents = dict.fromkeys(right, wrong)  # type: ignore[arg-type]
                with self.assertRaises(fc.FarFault):
                    table[0]
            engine.contents = {n: memoryview(right[n]) for n in right}  # type: ignore[misc]
            self.assertEqual(table[0], ("sku0", 0))

    def test_files(self) -> None:
        with tempfile.TemporaryDirectory() as folder:
            path = Path(folder, "orders.far")
            engine = fc.Files(path)
            self.assertFalse(path.exists())
            with filled(1000, far=engine) as table:
                self.assertTrue(path.exists())
                self.assertEqual(list(table["quantity"]), list(range(1000)))
                for round_ in range(5):
                    for place in range(0, 1000, 16):
                        table.set(place, "quantity", round_)
                    size = engine.size
                self.assertEqual(table[16], ("sku1", 4))
                table.evict()
                self.assertLess(engine.size, 2 * size)
            self.assertFalse(path.exists())

    def test_a_file_of_someone_else_is_left_alone(self) -> None:
        with tempfile.TemporaryDirectory() as folder:
            path = Path(folder, "orders.csv")
            path.write_text("sku,quantity\n")
            with self.assertRaisesRegex(FileExistsError, "orders.csv exists and was not made"):
                filled(16, far=fc.Files(path))
            with filled(16) as table:
                with self.assertRaisesRegex(FileExistsError, "give Files another path"):
                    table.move_to(fc.Files(path))
                self.assertEqual(table[0], ("sku0", 0))
            self.assertEqual(path.read_text(), "sku,quantity\n")
            path.write_bytes(fc.Files.MARK + b"what a process left that was killed")
            with filled(16, far=fc.Files(path)) as table:
                table.evict()
                with self.assertRaisesRegex(FileExistsError, "in use by another table: close"):
                    filled(16, far=fc.Files(path))
                self.assertEqual(table[0], ("sku0", 0))

    def test_a_path_that_no_file_can_have_is_refused_when_the_table_opens(self) -> None:
        with tempfile.TemporaryDirectory() as folder:
            for path, kind, said in (
                (f"{folder}/no/x.far", FileNotFoundError, f"there is no folder {folder}/no"),
                (folder, IsADirectoryError, "is a folder: give Files the path of a file"),
                ("/proc/x.far", OSError, "/proc/x.far"),
                ("/dev/null", FileExistsError, "not changed"),
            ):
                engine = fc.Files(path)
                for _ in range(2):
                    with self.subTest(path=path), self.assertRaisesRegex(kind, said):
                        fc.Table(KINDS, local="1MB", far=engine)

    def test_files_of_themselves(self) -> None:
        with tempfile.TemporaryDirectory() as folder:
            engine = fc.Files(Path(folder, "x.far"))
            contents = {n: bytes([n]) * (n + 1) for n in range(50)}
            for number, content in contents.items():
                engine.put(number, content)
            self.assertEqual({n: engine.get(n) for n in contents}, contents)
            engine.discard(7)
            for number in (7, 50, 10**6):
                with self.assertRaises(KeyError):
                    engine.get(number)
            size = engine.size
            engine.put(60, b"8 bytes!")
            self.assertEqual((engine.get(60), engine.size), (b"8 bytes!", size))
            self.assertEqual(repr(engine), f"Files({str(engine.path)!r})")
            engine.close()

    def test_protocol(self) -> None:
        for engine in (Dumb(), fc.Memory(), fc.Files("x"), fc.Redis(None), fc.S3(None, "b")):
            self.assertIsInstance(engine, fc.Engine)


if __name__ == "__main__":
    unittest.main()
