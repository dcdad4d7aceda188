"""Compares the speed of the package with the library's own calls, memcpy, pandas and SQLite.

    python3 benchmarks/speed.py [ROWS]

Prints one table. Each figure is the least of several rounds. Packages that are not installed are
left out.
"""

from __future__ import annotations

import ctypes
import random
import sqlite3
import sys
import tempfile
import time
from array import array
from pathlib import Path
from typing import Any

import group_by
from printed import begin, best, say

import fullercoral as fc
from fullercoral import _header as header
from fullercoral._buffers import address_of
from fullercoral._handle import EMPTY_AT, Handle

try:
    import numpy
except ImportError:
    numpy = None  # type: ignore[assignment]

LOCAL = group_by.LOCAL
COUNT = 20_000  # single edits of a round


# Many rows


def library_alone(columns: list[array[int]]) -> float:
    """Times the library's call with prepared columns."""
    schema = fc.Schema({"a": int, "b": int})
    limits = fc.Limits.for_local(schema, LOCAL)
    least = float("inf")
    for _ in range(5):
        handle = Handle(schema, limits, 1 << 20)
        structs = (header.ColumnStruct * 2)()
        for struct, column in zip(structs, columns):
            struct.numbers, struct.numbers_len = address_of(column), len(column)
            struct.offsets = struct.bytes = struct.valid = EMPTY_AT
            struct.kind = header.INT
        size = ctypes.c_size_t()
        began = time.perf_counter()
        handle.check(
            handle.lib.fc_insert_columns(handle.at, structs, 2, len(columns[0]), ctypes.byref(size))
        )
        least = min(least, time.perf_counter() - began)
        handle.close()
    return least


def extend(a: Any, b: Any) -> float:
    """Times extend_columns into an empty table."""
    least = float("inf")
    for _ in range(5):
        with fc.Table({"a": int, "b": int}, local=LOCAL) as table:
            began = time.perf_counter()
            table.extend_columns(a=a, b=b)
            least = min(least, time.perf_counter() - began)
    return least


def many_rows(rows: int) -> None:
    a, b = array("q", range(rows)), array("q", range(rows, 0, -1))
    alone = library_alone([a, b])
    kinds: dict[str, Any] = {"array": (a, b), "lists": (a.tolist(), b.tolist())}
    if numpy is not None:
        kinds["numpy"] = (numpy.array(a), numpy.array(b))
    for name, columns in kinds.items():
        what = f"extend_columns of {name}, {rows:,} rows of 2 ints"
        say(what, extend(*columns), "the library's call alone", alone)


# One row


def lone_edits(table: fc.Table, rows: int) -> None:
    draw = random.Random(1)
    places = [draw.randrange(rows) for _ in range(COUNT)]
    put, cells = table.set, (array("I", places), array("q", places))

    def numbers() -> None:
        for place in places:
            put(place, "quantity", place)

    def texts() -> None:
        for place in places:
            put(place, "sku", "sku7")

    def rows_of() -> None:
        for place in places:
            table[place]

    def many_numbers() -> None:
        table.set_column("quantity", *cells)

    def many_texts() -> None:
        table.set_column("sku", cells[0], ["sku7"] * COUNT)

    say("set of a number", best(numbers, 15) / COUNT)
    say("  by set_column, of many", best(many_numbers, 15) / COUNT)
    say("set of a text", best(texts, 15) / COUNT)
    say("  by set_column, of many", best(many_texts, 15) / COUNT)
    say("table[place]", best(rows_of) / COUNT)


def appends() -> None:
    with fc.Table({"a": int, "b": int}, local=LOCAL) as table:
        append = table.append

        def all_of_them() -> None:
            for number in range(COUNT):
                append((number, 7))

        say("append of two numbers", best(all_of_them, 15) / COUNT)


def floors(table: fc.Table) -> None:
    """Times a minimal call through ctypes and a minimal statement of SQLite."""
    handle = table._handle
    call, number = handle.lib.short("fc_places"), ctypes.byref(ctypes.c_uint32())
    execute = sqlite3.connect(":memory:").execute

    def calls() -> None:
        for _ in range(COUNT):
            call(handle.at, number)

    def statements() -> None:
        for _ in range(COUNT):
            execute("select 1")

    ours, theirs = best(calls, 15) / COUNT, best(statements, 15) / COUNT
    say("a call of the library that does next to nothing", ours, "SQLite: select 1", theirs)


# Reading


def reading(table: fc.Table, rows: int) -> None:
    if numpy is None:
        say("reading a column to a list", best(lambda: table["quantity"][:]))
        return
    source = numpy.arange(rows)
    copy = best(lambda: source.copy(), 20)
    say("reading a column to numpy", best(lambda: table["quantity"][:], 20), "memcpy of it", copy)


# More than fits


def beyond_memory(rows: int) -> None:
    """Times a table of two numbers over a file, with 8 times its local memory in far form."""
    with tempfile.TemporaryDirectory() as folder:
        engine = fc.Files(Path(folder, "table.far"))
        with fc.Table({"a": int, "b": int}, local=2 * rows, far=engine) as table:
            columns = array("q", range(rows)), array("q", range(rows))
            given = best(lambda: table.extend_columns(a=columns[0], b=columns[1]), 1)
            moved = table.stats().moved
            what = f"extend_columns, {rows:,} rows in {2 * rows / 1e6:.0f} MB"
            say(what, given, f"{moved.evictions:,} evictions")
            total = table.watch(fc.totals("b"))
            say("a new aggregate, from far copies", best(lambda: table.build(total), 1))
            say("reading a whole column, most of it away", best(lambda: table["a"][:], 1))
            draw, count = random.Random(5), 1000
            places = [draw.randrange(rows) for _ in range(count)]

            def each() -> None:
                for place in places:
                    table.set(place, "b", 7)

            say("a set at random, where most is away", best(each, 1) / count)
            places.sort()
            given = best(lambda: table.set_column("b", places, 7), 1)
            say("  by set_column, of 1,000 sorted places", given / count)


def main() -> None:
    rows = int(sys.argv[1]) if len(sys.argv) > 1 else 1_000_000
    drawn = group_by.draw_rows(rows)
    begin()
    many_rows(rows)
    beyond_memory(rows)
    appends()
    with fc.Table({"sku": str, "quantity": int}, local=LOCAL) as table:
        given = best(lambda: table.extend_columns(sku=drawn.skus, quantity=drawn.quantities), 1)
        say(f"extend_columns of {rows:,} texts and numbers", given)
        reading(table, rows)
        lone_edits(table, rows)
        floors(table)
    group_by.measure(rows, LOCAL, say)
    group_by.inserts(drawn, LOCAL, say)


if __name__ == "__main__":
    main()
