"""Compares counts and sums by key under edits with SQLite with triggers, and pandas.

    python3 benchmarks/group_by.py [ROWS]

All have the same rows, of one of 1,000 keys and a number, and get the same edits of numbers at
random places, which are drawn before the clock starts. A question asks for one key, or for all.
After each case the benchmark compares our answers with SQLite's.

- Our table watches the answer. It makes edits by ``set``, or many by one ``set_column``, with an
  ``array`` of places and one of values.
- "the library's calls alone" are the same calls by ctypes, with prepared arguments, on another
  table: the lower bound for the package.
- SQLite is in memory, in one transaction that is never committed, without a journal. A trigger
  keeps the totals in a table whose primary key is the key. It makes edits by ``execute``, or many
  by one ``executemany``, with prepared tuples.
- pandas has a categorical column of keys. It sets all values by one assignment, and groups and sums
  all rows at each question.

Each figure is for the edits and one question after them: the least of some rounds. In a round all
but pandas take turns, and another table comes first each time: what ran before fills the caches.
"""

from __future__ import annotations

import random
import sqlite3
import sys
import time
from array import array
from collections import deque
from typing import Any, Callable, NamedTuple, Union

from printed import begin, say

import fullercoral as fc

try:
    import pandas  # type: ignore[import]
except ImportError:
    pandas = None

LOCAL = "512MB"
KEYS = 1000
ROUNDS = 40
CELLS_A_ROUND = 1000  # the edits of a round, with a question after each group of them
MOST_QUESTIONS = 100

_SQLITE = """
    pragma journal_mode = off;
    pragma synchronous = off;
    pragma locking_mode = exclusive;
    pragma temp_store = memory;
    create table orders (place integer primary key, sku {kind}, quantity integer);
    create table sold (sku {kind} primary key, count integer, sum integer) without rowid;
    begin;
"""
_ON_UPDATE = """
    create trigger kept after update of quantity on orders begin
        update sold set sum = sum - old.quantity + new.quantity where sku = old.sku;
    end;
"""
_ON_INSERT = """
    create trigger added after insert on orders begin
        insert into sold values (new.sku, 1, new.quantity)
        on conflict do update set count = count + 1, sum = sum + new.quantity;
    end;
"""
_SET = "update orders set quantity = ? where place = ?"

Key = Union[int, str]
Say = Callable[..., None]


class Edits(NamedTuple):
    """Some edits, in the form that each table takes."""

    places: array[int]
    values: array[int]
    tuples: list[tuple[int, int]]


class Drawn(NamedTuple):
    """The rows of all tables, and the kind of their keys."""

    skus: list[Any]
    quantities: list[int]
    kind: type = str

    def key(self, number: int) -> Key:
        """Returns one of the keys."""
        return f"sku{number}" if self.kind is str else number

    def sqlite(self) -> str:
        """Returns the tables for SQLite."""
        return _SQLITE.format(kind="text" if self.kind is str else "integer")


def draw_rows(rows: int, kind: type = str) -> Drawn:
    """Draws rows, the same each time."""
    draw, key = random.Random(2), Drawn([], [], kind).key
    skus = [key(draw.randrange(KEYS)) for _ in range(rows)]
    return Drawn(skus, [draw.randrange(1, 10) for _ in range(rows)], kind)


class Ours:
    """The package's own table."""

    def __init__(self, drawn: Drawn, local: str) -> None:
        self.table = fc.Table({"sku": drawn.kind, "quantity": int}, local=local)
        self.table.extend_columns(sku=drawn.skus, quantity=drawn.quantities)
        self.sold = self.table.watch(fc.totals("quantity", by="sku"))
        self.table.build(self.sold)
        self.one: Callable[[Key], Any] = self.sold.get
        self.all: Callable[[], Any] = self.sold.items

    def lone(self, edits: Edits) -> None:
        put = self.table.set
        for value, place in edits.tuples:
            put(place, "quantity", value)

    def many(self, edits: Edits) -> None:
        self.table.set_column("quantity", edits.places, edits.values)


class CallsAlone(Ours):
    """The library's calls with prepared arguments."""

    def __init__(self, drawn: Drawn, local: str) -> None:
        super().__init__(drawn, local)
        self._index = self.table.schema.index("quantity")
        slots = self.sold._slots
        self._slots = {key: slots.take(key) for key in map(drawn.key, range(KEYS))}
        self.all = lambda: [*self.sold._lines.parts(self.sold._ask())]  # read, and not converted

    def one(self, key: Key) -> Any:  # type: ignore[override]
        cell_at, line_at, *_ = self._slots[key]
        return self.sold._slots.fc_ask_key(self.table._at, self.sold.number, cell_at, line_at)

    def lone(self, edits: Edits) -> None:
        table, index = self.table, self._index
        fc_set, at, cell = table._fc_set, table._at, table._number_at
        for place in edits.places:
            fc_set(at, index, place, cell)
        table._answer = None

    def many(self, edits: Edits) -> None:
        self.table._arrays.set(self._index, edits.places, edits.values)
        self.table._answer = None


class Sqlite:
    """SQLite with a trigger."""

    def __init__(self, drawn: Drawn) -> None:
        self.base = sqlite3.connect(":memory:", isolation_level=None)
        self.base.executescript(drawn.sqlite())
        rows = zip(range(len(drawn.skus)), drawn.skus, drawn.quantities)
        self.base.executemany("insert into orders values (?, ?, ?)", rows)
        folds = "count(quantity), sum(quantity)"
        self.base.execute(f"insert into sold select sku, {folds} from orders group by sku")
        self.base.executescript(_ON_UPDATE)

    def one(self, key: Key) -> Any:
        return self.base.execute("select count, sum from sold where sku = ?", (key,)).fetchone()

    def all(self) -> Any:
        return self.base.execute("select sku, count, sum from sold order by sku").fetchall()

    def lone(self, edits: Edits) -> None:
        execute = self.base.execute
        for edit in edits.tuples:
            execute(_SET, edit)

    def many(self, edits: Edits) -> None:
        self.base.executemany(_SET, edits.tuples)


class Pandas:
    """pandas, which recomputes."""

    def __init__(self, drawn: Drawn) -> None:
        self.frame = pandas.DataFrame(
            {"sku": pandas.Categorical(drawn.skus), "quantity": drawn.quantities}
        )

    def all(self) -> Any:
        return self.frame.groupby("sku", observed=True)["quantity"].agg(["count", "sum"])

    def one(self, key: Key) -> Any:
        return self.all().loc[key]

    def many(self, edits: Edits) -> None:
        self.frame.iloc[edits.places.tolist(), 1] = edits.values.tolist()

    lone = many


class Case(NamedTuple):
    """A case: the edits before a question, how they are made, and the question."""

    edits: int
    way: str
    question: str

    def __str__(self) -> str:
        how = {"lone": "set", "many": "set_column"}[self.way]
        asked = "one key" if self.question == "one" else f"all {KEYS:,} keys"
        return f"{self.edits:,} edit{'s' * (self.edits > 1)} by {how}, then {asked}"


MAIN = [Case(1000, "many", "one"), Case(1, "lone", "one"), Case(10_000, "many", "all")]
MORE = [Case(1, "many", "one"), Case(10, "many", "one"), Case(10, "lone", "one")]
MORE += [Case(1, "lone", "all"), Case(1000, "lone", "all")]


def _draw(drawn: Drawn, case: Case, draw: random.Random) -> tuple[list[Edits], list[Key]]:
    """Draws a round: edits, and a key for the question after each group of them."""
    questions, rows = max(1, min(MOST_QUESTIONS, CELLS_A_ROUND // case.edits)), len(drawn.skus)
    edits = []
    for _ in range(questions):
        places = array("I", (draw.randrange(rows) for _ in range(case.edits)))
        values = array("q", (draw.randrange(1, 10) for _ in range(case.edits)))
        edits.append(Edits(places, values, list(zip(values, places))))
    return edits, [drawn.key(draw.randrange(KEYS)) for _ in edits]


def _round(of: Any, case: Case, edits: list[Edits], keys: list[Key]) -> float:
    """Returns the seconds of some edits and a question after them."""
    edit, ask_one, ask_all = getattr(of, case.way), of.one, of.all
    is_one = case.question == "one"
    began = time.perf_counter()
    for some, key in zip(edits, keys):
        edit(some)
        ask_one(key) if is_one else ask_all()
    return (time.perf_counter() - began) / len(keys)


class Measured:
    """All tables, and the measurements of them."""

    def __init__(self, drawn: Drawn, local: str, say: Say) -> None:
        self._drawn, self._say = drawn, say
        self._draw = random.Random(5)
        self._ours, self._sqlite = Ours(drawn, local), Sqlite(drawn)
        self._alone = CallsAlone(drawn, local)
        self._frame = Pandas(drawn) if pandas is not None else None

    def case(self, case: Case) -> None:
        """Measures a case, and compares the answers."""
        ours, sqlite, alone = self._ours, self._sqlite, self._alone
        times: dict[Any, list[float]] = {ours: [], sqlite: [], alone: []}
        turns = deque(times.items())
        for _ in range(ROUNDS if case.edits <= 1000 else ROUNDS // 4):
            edits, keys = _draw(self._drawn, case, self._draw)
            for of, seconds in turns:
                seconds.append(_round(of, case, edits, keys))
            turns.rotate()
        assert {key: tuple(line) for key, *line in sqlite.all()} == ours.sold.to_dict()
        least, keys_are = min(times[ours]), "" if self._drawn.kind is str else " (of numbers)"
        self._say(f"{case}{keys_are}", least, "SQLite with a trigger", min(times[sqlite]))
        self._say("", least, "the library's calls alone", min(times[alone]))
        if self._frame is not None and case in MAIN:
            edits, keys = _draw(self._drawn, case, self._draw)
            taken = min(_round(self._frame, case, edits[:3], keys[:3]) for _ in range(2))
            self._say("", least, "pandas, recomputing", taken)

    def close(self) -> None:
        """Closes the tables."""
        self._ours.table.close()
        self._alone.table.close()
        self._sqlite.base.close()


def measure(rows: int, local: str, say: Say) -> None:
    """Measures all cases; ``say`` gets the case, our seconds, the other's name and seconds."""
    for kind, cases in ((str, MAIN + MORE), (int, MAIN)):
        measured = Measured(draw_rows(rows, kind), local, say)
        for case in cases:
            measured.case(case)
        measured.close()


def inserts(drawn: Drawn, local: str, say: Say) -> None:
    """Measures inserts of all rows while count and sum by key are kept."""
    rows = len(drawn.skus)
    with fc.Table({"sku": str, "quantity": int}, local=local) as table:
        table.watch(fc.totals("quantity", by="sku"))
        began = time.perf_counter()
        table.extend_columns(sku=drawn.skus, quantity=drawn.quantities)
        ours = time.perf_counter() - began
    base = sqlite3.connect(":memory:", isolation_level=None)
    base.executescript(drawn.sqlite() + _ON_INSERT)
    given = list(zip(range(rows), drawn.skus, drawn.quantities))
    began = time.perf_counter()
    base.executemany("insert into orders values (?, ?, ?)", given)
    theirs = time.perf_counter() - began
    base.close()
    say(f"{rows:,} inserts under the count and sum", ours, "SQLite with a trigger", theirs)


def main() -> None:
    rows = int(sys.argv[1]) if len(sys.argv) > 1 else 1_000_000
    begin()
    measure(rows, LOCAL, say)


if __name__ == "__main__":
    main()
