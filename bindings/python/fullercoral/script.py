"""The script language of ``docs/SCRIPT.md``, served by a table of this package.

>>> Script().run("schema 4 int\\nwatch totals 0\\ninsert 5\\ninsert 7\\nask 0\\n")
'ok\\naggregate 0\\nplace 0\\nplace 1\\ncount 2 sum 12\\n'
"""

from __future__ import annotations

from ctypes import addressof
from typing import Any, Callable, Iterator

from . import _header as header
from ._reading import Reader
from ._records import Cells, number_of, record_text, records, value_of
from .aggregates import Spec, Watched
from .column import Value
from .engines import Engine, Memory
from .errors import (
    Absent,
    NoAggregate,
    NoColumn,
    NoRow,
    OutOfRange,
    Refused,
    RemovedRow,
    WrongKind,
)
from .limits import Limits
from .policy import Policy, build
from .schema import Schema
from .table import Table

_FIRST_STORE = 1_048_576
_USUAL = {"int_segments": 64, "int_size": 4096, "text_segments": 64, "text_size": 65_536}
_NUMBER_TESTS = {"=": 0, "!=": 1, "<": 2, "<=": 3, ">": 4, ">=": 5}
_TEXT_IS, _TEXT_BEGINS = 6, 7

Rows = Callable[[int], str]


class NoCommand(Exception):
    """The line is not a command of the language."""


class _Words:
    """The words of a line after the first, each after one space."""

    def __init__(self, line: str) -> None:
        self._left: str | None = line

    def word(self) -> str:
        """Takes the next word."""
        if self._left is None:
            raise NoCommand
        word, space, rest = self._left.partition(" ")
        self._left = rest if space else None
        return word

    def number(self, below: int = 1 << 32) -> int:
        """Takes the next word as an unsigned number below a bound."""
        word = self.word()
        if not (word.isascii() and word.isdigit()) or len(word) > 400 or int(word) >= below:
            raise NoCommand
        return int(word)

    def rest(self) -> str:
        """Takes the rest of the line, with its spaces."""
        if self._left is None:
            raise NoCommand
        rest, self._left = self._left, None
        return rest

    def next_is(self, word: str) -> bool:
        """Takes the next word if it is this one; returns whether it did."""
        if self._left is not None and self._left.partition(" ")[0] == word:
            self.word()
            return True
        return False

    @property
    def more(self) -> bool:
        """Whether a word is left."""
        return self._left is not None

    def end(self) -> None:
        """Raises `NoCommand` if a word is left."""
        if self._left is not None:
            raise NoCommand


class Script:
    """Serves the commands of the script language, line by line.

    It follows the language, and moves only what a command moves, with one exception. A `recount` of
    objects that are away takes job numbers, and fetches objects of a row group if its others were
    written since. The first command is ``schema``, unless a table is given.
    """

    def __init__(self, table: Table | None = None, engine: Engine | None = None) -> None:
        self.table: Any = table
        self.commands = 0
        self._engine = engine

    # Lines

    def run(self, text: str) -> str:
        """Serves a whole script, and returns its replies as ``farframe`` prints them."""
        return "".join(self._replies(text))

    def _replies(self, text: str) -> Iterator[str]:
        rest = text.encode()

        def rows(count: int) -> str:
            nonlocal rest
            taken, rest = rest[:count], rest[count:]
            return taken.decode()

        while rest:
            line, end, rest = rest.partition(b"\n")
            reply = self.printed((line.removesuffix(b"\r") if end else line).decode(), rows)
            if reply:
                yield reply + "\n"
            if self.table is None and self.commands:
                return

    def printed(self, line: str, rows: Rows | None = None) -> str:
        """Serves a line, and returns its reply with refusals as ``farframe`` prints them."""
        try:
            return self.serve(line, rows)
        except NoCommand:
            return f"syntax command {self.commands}"
        except Refused as error:
            return self.refusal_text(error)

    def refusal_text(self, error: Refused) -> str:
        """Formats a refusal as ``farframe`` prints it."""
        carried = ""
        if error.pending is not None:
            carried = f" {error.pending}"
        elif error.number == Absent.number:
            carried = f" {self.table.schema.index(error.column)} {error.group}"
        return f"refused {error.number} {error.name}{carried}"

    def serve(self, line: str, rows: Rows | None = None) -> str:
        """Serves a line, and returns its reply; raises `NoCommand` or the refusal."""
        if not line:
            return ""
        self.commands += 1
        verb, space, left = line.partition(" ")
        words = _Words(left)
        if not space:
            words.rest()
        if self.table is None or verb == "schema":
            return self._schema(verb, words)
        if verb == "load":
            return self._load(words, rows)
        serve = _COMMANDS.get(verb)
        if serve is None:
            raise NoCommand
        with self.table._lock:
            self.table._forget_answers()
            return serve(self, words)

    def _schema(self, verb: str, words: _Words) -> str:
        if verb != "schema" or self.table is not None:
            raise NoCommand
        group, kinds = words.number(), words.word().split(",")
        if not set(kinds) <= {"int", "text"}:
            raise NoCommand
        limits: dict[str, int] = {"group": group, **_USUAL}
        limits["int_size"] = max(group, limits["int_size"])
        if words.more:
            limits |= {"places": words.number(), "edits": words.number(1 << 64)}
            for name in ("int_segments", "int_size", "text_segments", "text_size"):
                limits[name] = words.number()
            words.end()
        schema = Schema((f"column{at}", kind) for at, kind in enumerate(kinds))
        self.table = Table(
            schema,
            far=self._engine or Memory(),
            limits=Limits(**limits),
            policy=None,
            contents=_FIRST_STORE,
        )
        return "ok"

    # Edits

    def _insert(self, words: _Words) -> str:
        found = records(words.rest())
        if len(found) != 1:
            raise NoCommand
        return f"place {self._insert_fields(found[0])}"

    def _insert_fields(self, fields: list[str]) -> int:
        table = self.table
        kinds = [*table.schema.kinds, *[None] * len(fields)]
        values = [value_of(field, kind) for field, kind in zip(fields, kinds)]
        cells = Cells(values)
        code = table._handle.lib.fc_insert(table._at, cells.array, cells.length, table._place_at)
        if code == WrongKind.number:
            self._wrong_kind(values)
        self._check(code)
        table._places += 1
        table._live += 1
        return int(table._places) - 1

    def _load(self, words: _Words, rows: Rows | None) -> str:
        count = words.number()
        words.end()
        if rows is None:
            raise NoCommand
        with self.table._lock:
            self.table._forget_answers()
            for done, fields in enumerate(found := records(rows(count))):
                try:
                    self._insert_fields(fields)
                except Refused as error:
                    return f"loaded {done}\n{self.refusal_text(error)}"
            return f"loaded {len(found)}"

    def _set(self, words: _Words) -> str:
        table = self.table
        place, column, found = words.number(), words.number(), records(words.rest())
        if len(found) != 1 or len(found[0]) != 1:
            raise NoCommand
        kind = table.schema.kinds[column] if column < len(table.schema) else None
        values = [*[None] * column, value_of(found[0][0], kind)] if kind else [None]
        cell = Cells(values[-1:])
        code = table._handle.lib.fc_set(table._at, column, place, cell.array)
        if code == WrongKind.number:
            self._wrong_kind(values)
        if code in (NoRow.number, RemovedRow.number):
            raise table._handle.refusal(code, place=place, places=table.places)
        self._check(code)
        return "ok"

    def _wrong_kind(self, values: list[Value]) -> None:
        """Raises the refusal of a value that its column cannot hold, naming the column."""
        schema = self.table.schema
        for name, kind, value in zip(schema.names, schema.kinds, values):
            if value is not None and not isinstance(value, kind):
                raise WrongKind(column=name, kind=kind.__name__, value=value)

    def _remove(self, words: _Words) -> str:
        self._step("remove", words.number(), words)
        self.table._live -= 1
        return "ok"

    # Aggregates

    def _watch(self, words: _Words) -> str:
        fold = words.word()
        if fold not in ("totals", "extrema"):
            raise NoCommand
        value = words.number()
        key = words.number() if words.next_is("by") else None
        tests = []
        while words.more:
            if words.word() != "if":
                raise NoCommand
            tests.append((words.number(), words.word(), words.word()))
        return f"aggregate {self._register(fold, value, key, tests)}"

    def _register(
        self, fold: str, value: int, key: int | None, tests: list[tuple[int, str, str]]
    ) -> int:
        table = self.table
        array = (header.TestStruct * max(1, len(tests)))()
        for struct, test in zip(array, tests):
            self._fill_test(struct, *test)
        folds = {"totals": header.TOTALS, "extrema": header.EXTREMA}
        spec = header.SpecStruct(None, len(tests), folds[fold], value, key or 0, key is not None)
        spec.tests = addressof(array)
        number = int(table._handle.watch(spec))
        names = table.schema.names
        where = tuple(
            (names[column], op, constant if struct.op >= _TEXT_IS else struct.number)
            for struct, (column, op, constant) in zip(array, tests)
        )
        about = Spec(fold, names[value], None if key is None else names[key], where)
        table._add_watched(Watched(table, about, number))
        table._watched[-1]._struct = (spec, array)
        return number

    def _fill_test(self, test: header.TestStruct, column: int, op: str, constant: str) -> None:
        kinds = self.table.schema.kinds
        kind = kinds[column] if column < len(kinds) else None
        number = number_of(constant)
        if not constant or (op not in _NUMBER_TESTS and op != "^="):
            raise NoCommand
        is_text = (
            op == "^="
            or {
                int: number is None,
                str: op == "=",
                None: number is None and op == "=",
            }[kind]
        )
        if not is_text and number is None and kind is not None:
            raise NoCommand
        encoded = constant.encode() if is_text else b""
        test.column, test.text_at, test.text_len = column, encoded, len(encoded)
        test.number = number or 0
        test.op = (_TEXT_BEGINS if op == "^=" else _TEXT_IS) if is_text else _NUMBER_TESTS[op]

    def _watched(self, number: int) -> Any:
        for watched in self.table._watched:
            if watched._number == number:
                return watched
        raise NoAggregate()

    def _unwatch(self, words: _Words) -> str:
        number = words.number()
        words.end()
        self.table.unwatch(self._watched(number))
        return "ok"

    def _ask(self, words: _Words) -> str:
        number = words.number()
        words.end()
        watched, handle = self._watched(number), self.table._handle
        self._check(handle.lib.fc_ask(handle.at, number, watched._size_at))
        return _answer_text(watched, watched._size.value)

    def _recount(self, words: _Words) -> str:
        number = words.number()
        words.end()
        watched, handle = self._watched(number), self.table._handle
        if self.table._mover.absent_of(watched.spec.columns()) is None:
            self._check(handle.lib.fc_recount(handle.at, number, watched._size_at))
            return _answer_text(watched, watched._size.value)
        second = Watched(self.table, watched.spec, handle.watch(watched._struct[0]))
        try:
            build(self.table._mover, Policy(prefetch=False), second.number)
            self._check(handle.lib.fc_ask(handle.at, second.number, second._size_at))
            return _answer_text(second, second._size.value)
        finally:
            handle.step("unwatch", second.number)

    # Parts of columns

    def _lend(self, words: _Words) -> str:
        column, start, stop = words.number(), words.number(), words.number()
        words.end()
        table = self.table
        if column >= len(table.schema):
            raise NoColumn()
        if start > stop or stop > table.places:
            raise OutOfRange()
        if start == stop:
            return "empty"
        reader = Reader(table._mover, None)
        is_int = table.schema.kinds[column] is int
        read = reader.numbers if is_int else reader.texts
        values, valid, alive = read(column, start, stop)
        size, pieces = table.limits.group, []
        for group in range(start // size, (stop - 1) // size + 1):
            part = slice(max(group * size, start) - start, min((group + 1) * size, stop) - start)
            cells = [v if has else None for v, has in zip(values[part], valid[part])]
            marks = "".join("+" if lives else "-" for lives in alive[part])
            pieces.append(f"piece {marks} {record_text(cells)}")
        return "\n".join(pieces)

    def _dump(self, words: _Words) -> str:
        words.end()
        table, rows = self.table, list[str]()
        for group in range(table._handle.groups()):
            for column in range(len(table.schema)):
                if not table._handle.object(column, group).local:
                    raise Absent(column=table.schema.names[column], group=group)
        for batch in table.batches():
            rows += map(record_text, batch.rows())
        return "\n".join([f"rows {len(rows)}", *rows])

    def _prefetch(self, words: _Words) -> str:
        column = words.number()
        words.end()
        groups = self.table._handle.proposals(column)
        return " ".join(["next", *(map(str, groups) if groups else ["none"])])

    # Objects and jobs

    def _begin_evict(self, words: _Words) -> str:
        return f"job {self._begin(self.table._handle.begin_evict, words)}"

    def _begin_fetch(self, words: _Words) -> str:
        return f"job {self._begin(self.table._handle.begin_fetch, words)}"

    def _begin_offload(self, words: _Words) -> str:
        return f"job {self._begin(self.table._handle.begin_offload, words)}"

    def _begin(self, begin: Callable[[int, int], int], words: _Words) -> int:
        first, second = words.number(), words.number()
        words.end()
        return begin(first, second)

    def _carry(self, words: _Words) -> str:
        job = words.number(1 << 64)
        words.end()
        self.table._mover.carry(job)
        return "carried"

    def _end_job(self, name: str, words: _Words) -> str:
        job = words.number(1 << 64)
        words.end()
        self.table._handle.step(name, job)
        moved = self.table._mover.counters
        if name == "commit":
            moved.evictions += 1
        elif name == "install":
            moved.fetches += 1
        else:
            moved.offloads += 1
        return "ok"

    def _renew(self, words: _Words) -> str:
        capacity = words.number()
        words.end()
        self.table._mover.renew(contents=capacity)
        return "renewed"

    def _compact(self, words: _Words) -> str:
        kinds = {"int": header.INT, "text": header.TEXT}
        kind = words.word()
        if kind not in kinds:
            raise NoCommand
        self._step("compact", kinds[kind], words.number(), words)
        return "ok"

    def _step(self, name: str, *arguments: Any) -> None:
        """Makes a call with numbers, after checking that the line has ended."""
        *numbers, words = arguments
        words.end()
        self.table._handle.step(name, *numbers)

    def _two(self, name: str, words: _Words) -> str:
        self._step(name, words.number(), words.number(), words)
        return "ok"

    def _check(self, code: int) -> None:
        self.table._handle.check(code)


def _answer_text(watched: Watched[Any], lines: int) -> str:
    """Formats the answer that the handle holds as a script shows it."""
    shown = []
    for key, line in watched._lines.first(lines):
        first = "" if key is None else record_text([key]) + " "
        said = " ".join(f"{name} {value}" for name, value in zip(line._fields, line))
        shown.append(first + said)
    return "\n".join(shown) or "none"


_COMMANDS: dict[str, Callable[[Script, _Words], str]] = {
    "insert": Script._insert,
    "set": Script._set,
    "remove": Script._remove,
    "watch": Script._watch,
    "unwatch": Script._unwatch,
    "scan": lambda script, words: script._two("scan", words),
    "ask": Script._ask,
    "recount": Script._recount,
    "lend": Script._lend,
    "pin": lambda script, words: script._two("pin", words),
    "unpin": lambda script, words: script._two("unpin", words),
    "evac": Script._begin_evict,
    "fetch": Script._begin_fetch,
    "offload": Script._begin_offload,
    "carry": Script._carry,
    "commit": lambda script, words: script._end_job("commit", words),
    "install": lambda script, words: script._end_job("install", words),
    "merge": lambda script, words: script._end_job("merge", words),
    "compact": Script._compact,
    "prefetch": Script._prefetch,
    "renew": Script._renew,
    "dump": Script._dump,
}
