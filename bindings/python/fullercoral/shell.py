"""The shell: the script language with named columns, CSV files and a map of memory."""

from __future__ import annotations

import re
import sys
import time
from typing import Any, Callable, Iterator, TextIO

from . import display
from .csv_files import CsvOptions, guess_schema, scaled
from .engines import Files, Memory
from .errors import Building, NoColumn, Refused
from .picture import counted
from .policy import Helper, Policy
from .progress import Shown
from .schema import parse_schema
from .script import NoCommand, Script
from .table import Table

HELP = """\
Commands of the shell. Replace the words in capitals. A column is a name, "in quotes" if it has
spaces, or a number.
  .open NAME:KIND,NAME:KIND .. [local=64MB] [far=FILE] [group=N]
                          a new table; a KIND is int or text
  .import FILE.csv [local=64MB] [far=FILE] [scaled=price:2,tax:2] [delimiter=;] [encoding=latin-1]
                          appends the rows of a CSV file; opens a table first if none is open;
                          reads 1.99 as 199 in columns scaled by 2 decimals
  .export FILE.csv        writes the live rows
  .rows [FROM [TO]]       shows rows, or the first and the last ones
  .watch totals quantity by sku if quantity > 0
                          registers an aggregate and shows its answer
  .ask N                  shows the answer of aggregate N; builds pending row groups first
  .status                 shows where objects are, memory, faults, aggregates
  .evict [COLUMN [GROUP]] evicts an object, a column or all of the table
  .plot FILE.svg          writes the map of .status as a picture
  .policy on|off          lets commands fetch and evict what they need, or not
  .time on|off            shows the time of each command, or not
  .close  .quit  help [WORD]

Commands of the script language (docs/SCRIPT.md):
  insert CSV              set PLACE COLUMN CSV      remove PLACE          dump
  watch totals COLUMN [by COLUMN] [if COLUMN OP VALUE].. (or extrema)     unwatch N
  scan N GROUP            ask N                     recount N             lend COLUMN FROM TO
  pin COLUMN GROUP        unpin COLUMN GROUP        evac COLUMN GROUP     fetch COLUMN GROUP
  offload N GROUP         carry JOB                 commit JOB            install JOB   merge JOB
  prefetch COLUMN         compact int|text SEGMENT  renew N               load BYTES
  schema GROUP KINDS      opens a table without names, as a script's first line does"""

_SCRIPT_WORDS = (
    "schema insert set remove watch unwatch scan ask recount lend pin unpin evac fetch offload "
    "carry commit install merge compact prefetch renew load dump"
).split()

_COLUMN_FIRST = ("lend", "pin", "unpin", "evac", "fetch", "prefetch")
_WORD = '"[^"]*"|[^ ]+'
_SET = re.compile(f" *([^ ]+) +({_WORD})( .*)?", re.DOTALL)  # place, column, record


class Shell:
    """Serves lines over a table. Replies go to ``out``; refusals are sentences if ``friendly``."""

    def __init__(self, out: TextIO | None = None, friendly: bool = True) -> None:
        self.out = out or sys.stdout
        self.friendly = friendly
        self.script = Script()
        self.timed = False
        self.policy: Any = None
        self.done = False
        self.failed = False  # whether a line was refused or not a command

    @property
    def table(self) -> Table | None:
        """The open table, or None."""
        table: Table | None = self.script.table
        return table

    def words(self) -> list[str]:
        """Returns the words that a line can begin with."""
        return [*(f".{name}" for name in _DOTTED), "help", *_SCRIPT_WORDS]

    def line(self, line: str, rows: Callable[[int], str] | None = None) -> None:
        """Serves a line, and writes its reply."""
        if not line.strip():
            return
        began = time.perf_counter()
        try:
            reply = self._reply(line, rows)
        except (NoCommand, OSError, Refused, ValueError) as error:
            reply, self.failed = self._said(line, error), True
        if reply:
            print(reply, file=self.out)
        if self.timed:
            print(f"({_duration(time.perf_counter() - began)})", file=self.out)
        self.out.flush()

    def _said(self, line: str, error: Exception) -> str:
        if isinstance(error, NoCommand):
            return self._no_command(line)
        if isinstance(error, Refused):
            return self._refusal(error)
        if isinstance(error, OSError) and error.filename:
            return f"{error.filename}: {error.strerror}"
        return f"{error}"

    def _reply(self, line: str, rows: Callable[[int], str] | None) -> str:
        word, _, rest = line.strip().partition(" ")
        if word in ("help", "?", ".help"):
            return _help(rest.strip())
        if self.friendly and word in ("exit", "quit"):
            return self._quit("")
        if word.startswith("."):
            serve = _DOTTED.get(word[1:])
            if serve is None:
                raise NoCommand
            return serve(self, rest.strip())
        if self.table is None and word != "schema":
            if self.friendly:
                self._open()
            return self.script.printed(line, rows)
        return self._scripted(self._with_numbers(line) if self.friendly else line, rows)

    def _scripted(self, line: str, rows: Callable[[int], str] | None) -> str:
        """Serves a line as a script; with a policy, fetches what it needs and repeats it."""
        table = self.table
        if table is None or self.policy is None:
            return self.script.serve(line, rows)
        with table._lock, Helper(table._mover, self.policy) as helper:
            while True:
                try:
                    return self.script.serve(line, rows)
                except Refused as error:
                    if not self._has_helped(line, error, helper):
                        raise
                    self.script.commands -= 1

    def _has_helped(self, line: str, error: Refused, helper: Helper) -> bool:
        verb = line.partition(" ")[0]
        if isinstance(error, Building) and verb == "ask":
            self._open().build(self.script._watched(int(line.split(" ")[1])))
            return True
        if verb in ("insert", "set", "remove", "lend", "pin", "install"):
            return helper.has_helped(error.number)
        return False

    # Names for numbers

    def _with_numbers(self, line: str) -> str:
        """Returns a script's command: numbers for names of columns, and single spaces."""
        verb, _, rest = line.lstrip().partition(" ")
        if verb == "insert":
            return f"{verb} {rest}"
        if verb == "set":
            found = _SET.fullmatch(rest)
            return f"set {found[1]} {self._number(found[2])}{found[3] or ''}" if found else line
        words = _words(rest)
        if verb == "watch":
            words = [*self._watch_words(words)]
        elif verb in _COLUMN_FIRST:
            words[:1] = map(self._number, words[:1])
        return " ".join([verb, *words])

    def _watch_words(self, words: list[str]) -> Iterator[str]:
        before = ""
        for at, word in enumerate(words):
            yield self._number(word) if at == 1 or before in ("by", "if") else word
            before = word

    def _number(self, word: str) -> str:
        table, name = self.table, word.strip('"')
        if table is None or word.isdigit():
            return word
        if name in table.schema:
            return str(table.schema.index(name))
        raise NoColumn(column=name, columns=table.schema.names)

    # What goes wrong, in sentences

    def _refusal(self, error: Refused) -> str:
        if not self.friendly:
            return self.script.refusal_text(error)
        return f"refused: {error}"

    def _no_command(self, line: str) -> str:
        if not self.friendly:
            return f"syntax command {self.script.commands}"
        word = line.split()[0]
        if word in _SCRIPT_WORDS or word[1:] in _DOTTED:
            return f"this is not a valid {word} command: {_form(word)}"
        return f"there is no command {word!r}; try help"

    def _open(self) -> Table:
        if self.table is None:
            said = "no table is open: use .open NAME:KIND,.. or .import FILE.csv, or help"
            raise ValueError(said)
        return self.table

    # Commands of the shell

    def _new(self, schema: Any, options: dict[str, str]) -> Table:
        far: Any = Files(options["far"]) if "far" in options else Memory()
        group = int(options["group"]) if "group" in options else None
        table = Table(schema, options.get("local", "64MB"), far, group=group)
        self._close("")
        self.script = Script(table)
        self.script.commands = 1
        self.policy = table.policy
        return table

    def _dot_open(self, rest: str) -> str:
        names, options = _options(rest, ("local", "far", "group"))
        if not names:
            raise ValueError("write .open NAME:KIND,NAME:KIND, as .open sku:text,quantity:int")
        self._new(parse_schema(names), options)
        return "ok"

    def _close(self, rest: str) -> str:
        if self.table is not None:
            self.table.close()
        self.script, self.policy = Script(), None
        return "ok"

    def _import(self, rest: str) -> str:
        known = ("local", "far", "group", "scaled", "delimiter", "encoding")
        path, options = _options(rest, known)
        if not path:
            raise ValueError("write .import FILE.csv")
        asked: dict[str, Any] = {"convert": _conversions(options.pop("scaled", ""))}
        asked |= {name: options.pop(name) for name in known[4:] if name in options}
        if asked.get("delimiter") in ("\\t", "tab"):
            asked["delimiter"] = "\t"
        if self.table is None:
            self._new(guess_schema(path, CsvOptions(**asked)), options)
        table = self._open()
        began = time.perf_counter()
        places = table.load_csv(path, progress=self.friendly, **asked)
        seconds = time.perf_counter() - began
        columns = ", ".join(f"{name} {table.schema[name].__name__}" for name in table.schema)
        return f"{len(places):,} rows in {_duration(seconds)}: {columns}"

    def _export(self, rest: str) -> str:
        if not rest:
            raise ValueError("write .export FILE.csv")
        return f"{self._open().to_csv(rest, progress=self.friendly):,} rows"

    def _rows(self, rest: str) -> str:
        table, bounds = self._open(), [_whole(word) for word in rest.split()]
        if not bounds:
            return repr(table)
        start = bounds[0]
        stop = min(bounds[1] if len(bounds) > 1 else start + 20, table.places)
        rows: list[tuple[int, Any]] = []
        for batch in table.batches(start=start, stop=stop):
            rows += zip(batch.places, batch.rows())
        return display.rows_as_text(table, rows)

    def _watch(self, rest: str) -> str:
        table = self._open()
        line = self._with_numbers(f"watch {rest}")
        word = line.split(" ")[2] if line.count(" ") > 1 else ""
        if word.isdigit() and int(word) < len(table.schema):
            name = table.schema.names[int(word)]
            if table.schema[name] is not int:
                raise ValueError(
                    f"column {name} holds texts, but only numbers can be summed or compared; "
                    f'if they are like 1.99: .close, then .import FILE.csv scaled="{name}:2"'
                )
        number = self.script.serve(line).split()[1]
        return f"aggregate {number}\n{self._ask(number)}" if len(table) else f"aggregate {number}"

    def _ask(self, rest: str) -> str:
        watched = self.script._watched(_whole(rest or "0"))
        if watched.pending:
            with Shown(self.friendly, "building", " row groups") as shown:
                self._open().build(watched, shown)
        lines = watched.lines()
        return display.lines_as_text(watched, lines)

    def _status(self, rest: str) -> str:
        table = self._open()
        parts = [str(table.map()) if len(table) else "no rows yet", str(table.stats())]
        for watched in table.watched:
            pending = f", {watched.pending:,} row groups pending" if watched.pending else ""
            parts.append(f"aggregate {watched.number}: {watched.spec!r}{pending}")
        parts.append(f"policy {'on' if self.policy else 'off'}; far: {table.engine!r}")
        return "\n".join(parts)

    def _evict(self, rest: str) -> str:
        table, words = self._open(), _words(rest)
        column, names = words[0].strip('"') if words else None, table.schema.names
        if column and column.isdecimal() and int(column) < len(names):
            column = names[int(column)]
        gone = table.evict(column, _whole(words[1]) if len(words) > 1 else None)
        return f"evicted {counted(gone, 'object')}"

    def _plot(self, rest: str) -> str:
        if not rest:
            raise ValueError("write .plot FILE.svg")
        self._open().plot(rest)
        return f"wrote {rest}"

    def _set_policy(self, rest: str) -> str:
        table = self._open()
        table.policy = self.policy = Policy() if _switch(rest, "policy") else None
        return "ok"

    def _set_time(self, rest: str) -> str:
        self.timed = _switch(rest, "time")
        return "ok"

    def _quit(self, rest: str) -> str:
        self.done = True
        return ""


_DOTTED: dict[str, Callable[[Shell, str], str]] = {
    "open": Shell._dot_open,
    "import": Shell._import,
    "export": Shell._export,
    "rows": Shell._rows,
    "watch": Shell._watch,
    "ask": Shell._ask,
    "status": Shell._status,
    "evict": Shell._evict,
    "plot": Shell._plot,
    "policy": Shell._set_policy,
    "time": Shell._set_time,
    "close": Shell._close,
    "quit": Shell._quit,
    "exit": Shell._quit,
}


def _switch(text: str, name: str) -> bool:
    if text not in ("on", "off"):
        raise ValueError(f"write .{name} on, or .{name} off")
    return text == "on"


def _words(text: str) -> list[str]:
    """Splits a text at spaces outside quotes."""
    return re.findall(_WORD, text)


def _whole(word: str) -> int:
    if not word.isdecimal():
        raise ValueError(f"give a whole number, not {word!r}")
    return int(word)


def _options(text: str, known: tuple[str, ...]) -> tuple[str, dict[str, str]]:
    """Splits ``NAME=VALUE`` words off the end of a text."""
    options: dict[str, str] = {}
    while found := re.search(r'(?:^|\s)(\w+)=("[^"]*"|\S+)\s*$', text):
        if found[1] not in known:
            break
        options[found[1]] = found[2].strip("'\"")
        text = text[: found.start()]
    return text.strip(), options


def _conversions(text: str) -> dict[str, Any]:
    """Parses ``price:2,tax:2``: columns, and the decimals to scale each by."""
    pairs = [part.rpartition(":") for part in text.split(",") if part]
    if not all(name and digits.isdigit() for name, _, digits in pairs):
        raise ValueError("write scaled=COLUMN:DECIMALS, as scaled=price:2")
    return {name: scaled(int(digits)) for name, _, digits in pairs}


def _help(word: str) -> str:
    if not word:
        return HELP
    lines = [line.strip() for line in HELP.splitlines()]
    found = [line for line in lines if re.search(rf"(^|\s)\.?{re.escape(word)}(\s|$)", line)]
    return "\n".join(found) or f"no help on {word!r}; help alone shows all"


def _form(word: str) -> str:
    """Returns how a command is written, without the other commands of its line of the help."""
    forms = (form for line in HELP.splitlines() for form in re.split(r"\s{2,}", line.strip()))
    return next((form for form in forms if form.split(" ")[0] == word), _help(word))


def _duration(seconds: float) -> str:
    if seconds < 1e-3:
        return f"{seconds * 1e6:.0f} µs"
    if seconds < 1:
        return f"{seconds * 1e3:.1f} ms"
    return f"{seconds:.2f} s"
