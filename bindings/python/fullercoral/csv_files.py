"""Reads CSV files in chunks into a table."""

from __future__ import annotations

import codecs
import csv
import gzip
import io
import os
import re
from array import array
from dataclasses import dataclass, fields
from inspect import signature
from itertools import islice
from typing import TYPE_CHECKING, Any, Callable, Iterator, Mapping, Sequence, Union

from ._buffers import MaskedNumbers, pack_bits
from ._header import MAX_COLUMNS, MAX_TEXT
from ._options import refuse_unknown
from .errors import BadArgument, Refused
from .progress import Shown
from .schema import Kind, Schema

if TYPE_CHECKING:
    from .table import Table

Convert = Callable[[str], Union[int, str, None]]

_ROWS = 20_000  # rows to read, and then insert, at a time
_GUESSED = 1000  # rows to guess the kinds of columns from
_NUMBER = re.compile(r"[+-]?[0-9]+")
_PLAIN = re.compile(r"0|-?[1-9][0-9]{0,18}")
_DECIMAL = re.compile(r"([+-]?)([0-9]*)(?:[.]([0-9]*))?")
_NEWLINE = re.compile(r"\r\n|\r|\n")
_DIGITS = "0123456789+-"


class CsvError(ValueError):
    """A CSV file is invalid; ``line``, ``column`` and ``text`` say where.

    ``line`` counts the file's lines from 1, with the header. The rows of earlier chunks stay.
    """

    def __init__(
        self,
        path: Any,
        sentence: str,
        line: int | None = None,
        column: str | None = None,
        text: str | None = None,
    ) -> None:
        self.path, self.line, self.column, self.text = path, line, column, text
        where = f"{path}" if line is None else f"{path}, line {line}"
        if column is not None:
            where += f", column {column}"
        super().__init__(f"{where}: {sentence}")


@dataclass
class CsvOptions:
    """The options of `read_csv`."""

    delimiter: str | None = None
    header: bool = True
    names: Sequence[str] | None = None
    columns: Sequence[str] | None = None
    types: Mapping[str, Kind] | None = None
    missing: str | None = None
    convert: Mapping[str, Convert] | None = None
    encoding: str = "utf-8"


def scaled(digits: int) -> Convert:
    """Returns a function that reads a decimal as a whole number of its smallest unit.

    It is for ``convert=`` of `read_csv`: ``scaled(2)`` reads 1.99 as 199, exactly, and refuses a
    text with more decimals. ``digits`` is 0 to 18.

    >>> cents = scaled(2)
    >>> cents("1.99"), cents("-3"), cents("0.5"), cents("")
    (199, -300, 50, None)
    """

    if not isinstance(digits, int) or not 0 <= digits <= 18:
        raise BadArgument(f"scaled takes 0 to 18 decimals, as scaled(2), not {digits!r}")

    def convert(text: str) -> int | None:
        text = text.strip()
        found = _DECIMAL.fullmatch(text)
        if not text:
            return None
        if found is None or not (found[2] or found[3]):
            raise ValueError(f"{text!r} is not a decimal number")
        part = (found[3] or "").rstrip("0")
        if len(part) > digits:
            said = f"{text!r} has more than {digits} decimals"
            raise ValueError(f"{said}: use scaled({len(part)})")
        return int(f"{found[1]}{found[2]}{part:0<{digits}}")

    return convert


class _Source:
    """A CSV file, read in chunks of rows."""

    def __init__(self, path: Any, options: CsvOptions) -> None:
        self.name = getattr(path, "name", "the file") if hasattr(path, "read") else str(path)
        self._owns = not hasattr(path, "read")
        delimiter = "," if options.delimiter is None else options.delimiter
        if not isinstance(delimiter, str) or len(delimiter) != 1:
            raise CsvError(self.name, f"a delimiter is one character, not {delimiter!r}")
        self.encoding = _codec(self.name, options.encoding)
        self._file, self._counted, self.size = _opened(path, self.encoding)
        self._reader = csv.reader(self._file, delimiter=delimiter, strict=True)
        self._first_line = 0

    def close(self) -> None:
        """Closes the file, if it was opened here."""
        if self._owns:
            self._file.close()
            self._counted.close()

    def position(self) -> int:
        """Returns how many of the ``size`` bytes were read."""
        return int(self._counted.tell()) if self._counted is not None else 0

    def read(self, count: int) -> list[list[str]]:
        """Returns the next ``count`` rows, fewer at the end of the file; skips empty ones."""
        self._first_line = self._reader.line_num
        try:
            return list(islice(self._reader, count))
        except csv.Error as error:
            raise CsvError(self.name, _said(str(error)), self._reader.line_num) from None

    def line_of(self, rows: Sequence[Sequence[str]], index: int) -> int:
        """Returns the line at which one of the rows read last begins."""
        before = sum(len(_NEWLINE.findall(field)) for row in rows[:index] for field in row)
        return self._first_line + index + before + 1


def _codec(path: Any, encoding: str) -> str:
    """Returns the normal name of an encoding; refuses an unknown one."""
    try:
        return codecs.lookup(encoding).name
    except LookupError:
        raise CsvError(path, f"unknown encoding {encoding!r}") from None


def _opened(path: Any, encoding: str) -> tuple[Any, Any, int]:
    """Returns the text file, the file whose position shows progress, and its size or 0."""
    encoding = "utf-8-sig" if encoding == "utf-8" else encoding
    coding: Any = {"encoding": encoding, "errors": "surrogateescape", "newline": ""}
    if hasattr(path, "read"):
        if isinstance(path.read(0), bytes):
            path = io.TextIOWrapper(path, **coding)
        return path, None, 0
    raw = open(path, "rb")
    size = os.fstat(raw.fileno()).st_size
    content: Any = gzip.open(raw) if str(path).endswith(".gz") else raw
    return io.TextIOWrapper(content, **coding), raw, size


def _said(error: str) -> str:
    if "unexpected end" in error:
        return "a quote is opened but never closed"
    if "expected after" in error:
        return "a closing quote is followed by neither a delimiter nor the end of the line"
    return error


class _Plan:
    """Assigns the fields of a row to columns and kinds."""

    def __init__(self, source: _Source, options: CsvOptions, schema: Schema | None) -> None:
        self.source, self.options = source, options
        for name, convert in (options.convert or {}).items():
            if not callable(convert):
                said = "is not a function; give one, as fc.scaled(2)"
                raise TypeError(f"convert of column {name}: {convert!r} {said}")
        self.first = source.read(_GUESSED + 1)
        self._refuse_one_field()
        names = self._names()
        wanted = list(options.columns or (schema.names if schema else names))
        for name in wanted:
            if name not in names:
                said = f"there is no column {name!r}; the columns are {', '.join(names)}"
                raise CsvError(source.name, said, 1)
        if schema is not None and options.columns is None:
            for name in names:
                if name not in schema:
                    raise CsvError(source.name, f"the table has no column {name!r}", 1)
        self.width = len(names)
        self.fields = [names.index(name) for name in wanted]
        self.schema = schema or Schema(self._kinds(wanted))
        self.guessed = schema is None

    def _refuse_one_field(self) -> None:
        """Refuses a first row of one field with another delimiter in it, unless one was named."""
        row: Sequence[str] = next((row for row in self.first if row), ())
        mark = _other_delimiter(row) if self.options.delimiter is None else None
        if mark is not None and len(self.options.names or ()) != 1:
            said = f"the first row is one field, {row[0]!r:.60}: delimiter={mark!r} splits it"
            raise CsvError(self.source.name, f"{said}, delimiter=',' keeps it whole", 1)

    def _names(self) -> list[str]:
        options, source = self.options, self.source
        if options.names is not None:
            if options.header and self.first:
                self.first[0] = []
            return _checked(source, list(options.names))
        if not options.header:
            width = len(next((row for row in self.first if row), []))
            return _checked(source, [f"column_{index}" for index in range(width)])
        head = next((at for at, row in enumerate(self.first) if row), None)
        if head is None:
            raise CsvError(source.name, "the file is empty")
        names = [name.strip() for name in self.first[head]]
        self.first[head] = []
        return _checked(source, names)

    def _kinds(self, names: Sequence[str]) -> dict[str, Kind]:
        given = dict(self.options.types or {})
        for name in (*given, *(self.options.convert or {})):
            if name not in names:
                raise CsvError(self.source.name, f"there is no column {name!r}", 1)
        if len(names) > MAX_COLUMNS:
            said = f"there are {len(names)} columns, but a table has at most {MAX_COLUMNS}"
            said += ": choose some by columns="
            raise CsvError(self.source.name, said, 1)
        rows = [row for row in self.first if len(row) == self.width]
        for name, field in zip(names, self.fields):
            if name not in given:
                given[name] = self._guess(name, [row[field] for row in rows])
        return {name: given[name] for name in names}

    def _guess(self, name: str, texts: Sequence[str]) -> type:
        """Returns int if all texts are whole numbers, else str; 007 is a text."""
        convert = (self.options.convert or {}).get(name)
        if convert is not None:
            return str if any(isinstance(_tried(convert, text), str) for text in texts) else int
        some = [text.strip() for text in texts if text.strip() and text != self.options.missing]
        numbers = all(_PLAIN.fullmatch(text) and _fits(int(text)) for text in some)
        return int if some and numbers else str

    def rows_at_a_time(self) -> Iterator[list[list[str]]]:
        """Yields lists of rows; an empty line is an empty list."""
        rows, full = self.first, _GUESSED + 1
        self.first = []
        while rows:
            yield rows
            rows = self.source.read(_ROWS) if len(rows) >= full else []
            full = _ROWS

    def columns(self, rows: list[list[str]]) -> dict[str, Any]:
        """Converts rows to columns of values of their kinds."""
        if not set(map(len, rows)) <= {0, self.width}:
            self._refuse_width(rows)
        if [] in rows:
            rows = [row for row in rows if row]
        fields = list(zip(*rows)) or [()] * self.width
        return {
            name: self._values(name, kind, fields[field])
            for name, kind, field in zip(self.schema.names, self.schema.kinds, self.fields)
        }

    def _values(self, name: str, kind: type, texts: Sequence[str]) -> Any:
        convert = (self.options.convert or {}).get(name)
        if convert is not None:
            return [convert(text) for text in texts]
        return self._numbers(texts) if kind is int else self._texts(texts)

    def _refuse_width(self, rows: list[list[str]]) -> None:
        index, row = next((i, r) for i, r in enumerate(rows) if len(r) not in (0, self.width))
        said = f"{len(row)} field{'' if len(row) == 1 else 's'} instead of {self.width}"
        raise CsvError(self.source.name, said, self.source.line_of(rows, index))

    def _texts(self, texts: Sequence[str]) -> Sequence[str | None]:
        missing = self.options.missing
        if missing is None or missing not in texts:
            return texts
        return [None if text == missing else text for text in texts]

    def _numbers(self, texts: Sequence[str]) -> Any:
        """Converts texts to numbers; raises ValueError if one is not a number."""
        if not "".join(texts).strip(_DIGITS):
            if "" not in texts:
                return array("q", map(int, texts))
            numbers = array("q", [int(text) if text else 0 for text in texts])
            return MaskedNumbers(numbers, pack_bits(texts))
        missing = self.options.missing
        stripped = ["" if text == missing else text.strip() for text in texts]
        if not all(_NUMBER.fullmatch(text) for text in stripped if text):
            raise ValueError
        numbers = array("q", [int(text) if text else 0 for text in stripped])
        return MaskedNumbers(numbers, pack_bits(stripped))

    def explained(self, rows: list[list[str]], error: Exception) -> Exception:
        """Finds the invalid field among the rows read last; returns an error that names it."""
        for index, row in enumerate(rows):
            for name, kind, field in zip(self.schema.names, self.schema.kinds, self.fields):
                sentence = self._fault(name, kind, row[field]) if row else None
                if sentence is not None:
                    if self.guessed and kind is int and not self._is_chosen(name):
                        sentence += f" (int was guessed; {self._advice(name, rows, field)})"
                    line = self.source.line_of(rows, index)
                    return CsvError(self.source.name, sentence, line, name, row[field])
        return error

    def _is_chosen(self, name: str) -> bool:
        """Whether the caller gave the column a type or a conversion."""
        return name in (self.options.types or {}) or name in (self.options.convert or {})

    def _advice(self, name: str, rows: list[list[str]], field: int) -> str:
        """Returns the options that read a column wrongly guessed to be int."""
        found = [_DECIMAL.fullmatch(row[field].strip()) for row in rows if row]
        digits = max((len(match[3] or "") for match in found if match), default=0)
        decimals = f"convert={{{name!r}: fc.scaled({digits})}} reads decimals, " if digits else ""
        return f"{decimals}types={{{name!r}: str}} reads texts"

    def _fault(self, name: str, kind: type, text: str) -> str | None:
        convert = (self.options.convert or {}).get(name)
        if convert is not None:
            value = _tried(convert, text)
            if isinstance(value, Exception):
                return str(value)
            fits = value is None or (_fits(value) if isinstance(value, int) else kind is str)
            return None if fits else f"convert= makes {value!r} of {text!r}, which does not fit"
        shown = repr(text if len(text) <= 40 else text[:39] + "…")
        if kind is int:
            stripped = "" if text == self.options.missing else text.strip()
            if not stripped or (_NUMBER.fullmatch(stripped) and _fits(int(stripped))):
                return None
            return f"{shown} is not a whole number of 64 bits"
        try:
            length = len(text.encode())
        except UnicodeEncodeError:
            return _not_in(self.source.encoding, text)
        if length > MAX_TEXT:
            return f"{shown} has {length:,} bytes, but a text has at most {MAX_TEXT:,}"
        return None


def _other_delimiter(row: Sequence[str]) -> str | None:
    """Guesses the delimiter of a row of one field."""
    return next((mark for mark in ";\t|" if len(row) == 1 and mark in row[0]), None)


def _not_in(encoding: str, text: str) -> str:
    """Returns the sentence for a text that is not valid in an encoding."""
    name = "UTF-8" if encoding == "utf-8" else encoding
    raw = text.encode("utf-8", "surrogateescape")[:40]
    return f'{raw!r} is not valid {name}: try encoding="latin-1"'


def _tried(convert: Convert, text: str) -> Any:
    """Returns the converted text, or the exception that the conversion raised."""
    try:
        return convert(text)
    except Exception as error:
        return error


def _fits(number: int) -> bool:
    return -(1 << 63) <= number < 1 << 63


def _checked(source: _Source, names: list[str]) -> list[str]:
    """Returns the names of columns; refuses an empty, an unprintable and a repeated one."""
    path = source.name
    for index, name in enumerate(names):
        if not name:
            raise CsvError(path, f"column {index + 1} has no name", 1)
        if names.index(name) < index:
            raise CsvError(path, f"two columns are named {name!r}", 1)
        if any("\ud800" <= letter < "\ue000" for letter in name):
            raise CsvError(path, _not_in(source.encoding, name), 1)
        if not name.isprintable():
            raise CsvError(path, f"{name!r} cannot name a column: it is not printable", 1)
    return names


def load_csv(table: Table, path: Any, options: CsvOptions, shown: Callable[..., Any]) -> range:
    """Appends the rows of a CSV file to a table."""
    source = _Source(path, options)
    try:
        return _load(table, _Plan(source, options, table.schema), shown)
    finally:
        source.close()


def _load(table: Table, plan: _Plan, shown: Callable[..., Any]) -> range:
    first, source = table.places, plan.source
    for rows in plan.rows_at_a_time():
        try:
            table.extend_columns(plan.columns(rows))
        except CsvError:
            raise
        except Exception as error:
            if isinstance(error, Refused) and error.inserted is not None:
                error.details["inserted"] = table.places - first
            raise plan.explained(rows, error) from (error if isinstance(error, Refused) else None)
        shown(source.position(), source.size)
    return range(first, table.places)


def guess_schema(path: Any, options: CsvOptions) -> Schema:
    """Returns the columns of a CSV file, with kinds guessed from its first rows."""
    source = _Source(path, options)
    try:
        return _Plan(source, options, None).schema
    finally:
        source.close()


def read_csv(
    path: Union[str, os.PathLike[str], Any],
    *,
    progress: Union[bool, Callable[[int, int], Any]] = False,
    delimiter: str | None = None,
    header: bool = True,
    names: Sequence[str] | None = None,
    columns: Sequence[str] | None = None,
    types: Mapping[str, Kind] | None = None,
    missing: str | None = None,
    convert: Mapping[str, Convert] | None = None,
    encoding: str = "utf-8",
    **table: Any,
) -> Table:
    """Reads a CSV file into a new table, in chunks; the file may be larger than memory.

    - ``path``: a path (``.gz`` is read too) or an open file.
    - ``delimiter``: a comma by default; a first row of one field with another one in it is refused
      until you name one.
    - ``header``: whether the first row has the columns' names; ``names`` replaces them.
    - ``columns``: which columns to read.
    - ``types``: the kinds of some columns, ``int`` or ``str``. Others are guessed from the first
      rows: int if all are whole numbers. Numbers with leading zeros, as 007, are texts.
    - ``missing``: the field of a missing cell. In a column of numbers an empty field is missing
      too; in a column of texts it is an empty text, unless ``missing=""``.
    - ``convert``: functions of a field's text for some columns, as ``{"price": scaled(2)}``.
    - ``encoding``: the file's encoding, as ``"latin-1"``.
    - ``progress``: True shows a bar on a terminal; a callable gets the bytes done and all bytes.
    - All other options go to `Table`: ``local="64MB"``, ``far=``, ``policy=`` ..

    >>> import io
    >>> read_csv(io.StringIO("sku,quantity\\nbread,5\\nrye,\\n"), local="1MB")
    2 rows by 2 columns
    place  sku    quantity
           str         int
        0  bread         5
        1  rye          NA
    """
    options = CsvOptions(delimiter, header, names, columns, types, missing, convert, encoding)
    return _made(path, options, progress, table)


def csv_options(call: str, given: dict[str, Any]) -> CsvOptions:
    """Returns options from keyword arguments; refuses an unknown one."""
    refuse_unknown(call, given, [field.name for field in fields(CsvOptions)])
    return CsvOptions(**given)


def _made(path: Any, options: CsvOptions, progress: Any, arguments: dict[str, Any]) -> Table:
    from .table import Table

    known = [*(field.name for field in fields(CsvOptions)), "progress"]
    known += [name for name in signature(Table).parameters if name != "columns"]
    refuse_unknown("read_csv", arguments, known)
    source = _Source(path, options)
    try:
        plan = _Plan(source, options, None)
        made = Table(plan.schema, **arguments)
        try:
            with Shown(progress, source.name) as shown:
                _load(made, plan, shown)
        except BaseException:
            made.close()
            raise
        return made
    finally:
        source.close()
