"""Shows tables and answers: as text, and as HTML in notebooks."""

from __future__ import annotations

from html import escape
from typing import TYPE_CHECKING, Any, Iterator, Sequence
from unicodedata import combining, east_asian_width

from .errors import Refused
from .picture import counted
from .schema import Schema

if TYPE_CHECKING:
    from .aggregates import Watched
    from .table import Table

_SHOWN = 5
_WIDEST = 32
_STEP = 256
_MOST_LINES = 40


def first_rows(table: Table, count: int) -> list[tuple[int, Any]]:
    """Returns the first live rows with their places."""
    return _some(table, count, range(0, table.places, _STEP), False)


def last_rows(table: Table, count: int) -> list[tuple[int, Any]]:
    """Returns the last live rows with their places."""
    last = (table.places - 1) // _STEP * _STEP
    return _some(table, count, range(last, -1, -_STEP), True)


def _some(table: Table, count: int, starts: range, backwards: bool) -> list[tuple[int, Any]]:
    found: list[tuple[int, Any]] = []
    for start in starts:
        if len(found) >= count:
            break
        stop = min(start + _STEP, table.places)
        for batch in table.batches(_STEP, start=start, stop=stop):
            rows = list(zip(batch.places, table._of(batch)))
            found = rows + found if backwards else found + rows
    return found[max(0, len(found) - count) :] if backwards else found[:count]


def _head_and_tail(table: Table) -> list[tuple[int, Any] | None]:
    """Returns the rows to show, with None for the rows left out between them."""
    if len(table) <= 2 * _SHOWN:
        return list(first_rows(table, 2 * _SHOWN))
    return [*first_rows(table, _SHOWN), None, *last_rows(table, _SHOWN)]


def _cell(value: Any) -> str:
    if value is None:
        return "NA"
    if isinstance(value, int):
        return str(value)
    text = str(value)
    if not text.isprintable():
        text = str(text.encode("unicode_escape"), "ascii")
    return text if len(text) <= _WIDEST else text[: _WIDEST - 1] + "…"


def call_of(schema: Schema, local_bytes: int, engine: Any) -> str:
    """Returns a call that opens a table with this schema, as Python source."""
    pairs = ", ".join(f"{n!r}: {k.__name__}" for n, k in zip(schema.names, schema.kinds))
    return f"Table({{{pairs}}}, local={local_bytes}, far={engine!r})"


def as_text(table: Table) -> str:
    """Returns the head and the tail of a table as text."""
    call = call_of(table.schema, table.limits.local_bytes, table.engine)
    if table.closed:
        return f"<closed {call}>"
    try:
        rows = _head_and_tail(table)
    except Refused as error:
        return f"<{call}: {len(table):,} rows; {error}>"
    return f"{_about(table)}\n{rows_as_text(table, rows)}"


def rows_as_text(table: Table, rows: Sequence[tuple[int, Any] | None]) -> str:
    """Returns rows with their places in aligned columns; None is shown as an ellipsis."""
    kinds = table.schema.kinds
    lines = [["place", *table.schema.names], ["", *(kind.__name__ for kind in kinds)]]
    for item in rows:
        shown = ["…"] * (len(kinds) + 1)
        lines.append(shown if item is None else [str(item[0]), *map(_cell, item[1])])
    return _columns(lines, [True, *(kind is int for kind in kinds)])


def lines_as_text(watched: Watched[Any], lines: Sequence[tuple[Any, Any]]) -> str:
    """Returns the lines of an answer in aligned columns."""
    fields, by = list(watched._fold._fields), watched.spec.by
    shown = [[*([by] if by else []), *fields]]
    for key, line in lines[:_MOST_LINES]:
        shown.append([*([_cell(key)] if by else []), *map(str, line)])
    right = [True] * len(shown[0])
    right[0] = by is None or watched.table.schema[by] is int
    more = len(lines) - _MOST_LINES
    return _columns(shown, right) + (f"\nand {more:,} lines more" if more > 0 else "")


def _width(text: str) -> int:
    """Returns how many places of a terminal's line a text takes: a Chinese character takes two."""
    if text.isascii():
        return len(text)
    return sum(0 if combining(char) else 1 + (east_asian_width(char) in "WF") for char in text)


def _columns(lines: Sequence[Sequence[str]], right: Sequence[bool]) -> str:
    widths = [max(_width(line[at]) for line in lines) for at in range(len(lines[0]))]
    return "\n".join("  ".join(_aligned(line, widths, right)).rstrip() for line in lines)


def _aligned(line: Sequence[str], widths: Sequence[int], right: Sequence[bool]) -> Iterator[str]:
    for text, width, is_right in zip(line, widths, right):
        space = " " * (width - _width(text))
        yield space + text if is_right else text + space


def _about(table: Table) -> str:
    rows, columns = len(table), len(table.schema)
    objects, away = -(-table.places // table.limits.group) * columns, table._mover.away
    part = f", {away:,} of {objects:,} objects away" if away else ""
    return f"{counted(rows, 'row')} by {counted(columns, 'column')}{part}"


_STYLE = """<style>
.fc-table table{border-collapse:collapse;font-variant-numeric:tabular-nums}
.fc-table th,.fc-table td{padding:2px 10px;text-align:left;white-space:pre}
.fc-table .n{text-align:right}
.fc-table thead tr:last-child th{font-weight:normal;opacity:.65}
.fc-table thead tr:last-child th{border-bottom:1px solid currentColor}
.fc-table .p,.fc-table .na{opacity:.6}
.fc-table p{margin:.4em 0}
.fc-table svg{display:block;margin-top:12px}
</style>"""


def as_html(table: Table) -> str:
    """Returns the head and the tail of a table as HTML, and the map of its objects."""
    if table.closed:
        return f"<p>{escape(as_text(table))}</p>"
    try:
        body = "\n".join(_html_row(table, item) for item in _head_and_tail(table))
    except Refused as error:
        body = f'<tr><td colspan="{len(table.schema) + 1}">{escape(str(error))}</td></tr>'
    kinds = list(zip(table.schema.names, table.schema.kinds))
    names = "".join(f"<th{_side(kind)}>{escape(name)}</th>" for name, kind in kinds)
    under = "".join(f"<th{_side(kind)}>{kind.__name__}</th>" for _, kind in kinds)
    map_ = table.map().svg(in_page=True) if table.places else ""
    return (
        f'{_STYLE}<div class="fc-table"><p>{escape(_about(table))}</p><table><thead>'
        f'<tr><th class="n">place</th>{names}</tr><tr><th></th>{under}</tr></thead>\n'
        f"<tbody>{body}</tbody></table>\n{map_}</div>"
    )


def answer_as_html(watched: Watched[Any]) -> str:
    """Returns an answer as HTML."""
    about = f"<p>{escape(repr(watched.spec))}</p>"
    if watched.closed:
        return f"<p>{escape(repr(watched))}</p>"
    lines, by = watched.lines(), watched.spec.by
    heads = [*([f"<th>{escape(by)}</th>"] if by else [])]
    heads += [f'<th class="n">{field}</th>' for field in watched._fold._fields]
    rows = []
    for key, line in lines[:_MOST_LINES]:
        side = "" if isinstance(key, str) else ' class="n"'
        first = f"<td{side}>{escape(_cell(key))}</td>" if by else ""
        rest = "".join(f'<td class="n">{value}</td>' for value in line)
        rows.append(f"<tr>{first}{rest}</tr>")
    more = len(lines) - _MOST_LINES
    footer = f"<p>and {counted(more, 'line')} more</p>" if more > 0 else ""
    return (
        f'{_STYLE}<div class="fc-table">{about}<table><thead><tr>{"".join(heads)}</tr></thead>'
        f"<tbody>{''.join(rows)}</tbody></table>{footer}</div>"
    )


def _side(kind: type) -> str:
    return ' class="n"' if kind is int else ""


def _html_row(table: Table, item: tuple[int, Any] | None) -> str:
    if item is None:
        between = "".join(f"<td{_side(kind)}>…</td>" for kind in (int, *table.schema.kinds))
        return f"<tr>{between}</tr>"
    place, row = item
    cells = [f'<td class="n p">{place}</td>']
    for value, kind in zip(row, table.schema.kinds):
        shown = escape(_cell(value))
        if value is None:
            cells.append(f'<td class="na{" n" if kind is int else ""}">{shown}</td>')
        else:
            cells.append(f"<td{_side(kind)}>{shown}</td>")
    return f"<tr>{''.join(cells)}</tr>"
