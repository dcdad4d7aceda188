"""A map of row groups by columns, in characters and as SVG, which shows where each object is."""

from __future__ import annotations

from collections import Counter
from dataclasses import dataclass
from html import escape
from typing import Sequence

from ._handle import Handle

CLEAN, DIRTY, AWAY, PINNED = "clean", "dirty", "away", "pinned"

_MARKS = {DIRTY: "█", CLEAN: "▒", AWAY: "·", PINNED: "P"}
_SAID = {
    DIRTY: "local, without a current copy",
    CLEAN: "local, with a far copy",
    AWAY: "away",
    PINNED: "pinned",
}
# Colours for light and dark pages. They differ in lightness too, for readers without colours.
_COLOURS = {
    DIRTY: ("#c2410c", "#fb923c"),
    CLEAN: ("#5b9bd5", "#60a5fa"),
    AWAY: ("#e5e7eb", "#374151"),
    PINNED: ("#111827", "#f9fafb"),
}
_WEIGHT = {PINNED: 3, DIRTY: 2, CLEAN: 1, AWAY: 0}
_MOST_OBJECTS = 50_000  # of more objects only some are drawn, so that a map takes under a second


@dataclass(frozen=True)
class Map:
    """Where the objects of a table are: a state for each column and row group.

    If there are very many row groups, the map has only every ``step``-th one.
    """

    names: tuple[str, ...]
    groups: int
    states: tuple[tuple[str, ...], ...]
    step: int = 1

    def counts(self) -> dict[str, int]:
        """Returns how many of the objects on the map are in each state."""
        many = Counter(state for row in self.states for state in row)
        return {state: many[state] for state in _MARKS}

    def text(self, width: int = 64) -> str:
        """Returns the map in characters, a line for each column.

        If there are more row groups than the width, a character stands for several: it shows the
        state of most of them, or ``P`` if one is pinned.
        """
        longest = max(len(name) for name in self.names)
        lines = [
            f"{name:>{longest}} {''.join(_MARKS[state] for state in _drawn(row, width))}"
            for name, row in zip(self.names, self.states)
        ]
        counts = self.counts()
        legend = "  ".join(f"{_MARKS[s]} {_SAID[s]}: {counts[s]:,}" for s in _MARKS if counts[s])
        each = -(-self.groups // width) if self.groups > width else 1
        about = f"{self.groups:,} row groups, {each} a character" if each > 1 else ""
        return "\n".join(part for part in (*lines, legend, about) if part)

    def __str__(self) -> str:
        return self.text()

    def svg(self, width: int = 720, in_page: bool = False) -> str:
        """Returns the map as SVG for light and dark pages; ``in_page`` omits the XML head."""
        return _Drawing(self, width).svg(in_page)

    def _repr_svg_(self) -> str:
        return self.svg(in_page=True)


def _drawn(row: Sequence[str], width: int) -> list[str]:
    """Returns one state for each of at most ``width`` parts of a row."""
    if len(row) <= width:
        return list(row)
    parts = []
    for at in range(width):
        some = row[at * len(row) // width : (at + 1) * len(row) // width]
        many = Counter(some)
        most = max(many, key=lambda state: (state == PINNED, many[state], _WEIGHT[state]))
        parts.append(most)
    return parts


def read_map(handle: Handle) -> Map:
    """Makes the map of a table."""
    groups, names = handle.groups(), handle.schema.names
    step = max(1, -(-groups * len(names) // _MOST_OBJECTS))
    states = tuple(
        tuple(_state(handle, column, group) for group in range(0, groups, step))
        for column in range(len(names))
    )
    return Map(names, groups, states, step)


def _state(handle: Handle, column: int, group: int) -> str:
    state = handle.object(column, group)
    if state.pins:
        return PINNED
    if not state.local:
        return AWAY
    return DIRTY if state.dirty else CLEAN


class _Drawing:
    """Draws a map as SVG."""

    _ROW, _GAP, _MOST_CELLS, _LETTER = 16, 4, 240, 7.2

    def __init__(self, map_: Map, width: int) -> None:
        self._map = map_
        self._width = width
        longest = max(len(name) for name in map_.names)
        self._most = min(longest, int((width // 3 - 16) / self._LETTER))
        self._left = int(self._most * self._LETTER) + 16
        self._top = 22

    def svg(self, in_page: bool) -> str:
        """Returns the whole picture."""
        rows = len(self._map.names)
        height = self._top + rows * (self._ROW + self._GAP) + 28
        head = "" if in_page else '<?xml version="1.0" encoding="UTF-8"?>\n'
        shape = f'width="{self._width}" height="{height}" viewBox="0 0 {self._width} {height}"'
        parts = [
            f'{head}<svg xmlns="http://www.w3.org/2000/svg" {shape} class="fc-map" role="img" '
            f'aria-label="{escape(self._title())}">',
            f"<style>{_style()}</style>",
            "" if in_page else '<rect width="100%" height="100%" class="fc-page"/>',
            f'<text x="{self._left}" y="13">{escape(self._title())}</text>',
        ]
        for index, (name, states) in enumerate(zip(self._map.names, self._map.states)):
            parts += self._row(index, name, states)
        parts += self._legend(height - 12)
        return "\n".join(part for part in (*parts, "</svg>") if part)

    def _title(self) -> str:
        groups, columns = self._map.groups, len(self._map.names)
        return f"{counted(groups, 'row group')} by {counted(columns, 'column')}"

    def _row(self, index: int, name: str, states: Sequence[str]) -> list[str]:
        y = self._top + index * (self._ROW + self._GAP)
        shown = name if len(name) <= self._most else name[: self._most - 1] + "…"
        label = f'<text x="{self._left - 8}" y="{y + 12}" text-anchor="end">{escape(shown)}</text>'
        cells = _drawn(states, self._MOST_CELLS)
        if not cells:
            return [label]
        space = self._width - self._left - 4
        wide = min(space / len(cells), 24.0)
        gap = 1.0 if wide > 4 else 0.0
        parts, at = [label], 0
        while at < len(cells):
            end = at + 1
            while not gap and end < len(cells) and cells[end] == cells[at]:
                end += 1
            x, width = self._left + at * wide, (end - at) * wide - gap
            parts.append(
                f'<rect x="{x:.2f}" y="{y}" width="{width:.2f}" height="{self._ROW}" '
                f'class="fc-{cells[at]}"/>'
            )
            at = end
        return parts

    def _legend(self, y: int) -> list[str]:
        counts, parts, x = self._map.counts(), [], float(self._left)
        for state, count in counts.items():
            said = f"{state if state in (AWAY, PINNED) else 'local, ' + state}: {count:,}"
            parts.append(
                f'<rect x="{x:.0f}" y="{y - 10}" width="12" height="12" class="fc-{state}"/>'
                f'<text x="{x + 17:.0f}" y="{y}">{said}</text>'
            )
            x += 17 + len(said) * 6.4 + 16
        return parts


def counted(count: int, what: str) -> str:
    """Returns a count with its noun.

    >>> counted(1, "row"), counted(2000, "row")
    ('1 row', '2,000 rows')
    """
    return f"{count:,} {what}{'' if count == 1 else 's'}"


def _style() -> str:
    """Returns the colours for light pages, dark pages, and notebooks that set their theme."""

    def rules(dark: bool, inside: str = "") -> str:
        page = f"{inside} .fc-map .fc-page{{fill:{'#111827' if dark else '#ffffff'}}}"
        cells = [f"{inside} .fc-map .fc-{s}{{fill:{c[dark]}}}" for s, c in _COLOURS.items()]
        text = "#e5e7eb" if dark else "#1f2937"
        return "".join([page, *cells, f"{inside} .fc-map text{{fill:{text}}}"])

    font = "font:12px ui-sans-serif,system-ui,sans-serif"
    dark_page = "@media (prefers-color-scheme:dark){" + rules(True) + "}"
    light_book = rules(False, '[data-jp-theme-light="true"]')
    dark_book = rules(True, '[data-jp-theme-light="false"]') + rules(True, ".vscode-dark")
    return f".fc-map text{{{font}}}{rules(False)}{dark_page}{light_book}{dark_book}"
