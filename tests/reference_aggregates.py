"""The aggregates of the reference model: each answer is computed from all rows, and formatted as in a script."""
import operator
from dataclasses import dataclass

TESTS = {
    **{"=": operator.eq, "!=": operator.ne, "<": operator.lt, "<=": operator.le, ">": operator.gt, ">=": operator.ge},
    "^=": str.startswith,
}


def field_of(cell):
    """Formats a cell as a field of a record, in quotes only if needed."""
    text = "\\N" if cell is None else str(cell)
    return text if frozenset(',"\r\n').isdisjoint(text) else '"' + text.replace('"', '""') + '"'


def record(cells):
    """Formats cells as a record. A record of one empty field gets quotes."""
    return ",".join(map(field_of, cells)) or '""'


@dataclass(eq=False)
class Aggregate:
    """A registered aggregate, and its pending row groups. The key is None if there is none. A test has a column, an operator and a
    constant."""

    fold: str
    value: int
    key: int
    tests: list
    pending: set

    def columns(self):
        """The columns that it needs, in ascending order."""
        keys = [] if self.key is None else [self.key]
        return sorted({self.value, *keys, *(column for column, _, _ in self.tests)})

    def keeps(self, cells):
        """Whether a row has a value and a key and passes all tests. A missing cell passes none."""
        if cells[self.value] is None or self.key is not None and cells[self.key] is None:
            return False
        return all(cells[column] is not None and TESTS[op](cells[column], constant) for column, op, constant in self.tests)

    def answer(self, rows):
        """The lines over these rows, sorted by key. Texts are sorted by bytes, which is the order of their code points too."""
        by_key = {None: []} if self.fold == "totals" and self.key is None else {}
        for cells in filter(self.keeps, rows):
            key = None if self.key is None else cells[self.key]
            by_key.setdefault(key, []).append(cells[self.value])
        keys = by_key if self.key is None else sorted(by_key)
        return "\n".join(self.line(key, by_key[key]) for key in keys) or "none"

    def line(self, key, values):
        """The line of a key."""
        first = "" if key is None else record([key]) + " "
        if self.fold == "totals":
            return f"{first}count {len(values)} sum {sum(values)}"
        return f"{first}min {min(values)} max {max(values)}"
