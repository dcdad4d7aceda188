"""Makes the class of a table's rows."""

from __future__ import annotations

from collections import namedtuple
from typing import Any, Sequence


def row_class(names: Sequence[str]) -> Any:
    """Returns a named tuple class for rows with these columns.

    A name that is not an identifier of Python, such as "Order ID", gets an attribute named by its
    index, such as ``_0``; ``row._asdict()`` has all names unchanged.

    >>> row = row_class(["Order ID", "quantity"])(7, 5)
    >>> row, row.quantity, row._0, row._asdict()["Order ID"]
    (Row({'Order ID': 7, 'quantity': 5}), 5, 7, 7)
    """
    plain: Any = namedtuple("Row", names, rename=True)  # type: ignore[misc]
    if plain._fields == tuple(names):
        return plain

    class Row(plain):  # type: ignore[misc]
        """A row some of whose names are not identifiers."""

        __slots__ = ()

        def _asdict(self) -> dict[str, Any]:
            """Returns the cells by column name."""
            return dict(zip(names, self))

        def __repr__(self) -> str:
            return f"Row({self._asdict()!r})"

    return Row
