"""The names and kinds of columns, and the value of a missing cell."""

from __future__ import annotations

import re
from typing import Any, Iterable, Iterator, Mapping, Union

from . import _header as header
from .errors import BadSchema, NoColumn


class _Missing:
    """The class of ``NA``, a missing cell. ``None`` means the same, and is what reads return."""

    _only: _Missing | None = None

    def __new__(cls) -> _Missing:
        if cls._only is None:
            cls._only = super().__new__(cls)
        return cls._only

    def __repr__(self) -> str:
        return "NA"

    def __bool__(self) -> bool:
        return False

    def __reduce__(self) -> str:
        return "NA"


NA = _Missing()

Kind = Union[type, str]
SchemaLike = Union["Schema", Mapping[str, Kind], Iterable[tuple[str, Kind]]]

_KINDS: dict[Any, type] = {int: int, str: str, "int": int, "str": str, "text": str}


class Schema:
    """The names and kinds of a table's columns: 1 to 16 of ``int`` (64 bits, signed) and ``str``.

    >>> schema = Schema({"sku": str, "quantity": int})
    >>> schema
    Schema({'sku': str, 'quantity': int})
    >>> schema.index("quantity"), schema["sku"], list(schema)
    (1, <class 'str'>, ['sku', 'quantity'])

    The script language's words for kinds work too:

    >>> Schema([("sku", "text"), ("quantity", "int")]) == schema
    True
    """

    __slots__ = ("names", "kinds", "_index")

    def __init__(self, columns: SchemaLike) -> None:
        if isinstance(columns, Schema):
            columns = columns.pairs()
        elif isinstance(columns, Mapping):
            columns = columns.items()
        pairs = _pairs(columns)
        self.names: tuple[str, ...] = tuple(name for name, _ in pairs)
        self.kinds: tuple[type, ...] = tuple(_kind(name, kind) for name, kind in pairs)
        self._index = {name: index for index, name in enumerate(self.names)}
        self._check()

    def _check(self) -> None:
        if not 1 <= len(self.names) <= header.MAX_COLUMNS:
            raise BadSchema(f"a table has 1 to {header.MAX_COLUMNS} columns, not {len(self.names)}")
        for name in self.names:
            if not isinstance(name, str) or not name:
                raise BadSchema(f"a column's name is a text that is not empty, not {name!r}")
        if len(self._index) < len(self.names):
            twice = next(name for name in self.names if self.names.count(name) > 1)
            raise BadSchema(f"two columns are named {twice!r}")

    def index(self, name: str) -> int:
        """Returns the index of a column, counted from 0."""
        try:
            return self._index[name]
        except (KeyError, TypeError):
            raise NoColumn(column=name, columns=self.names) from None

    def pairs(self) -> Iterator[tuple[str, type]]:
        """Returns the names with their kinds."""
        return zip(self.names, self.kinds)

    def codes(self) -> list[int]:
        """Returns the library's numbers for the columns' kinds."""
        return [header.INT if kind is int else header.TEXT for kind in self.kinds]

    def count(self, kind: type) -> int:
        """Returns how many columns are of a kind."""
        return self.kinds.count(kind)

    def __getitem__(self, name: str) -> type:
        return self.kinds[self.index(name)]

    def __contains__(self, name: object) -> bool:
        return name in self._index

    def __iter__(self) -> Iterator[str]:
        return iter(self.names)

    def __len__(self) -> int:
        return len(self.names)

    def __eq__(self, other: object) -> bool:
        if not isinstance(other, Schema):
            return NotImplemented
        return (self.names, self.kinds) == (other.names, other.kinds)

    def __hash__(self) -> int:
        return hash((self.names, self.kinds))

    def __repr__(self) -> str:
        pairs = (f"{name!r}: {kind.__name__}" for name, kind in self.pairs())
        return f"Schema({{{', '.join(pairs)}}})"


def _pairs(columns: Any) -> list[tuple[str, Kind]]:
    """Returns pairs of names and kinds; refuses names without kinds, and a DataFrame."""
    if hasattr(columns, "dtypes"):
        raise BadSchema("a table is made of names and kinds; Table.from_pandas takes a DataFrame")
    pairs = list(columns)
    for pair in pairs:
        if isinstance(pair, str) or not hasattr(pair, "__len__") or len(pair) != 2:
            said = "give each column's name and kind, as {'quantity': int}"
            raise BadSchema(f"{said}, not {pair!r}")
    return pairs


def _kind(name: str, kind: Kind) -> type:
    try:
        return _KINDS[kind]
    except (KeyError, TypeError):
        shown = getattr(kind, "__name__", None) or repr(kind)
        raise BadSchema(
            f"column {name!r} is to hold {shown}; a column holds int (64 bits, signed) or str"
        ) from None


def parse_schema(text: str) -> Schema:
    """Parses a schema as the shell writes it: ``sku:text,quantity:int``.

    >>> parse_schema("sku:text, quantity:int")
    Schema({'sku': str, 'quantity': int})
    """
    pairs = []
    for part in text.split(","):
        found = re.fullmatch(r"\s*(.+?)\s*:\s*(\w+)\s*", part)
        if found is None:
            raise BadSchema(f"{part.strip()!r} is not a column: write NAME:int or NAME:text")
        pairs.append((found[1], found[2]))
    return Schema(pairs)
