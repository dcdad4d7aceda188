"""Exceptions: a class for each kind of refusal, each with its number, its name and a sentence.

>>> raise NoColumn(column="prize", columns=("sku", "price"))
Traceback (most recent call last):
    ...
fullercoral.errors.NoColumn: there is no column 'prize'; the columns are sku, price [4]
"""

from __future__ import annotations

from typing import Any, ClassVar


class Refused(Exception):
    """A call that was refused: it changed no row, no aggregate and no object.

    ``number`` and ``name`` are the library's; ``sentence`` says what is wrong, with the
    names of columns. ``details`` has whatever else is known.

    A reply of the script language begins with the same number and name:

    >>> error = Absent(column="price", group=3)
    >>> error.number, error.name, error.column, error.group
    (16, 'Absent', 'price', 3)
    """

    number: ClassVar[int] = 0
    text: ClassVar[str] = "the call was refused"

    def __init__(self, sentence: str | None = None, /, **details: Any) -> None:
        self.details = details
        self.sentence = sentence or self._sentence()
        super().__init__(self.sentence)

    @property
    def name(self) -> str:
        """The refusal's name, as the script language prints it."""
        return type(self).__name__

    def _sentence(self) -> str:
        return self.text

    @property
    def column(self) -> Any:
        """The column that the refusal is about, by name, or None."""
        return self.details.get("column")

    @property
    def group(self) -> int | None:
        """The row group that the refusal is about, or None."""
        return self.details.get("group")

    @property
    def pending(self) -> int | None:
        """How many row groups are pending in the aggregate, or None."""
        return self.details.get("pending")

    @property
    def place(self) -> int | None:
        """The place that the refusal is about, or None."""
        return self.details.get("place")

    @property
    def inserted(self) -> int | None:
        """How many rows were inserted before the one that was refused, or None."""
        return self.details.get("inserted")

    @property
    def cells_set(self) -> int | None:
        """How many cells were set before the one that was refused, or None."""
        return self.details.get("cells_set")

    def __str__(self) -> str:
        done = ""
        if self.inserted is not None:
            rows = "row was" if self.inserted == 1 else "rows were"
            done = f"; {self.inserted:,} {rows} inserted before"
        elif self.cells_set is not None:
            cells = "cell was" if self.cells_set == 1 else "cells were"
            done = f"; {self.cells_set:,} {cells} set before"
        return f"{self.sentence}{done} [{self.number}]"

    def __reduce__(self) -> Any:
        return _again, (type(self), self.sentence, self.details)


def _again(kind: type[Refused], sentence: str, details: dict[str, Any]) -> Refused:
    return kind(sentence, **details)


class NoMemory(Refused, MemoryError):
    """An allocation failed."""

    number = 1
    text = "an allocation failed"


class BadSchema(Refused, ValueError):
    """The columns or the limits are outside what a table may have."""

    number = 2
    text = "the columns or the limits are outside what a table may have"


class BadSpec(Refused, ValueError):
    """An aggregate has more than 4 tests, or a text of more than 4,096 bytes in one."""

    number = 3
    text = "an aggregate has at most 4 tests, and texts of at most 4,096 bytes in them"


class NoColumn(Refused, KeyError):
    """There is no such column."""

    number = 4
    text = "there is no such column"

    def _sentence(self) -> str:
        if self.column is None:
            return self.text
        names = self.details.get("columns", ())
        known = f"; the columns are {', '.join(map(str, names))}" if names else ""
        return f"there is no column {self.column!r}{known}"


class WrongKind(Refused, TypeError):
    """A cell, a constant or a column has the wrong kind."""

    number = 5
    text = "a value does not have the kind of its column"

    def _sentence(self) -> str:
        if self.column is None:
            return self.text
        kind = {"int": "whole numbers of 64 bits", "str": "texts"}[self.details["kind"]]
        if "value" not in self.details:
            return f"column {self.column} holds {kind}, which this does not fit"
        value = repr(self.details["value"])
        shown = value if len(value) <= 60 else value[:57] + "..."
        where = "" if self.place is None else f" for place {self.place}"
        return f"column {self.column} holds {kind}, not {shown}{where}"


class RowWidth(Refused, ValueError):
    """A row does not have one cell for each column."""

    number = 6
    text = "the row does not have one cell for each column"


class TextTooLong(Refused, ValueError):
    """A text has more than 4,096 bytes in UTF-8."""

    number = 7
    text = "a text has more than 4,096 bytes"

    def _sentence(self) -> str:
        if "value" not in self.details:
            of = "" if self.column is None else f" for column {self.column}"
            return f"a text{of} has more than 4,096 bytes"
        where, length = f"place {self.place} of column {self.column}", len(self.details["value"])
        return f"the text for {where} has {length:,} characters, which take more than 4,096 bytes"


class NoRow(Refused, IndexError):
    """There is no such place."""

    number = 8
    text = "there is no such place"

    def _sentence(self) -> str:
        if self.place is None:
            return self.text
        places = self.details.get("places", 0)
        last = f"the last one is {places - 1}" if places else "the table is empty"
        return f"there is no place {self.place}; {last}"


class RemovedRow(Refused, LookupError):
    """The row of the place was removed."""

    number = 9
    text = "the row was removed"

    def _sentence(self) -> str:
        return self.text if self.place is None else f"the row of place {self.place} was removed"


class TableFull(Refused):
    """The limit of places is reached."""

    number = 10
    text = "the table has as many places as its limits allow"


class ChunkFull(Refused):
    """The texts of a row group would be longer than a segment of local memory for texts."""

    number = 11
    text = (
        "the texts of a row group would not fit a segment of local memory: "
        "use smaller row groups (group=) or larger segments (text_size of Limits)"
    )


class NoAggregate(Refused, LookupError):
    """The aggregate is not registered (any more)."""

    number = 12
    text = "there is no such aggregate (any more)"


class TooManyAggregates(Refused):
    """32 aggregates are registered."""

    number = 13
    text = "32 aggregates are registered already; unwatch one first"


class OutOfRange(Refused, IndexError):
    """A range, a row group or a segment does not exist."""

    number = 14
    text = "there is no such range, row group or segment"

    def _sentence(self) -> str:
        groups = self.details.get("groups")
        if groups is None:
            return self.text
        some = f"row groups are 0 to {groups - 1}" if groups else "it has none yet"
        return f"the table has no row group {self.group!r}; {some}"


class Building(Refused):
    """Row groups are pending in the aggregate."""

    number = 15
    text = "row groups are still pending in the aggregate"

    def _sentence(self) -> str:
        if self.pending is None:
            return self.text
        groups = "row group is" if self.pending == 1 else "row groups are"
        return f"{self.pending:,} {groups} still pending in the aggregate"


class Absent(Refused):
    """An object is away."""

    number = 16
    text = "an object is away"

    def _sentence(self) -> str:
        if self.column is None:
            return self.text
        if self.details.get("evicting"):
            return f"column {self.column} is away already in row group {self.group}"
        return f"column {self.column} is away in row group {self.group}; fetch it first"


class RegionFull(Refused):
    """No segment of local memory has the space."""

    number = 17
    text = "local memory is full, and nothing more can be evicted for this"


class NotPinned(Refused):
    """The object has no pin."""

    number = 18
    text = "the object has no pin"


class Pinned(Refused):
    """The object has a pin."""

    number = 19
    text = "the object is pinned, so it stays local"


class StaleJob(Refused):
    """The data of a job changed since it began, or a row group to be scanned is not pending."""

    number = 20
    text = "the job's data changed since it began, or the row group is not pending"


class FarFault(Refused, OSError):
    """The engine returned other bytes than were put, or none. Nothing was changed."""

    number = 21
    text = "the engine returned other bytes than were put; nothing was changed"

    def _sentence(self) -> str:
        if "engine" not in self.details:
            return self.text
        return (
            f"{self.details['engine']} returns other bytes than were put for {self._object()}: "
            "restore them and call again; nothing was changed, and existing answers stay exact"
        )

    def _object(self) -> str:
        """Names the object whose content the engine could not return or keep."""
        of_group = f" of row group {self.group}" if self.group is not None else ""
        return f"column {self.column}{of_group}" if self.column is not None else "a content"


class EngineError(FarFault):
    """The engine raised an exception, which is this one's ``__cause__``. Nothing was changed."""

    text = "the engine failed; nothing was changed"

    def _sentence(self) -> str:
        if "engine" not in self.details:
            return self.text
        engine, act, cause = (self.details[name] for name in ("engine", "act", "cause"))
        said = f"{engine} cannot {act} {self._object()} ({cause})"
        return f"{said}: nothing was changed; call again once it can"

    @property
    def name(self) -> str:
        """The refusal's name, as the script language prints it."""
        return "FarFault"


class FarFull(Refused):
    """The numbers of contents are used up."""

    number = 22
    text = "the numbers of contents are used up"


class EditsUsedUp(Refused):
    """The limit of edits, of jobs or of pins is reached."""

    number = 24
    text = "the limit of edits, of jobs or of pins is reached"


class Closed(Refused, ValueError):
    """The table is closed."""

    number = 100
    text = "the table is closed"


class AlreadyOpen(Refused):
    """The handle is open already."""

    number = 101
    text = "the handle is open already"


class NoUtf8(Refused, ValueError):
    """A text cannot be encoded in UTF-8: it holds half of a surrogate pair."""

    number = 102
    text = "a text cannot be encoded in UTF-8"

    def _sentence(self) -> str:
        if self.column is None:
            return self.text
        where = "" if self.place is None else f" for place {self.place}"
        value = f"{self.details['value']!r:.60}"
        return f"column {self.column}: {value}{where} holds half of a surrogate pair"


class BadArgument(Refused, ValueError):
    """An argument is invalid: a length, a kind, a fold or a comparison."""

    number = 103
    text = "a length, a kind, a fold or a comparison is invalid"


class Nothing(Refused, LookupError):
    """There is no such value, line, key or content."""

    number = 104
    text = "there is no such value, line, key or content"


class ShortBuffer(Refused, ValueError):
    """A buffer is too short."""

    number = 105
    text = "a buffer is too short for the result"


class UsedUp(Refused):
    """2^62 faults were counted."""

    number = 106
    text = "too many faults were counted: the table carries no more jobs"


BY_NUMBER: dict[int, type[Refused]] = {
    kind.number: kind for kind in Refused.__subclasses__() if kind is not Refused
}
