"""The objects of the reference model, their regions, its store, and the refusals of commands."""
from dataclasses import dataclass

REFUSALS = {
    **{"BadSpec": 3, "NoColumn": 4, "WrongKind": 5, "RowWidth": 6, "TextTooLong": 7, "NoRow": 8, "RemovedRow": 9, "TableFull": 10},
    **{"ChunkFull": 11, "NoAggregate": 12, "TooManyAggregates": 13, "OutOfRange": 14, "Building": 15, "Absent": 16, "RegionFull": 17},
    **{"NotPinned": 18, "Pinned": 19, "StaleJob": 20, "FarFull": 22, "EditsUsedUp": 24},
}


class Refused(Exception):
    """A refusal: its name, and the numbers in its reply."""

    def __init__(self, name, *carried):
        super().__init__(name)
        self.name = name
        self.carried = carried

    def __str__(self):
        return " ".join(["refused", str(REFUSALS[self.name]), self.name, *map(str, self.carried)])


def refuse_if(is_due, name, *carried):
    """Raises a refusal if its condition holds."""
    if is_due:
        raise Refused(name, *carried)


def text_length(texts):
    """The bytes of an object of these texts: a head, a bit for each text if one is missing, the end of each, and the texts."""
    mask = -(-len(texts) // 8) if None in texts else 0
    return 6 + mask + 4 * len(texts) + sum(len(text.encode()) for text in texts if text is not None)


@dataclass(eq=False)
class Part:
    """The part of a segment that the cells of an object have."""

    segment: int
    offset: int
    length: int


class Region:
    """The segments of one kind, all of one size. Each has its parts by ascending offset."""

    def __init__(self, count, size):
        self.size = size
        self.segments = [[] for _ in range(count)]

    def place(self, length):
        """Allocates a part in the lowest segment with space after its last part."""
        for number in range(len(self.segments)):
            if self.end(number) + length <= self.size:
                return self.append(number, length)
        raise Refused("RegionFull")

    def end(self, number):
        """The end of the last part of a segment."""
        parts = self.segments[number]
        return parts[-1].offset + parts[-1].length if parts else 0

    def append(self, number, length):
        """Allocates a part after the last one of a segment."""
        part = Part(number, self.end(number), length)
        self.segments[number].append(part)
        return part

    def drop(self, part):
        """Frees a part. The parts after it stay where they are."""
        self.segments[part.segment].remove(part)

    def other_free(self, number):
        """The lowest other segment without parts."""
        for other, parts in enumerate(self.segments):
            if other != number and not parts:
                return other
        raise Refused("RegionFull")


@dataclass(eq=False)
class Object:
    """The cells of one row group of one column."""

    # its part, if it is local
    part: Part = None
    # whether the store lacks its current content
    dirty: bool = True
    # whether it was written, lent or fetched since a compaction moved it
    hot: bool = True
    pins: int = 0
    # how often it was written, and how often it was evicted
    version: int = 0
    leavings: int = 0

    def state(self):
        """The state that a job of it depends on."""
        return self.version, self.leavings

    def write(self):
        """Counts a write."""
        self.dirty = self.hot = True
        self.version += 1


@dataclass
class Store:
    """A store: how many contents it can take, and how many it has."""

    capacity: int
    contents: int = 0

    def put(self):
        """Takes one more content."""
        refuse_if(self.contents == self.capacity, "FarFull")
        self.contents += 1
