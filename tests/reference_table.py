"""The reference model of a table: the reply to each command of a script, as docs/SCRIPT.md says it.

Read it together with that page. Rows are a list, each answer is computed from all rows, and the store is a count of contents. The page does
not say where objects are, which decides which others fit: `text_length` follows docs/FORMATS.md, and `Region` and `compact` place parts as
crates/far_log/specs/Effects.antt says. A command is a method of Table, which returns the reply or raises Refused. The model leaves out
`threads`, first lines that open no table, and the limit of pins.
"""
from dataclasses import dataclass

from reference_aggregates import Aggregate, record
from reference_objects import Object, Refused, Region, Store, refuse_if, text_length

LONGEST_TEXT = 4096
MOST_AGGREGATES = 32
MOST_TESTS = 4
# How many contents the first store of a script can take.
FIRST_STORE = 1_048_576
TEXT_TESTS = ("=", "^=")


def is_long(text):
    """Whether this is a text with too many bytes."""
    return isinstance(text, str) and len(text.encode()) > LONGEST_TEXT


@dataclass
class Limits:
    """The numbers of a first line, in its order."""

    group: int
    places: int
    edits: int
    int_segments: int
    int_size: int
    text_segments: int
    text_size: int


def usual_limits(group):
    """The default limits of a table."""
    return Limits(group, 16_777_216, 1_099_511_627_776, 64, max(group, 4096), 64, 65_536)


@dataclass(eq=False)
class Job:
    """A job whose number is not spent, and the state that it depends on. An offload has an aggregate and a row group, others an object."""

    kind: str
    column: int = None
    object: Object = None
    a: int = None
    aggregate: Aggregate = None
    group: int = None
    state: object = None
    # whether its carry puts a content into the store
    puts: bool = False
    carried: bool = False


class Table:
    """A table, with its store and the jobs whose numbers are not spent. Its kinds are "int" or "text", one for each column."""

    def __init__(self, kinds, limits):
        self.kinds = kinds
        self.limits = limits
        self.regions = {
            "int": Region(limits.int_segments, limits.int_size),
            "text": Region(limits.text_segments, limits.text_size),
        }
        # the cells of each place, and whether its row is alive
        self.rows = []
        self.alive = []
        # the objects of each column, and its row groups that were lent last
        self.objects = [[] for _ in kinds]
        self.lent = [[] for _ in kinds]
        self.aggregates = [None] * MOST_AGGREGATES
        self.jobs = {}
        self.begun = 0
        self.edits = 0
        self.commands = 1
        self.store = Store(FIRST_STORE)

    def reply(self, verb, *arguments):
        """Serves a command, and returns its reply."""
        self.commands += 1
        try:
            return getattr(self, verb)(*arguments)
        except Refused as refused:
            return str(refused)

    def no_command(self, _):
        """The reply to a line that is not a command."""
        return f"syntax command {self.commands}"

    # Queries.

    def groups(self):
        """The number of row groups with a place."""
        return len(self.objects[0])

    def places_of(self, group):
        """The used places of a row group."""
        first = group * self.limits.group
        return range(first, min(first + self.limits.group, len(self.rows)))

    def live_rows(self):
        """The rows that were not removed."""
        return [cells for cells, alive in zip(self.rows, self.alive) if alive]

    def need_column(self, column):
        """Refuses a column that does not exist."""
        refuse_if(column >= len(self.kinds), "NoColumn")

    def object(self, column, group):
        """The object of a row group of a column."""
        self.need_column(column)
        refuse_if(group >= self.groups(), "OutOfRange")
        return self.objects[column][group]

    def need_local(self, columns, group):
        """Refuses a row group with an object that is away."""
        for column in columns:
            refuse_if(self.objects[column][group].part is None, "Absent", column, group)

    def region(self, column):
        """The region of a column's objects."""
        return self.regions[self.kinds[column]]

    def length(self, column, cells):
        """The length of a column's object with these cells. An object of numbers has space for a whole row group."""
        return self.limits.group if self.kinds[column] == "int" else text_length(cells)

    # Edits.

    def is_of_other_kind(self, column, cell):
        """Whether a column refuses a cell."""
        return cell is not None and isinstance(cell, int) != (self.kinds[column] == "int")

    def insert(self, cells):
        """Appends a row."""
        place = len(self.rows)
        refuse_if(any(self.is_of_other_kind(column, cell) for column, cell in zip(range(len(self.kinds)), cells)), "WrongKind")
        refuse_if(len(cells) != len(self.kinds), "RowWidth")
        refuse_if(any(map(is_long, cells)), "TextTooLong")
        refuse_if(place == self.limits.places, "TableFull")
        if place % self.limits.group:
            self.need_local(range(len(self.kinds)), place // self.limits.group)
        self.write(place, dict(enumerate(cells)))
        self.rows.append(list(cells))
        self.alive.append(True)
        return f"place {place}"

    def set(self, place, column, cell):
        """Replaces a cell."""
        self.need_column(column)
        refuse_if(self.is_of_other_kind(column, cell), "WrongKind")
        refuse_if(is_long(cell), "TextTooLong")
        self.need_row(place)
        self.write(place, {column: cell})
        self.rows[place][column] = cell
        return "ok"

    def remove(self, place):
        """Removes a row."""
        self.need_row(place)
        self.count_edit()
        self.alive[place] = False
        return "ok"

    def need_row(self, place):
        """Refuses a place without a row, or whose row is not wholly local."""
        refuse_if(place >= len(self.rows), "NoRow")
        refuse_if(not self.alive[place], "RemovedRow")
        self.need_local(range(len(self.kinds)), place // self.limits.group)

    def count_edit(self):
        """Counts an edit."""
        refuse_if(self.edits == self.limits.edits, "EditsUsedUp")
        self.edits += 1

    def write(self, place, cells):
        """Writes these cells, by column, into the objects of a place. Numbers are written in place. Texts get a new part before the old one
        is freed, and so does a new row group."""
        group = place // self.limits.group
        lengths = {column: self.length_with(place, column, cell) for column, cell in cells.items() if self.is_placed(column, group)}
        refuse_if(any(length > self.region(column).size for column, length in lengths.items()), "ChunkFull")
        parts = {}
        try:
            for column, length in lengths.items():
                parts[column] = self.region(column).place(length)
            self.count_edit()
        except Refused:
            for column, part in parts.items():
                self.region(column).drop(part)
            raise
        for column in cells:
            self.replace(column, group, parts.get(column))

    def is_placed(self, column, group):
        """Whether a write gives the object a new part."""
        return self.kinds[column] == "text" or group == self.groups()

    def length_with(self, place, column, cell):
        """The length of an object after one of its cells is set to this one."""
        cells = {it: self.rows[it][column] for it in self.places_of(place // self.limits.group)}
        return self.length(column, list({**cells, place: cell}.values()))

    def replace(self, column, group, part):
        """Records that an object was written or made. If a part is given, the object has it from now on."""
        objects = self.objects[column]
        if group == len(objects):
            objects.append(Object())
        it = objects[group]
        if part is not None:
            if it.part is not None:
                self.region(column).drop(it.part)
            it.part = part
        it.write()

    # Aggregates.

    def aggregate(self, a):
        """The aggregate with a number."""
        refuse_if(a >= MOST_AGGREGATES or self.aggregates[a] is None, "NoAggregate")
        return self.aggregates[a]

    def watch(self, fold, value, key, tests):
        """Registers an aggregate. Each row group with a place is pending."""
        it = Aggregate(fold, value, key, tests, set(range(self.groups())))
        refuse_if(len(tests) > MOST_TESTS or any(is_long(constant) for _, _, constant in tests), "BadSpec")
        for column in it.columns():
            self.need_column(column)
        refuse_if(self.kinds[value] != "int" or any(map(self.is_of_other_test, tests)), "WrongKind")
        refuse_if(None not in self.aggregates, "TooManyAggregates")
        a = self.aggregates.index(None)
        self.aggregates[a] = it
        return f"aggregate {a}"

    def is_of_other_test(self, test):
        """Whether a test does not have the kind of its column. For a column of texts, a constant like a number is a text."""
        column, op, constant = test
        if self.kinds[column] == "int":
            return op == "^=" or isinstance(constant, str)
        return op not in TEXT_TESTS

    def unwatch(self, a):
        """Forgets an aggregate."""
        self.aggregate(a)
        self.aggregates[a] = None
        return "ok"

    def need_pending(self, a, group):
        """The aggregate with a number, if a row group is pending in it."""
        it = self.aggregate(a)
        refuse_if(group >= self.groups(), "OutOfRange")
        refuse_if(group not in it.pending, "StaleJob")
        return it

    def scan(self, a, group):
        """Builds a row group into an aggregate."""
        it = self.need_pending(a, group)
        self.need_local(it.columns(), group)
        it.pending.remove(group)
        return "ok"

    def ask(self, a):
        """Asks an aggregate."""
        it = self.aggregate(a)
        refuse_if(it.pending, "Building", len(it.pending))
        return it.answer(self.live_rows())

    def recount(self, a):
        """Computes an aggregate from scratch."""
        return self.aggregate(a).answer(self.live_rows())

    # Lent parts of columns.

    def lend(self, column, start, stop):
        """Lends a part of a column."""
        self.need_column(column)
        refuse_if(start > stop or stop > len(self.rows), "OutOfRange")
        groups = sorted({place // self.limits.group for place in range(start, stop)})
        for group in groups:
            self.need_local([column], group)
        for group in groups:
            self.objects[column][group].hot = True
        self.lent[column] = [*self.lent[column], *groups][-4:]
        return "\n".join(self.piece(column, group, start, stop) for group in groups) or "empty"

    def piece(self, column, group, start, stop):
        """The line of a row group with the lent places."""
        places = [it for it in self.places_of(group) if start <= it < stop]
        marks = "".join("+" if self.alive[it] else "-" for it in places)
        return f"piece {marks} {record(self.rows[it][column] for it in places)}"

    def prefetch(self, column):
        """Proposes the next two row groups of the stride, if the last four that were lent have one."""
        self.need_column(column)
        lent = self.lent[column]
        strides = {there - here for here, there in zip(lent, lent[1:])}
        if len(lent) < 4 or len(strides) > 1 or 0 in strides:
            return "next none"
        stride = strides.pop()
        proposed = [it for it in (lent[-1] + stride, lent[-1] + 2 * stride) if 0 <= it < self.groups()]
        return " ".join(["next", *map(str, proposed or ["none"])])

    # Objects and jobs.

    def pin(self, column, group):
        """Adds a pin to an object."""
        it = self.object(column, group)
        self.need_local([column], group)
        it.pins += 1
        return "ok"

    def unpin(self, column, group):
        """Removes a pin."""
        it = self.object(column, group)
        refuse_if(it.pins == 0, "NotPinned")
        it.pins -= 1
        return "ok"

    def begin(self, job):
        """Gives a job the next number."""
        refuse_if(self.begun == self.limits.edits, "EditsUsedUp")
        self.jobs[self.begun] = job
        self.begun += 1
        return f"job {self.begun - 1}"

    def evac(self, column, group):
        """Begins to evict an object. Its carry puts nothing if the store has its current content."""
        it = self.object(column, group)
        self.need_local([column], group)
        return self.begin(Job("evac", column=column, group=group, object=it, state=it.state(), puts=it.dirty))

    def fetch(self, column, group):
        """Begins to fetch an object."""
        it = self.object(column, group)
        refuse_if(it.part is not None, "StaleJob")
        return self.begin(Job("fetch", column=column, group=group, object=it, state=it.state()))

    def offload(self, a, group):
        """Begins to build a row group into an aggregate from the store, which must have the current contents of its columns."""
        it = self.need_pending(a, group)
        refuse_if(any(self.objects[column][group].dirty for column in it.columns()), "StaleJob")
        return self.begin(Job("offload", a=a, aggregate=it, group=group, state=self.build_state(it, group)))

    def build_state(self, aggregate, group):
        """The state that an offloaded build depends on: the writes of its columns, and which rows are alive."""
        versions = [self.objects[column][group].version for column in aggregate.columns()]
        return versions, [self.alive[it] for it in self.places_of(group)]

    def carry(self, n):
        """Carries a job."""
        job = self.jobs.get(n)
        refuse_if(job is None or job.carried, "StaleJob")
        if job.puts:
            self.store.put()
        job.carried = True
        return "carried"

    def commit(self, n):
        """Ends an eviction."""
        return self.end(n, "evac", self.leave)

    def install(self, n):
        """Ends a fetch."""
        return self.end(n, "fetch", self.arrive)

    def merge(self, n):
        """Ends an offloaded build."""
        return self.end(n, "offload", self.build)

    def end(self, n, kind, ending):
        """Ends a job. Its number is spent, unless the refusal may pass."""
        job = self.jobs.pop(n, None)
        refuse_if(job is None or job.kind != kind, "StaleJob")
        try:
            ending(job)
        except Refused as refused:
            if refused.name != "StaleJob":
                self.jobs[n] = job
            raise
        return "ok"

    def leave(self, job):
        """Evicts the object of a job, if it was neither written nor away since the job began."""
        it = job.object
        refuse_if(not job.carried or it.part is None or it.state() != job.state, "StaleJob")
        refuse_if(it.pins, "Pinned")
        self.region(job.column).drop(it.part)
        it.part, it.dirty = None, False
        it.leavings += 1

    def arrive(self, job):
        """Fetches the object of a job, if it was not fetched since the job began."""
        it = job.object
        refuse_if(not job.carried or it.part is not None or it.state() != job.state, "StaleJob")
        cells = [self.rows[place][job.column] for place in self.places_of(job.group)]
        it.part = self.region(job.column).place(self.length(job.column, cells))
        it.hot = True

    def build(self, job):
        """Builds the row group of a job into its aggregate, if the state that the job depends on has not changed."""
        it = self.aggregate(job.a)
        refuse_if(not job.carried or it is not job.aggregate or job.group not in it.pending, "StaleJob")
        refuse_if(self.build_state(it, job.group) != job.state, "StaleJob")
        it.pending.remove(job.group)

    def compact(self, kind, segment):
        """Moves the parts of a segment into the lowest free one: hot objects first, otherwise in their order."""
        region = self.regions[kind]
        refuse_if(segment >= len(region.segments), "OutOfRange")
        free = region.other_free(segment)
        objects = [it for column in range(len(self.kinds)) if self.kinds[column] == kind for it in self.objects[column]]
        moved = [it for it in objects if it.part is not None and it.part.segment == segment]
        for it in sorted(moved, key=lambda it: (not it.hot, it.part.offset)):
            region.drop(it.part)
            it.part = region.append(free, it.part.length)
            it.hot = False
        return "ok"

    # Whole tables.

    def renew(self, capacity):
        """Moves all objects that are away to a new store. Local objects have no copy there."""
        store = Store(capacity)
        objects = [it for column in self.objects for it in column]
        for it in objects:
            if it.part is None:
                store.put()
        for it in objects:
            it.dirty = it.part is not None
        self.store = store
        self.jobs.clear()
        return "renewed"

    def load(self, rows):
        """Inserts rows up to the first that is refused."""
        for count, cells in enumerate(rows):
            try:
                self.insert(cells)
            except Refused as refused:
                return f"loaded {count}\n{refused}"
        return f"loaded {len(rows)}"

    def dump(self):
        """Writes the rows."""
        for group in range(self.groups()):
            self.need_local(range(len(self.kinds)), group)
        rows = self.live_rows()
        return "\n".join([f"rows {len(rows)}", *map(record, rows)])
