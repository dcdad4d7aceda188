"""Draws the commands of a random script, most of them close to a table's state."""
import bisect
import itertools
import random

TEXTS = ("", "fig", "pear", "plum of a tree as old as hills", "quince", "é", "a,b", 'she said "no"', " 7 ")
# A text with an end of line can only be in a load.
TEXTS_OF_LOADS = (*TEXTS, "two\nlines")
CONSTANTS = ("fig", "pe", "plum", "qu", "é", "a,", '"', "5")
NUMBERS = (-4, -3, -2, -1, 0, 1, 2, 3, 4, -(2**63), 2**63 - 1)
# The highest number of a word, except for EDITS and jobs.
HIGHEST = 2**32 - 1
NUMBER_OPS = ("=", "!=", "<", "<=", ">", ">=")
# Lines that are not commands.
NO_COMMANDS = (
    *("jump", "ask", "ask x", "ask 0 0", "ask  0", "ask 0 ", " ask 0", "ask 4294967296", "ask +1", "insert", "insert ", "insert 1\r2"),
    *("set 0 0", "set 0 0 1,2", "set 0", "remove", "unwatch", "watch sums 0", "watch totals", "watch totals 0 by", "watch totals 0 if"),
    *("watch totals 0 if 0 = ", "watch totals 0 if 0 ~ 5", "scan 0", "offload 0", "lend 0 0", "lend 0 0 0 0", "pin 0", "unpin 0 0 0"),
    *("evac 0", "fetch", "carry -1", "carry 18446744073709551616", "commit", "install 0 0", "merge", "compact 0", "compact real 0"),
    *("prefetch", "renew", "renew x", "recount", "load", "load x", "dump 0", "schema 4 int", "threads 1 1"),
)

# The weight of each command, in parts of 1,000. A run draws some more often, and some less.
WEIGHTS = {
    **{"insert": 100, "set": 90, "remove": 12, "load": 15, "watch": 45, "unwatch": 7, "ask": 9, "recount": 9, "scan": 25, "offload": 60},
    **{"evac": 50, "fetch": 50, "trip": 60, "near_job": 40, "carry": 120, "end": 120, "commit": 10, "install": 10, "merge": 10},
    **{"pin": 10, "unpin": 10, "compact": 20, "lend": 30, "prefetch": 10, "renew": 9, "dump": 4, "no_command": 4},
}
FACTORS = (0.2, 1, 1, 1, 5)


class Draws:
    """Random numbers. `random` is the only call of the library that returns the same ones in each version."""

    def __init__(self, seed):
        self.random = random.Random(seed).random

    def below(self, count):
        """Returns a number below this one."""
        return int(self.random() * count)

    def one_in(self, count):
        """Returns True once in `count` calls, on average."""
        return self.below(count) == 0

    def pick(self, items):
        """Returns one of these."""
        return items[self.below(len(items))]


class Drawer:
    """Draws commands, most of them close to a table's state."""

    def __init__(self, draws, table):
        self.draws = draws
        self.table = table
        self.width = len(table.kinds)
        self.verbs = list(WEIGHTS)
        self.sums = list(itertools.accumulate(weight * draws.pick(FACTORS) for weight in WEIGHTS.values()))
        # the remaining commands of a trip
        self.trips = iter(())

    def command(self):
        """Returns the next command: a verb, and its arguments. Sometimes others come between the commands of a trip."""
        if not self.draws.one_in(4):
            for it in self.trips:
                return it
        verb = self.verbs[bisect.bisect(self.sums, self.draws.random() * self.sums[-1])]
        return getattr(self, verb)(verb)

    def place(self):
        """A place, or the next one, or sometimes the highest number."""
        return HIGHEST if self.draws.one_in(60) else self.draws.below(len(self.table.rows) + 1)

    def column(self):
        """A column, or sometimes the one after the last."""
        return self.draws.below(8 * self.width + 1) // 8

    def group(self):
        """A row group, or sometimes the next one, or the highest number."""
        size = self.table.limits.group
        return HIGHEST if self.draws.one_in(60) else self.draws.below(len(self.table.rows) + size) // size

    def number(self):
        """The number of an aggregate, mostly of a registered one."""
        there = [a for a, it in enumerate(self.table.aggregates) if it]
        return self.draws.pick(there) if there and not self.draws.one_in(6) else self.draws.below(34)

    def pending(self, a):
        """A row group, mostly one that is pending in an aggregate."""
        it = self.table.aggregates[a] if a < len(self.table.aggregates) else None
        return self.draws.pick(sorted(it.pending)) if it and it.pending and not self.draws.one_in(3) else self.group()

    def job(self, is_carried):
        """The number of one of the last jobs, mostly of a carried one, or mostly of one that was not; or of no job."""
        jobs = self.table.jobs
        last = range(max(self.table.begun - 6, 0), self.table.begun)
        due = [n for n in last if n in jobs and jobs[n].carried == is_carried]
        n = self.table.begun - self.draws.below(7)
        # (before the first job, the highest numbers of a word)
        return self.draws.pick(due) if due and not self.draws.one_in(5) else n % 2**64

    def cell(self, column, texts=TEXTS):
        """A cell of a column, one time in twenty of the other kind. In a column of texts a number is a text."""
        is_text = (column >= self.width or self.table.kinds[column] == "text") != self.draws.one_in(20)
        if self.draws.one_in(9):
            return None
        if is_text:
            return self.long_text() if self.draws.one_in(150) else self.draws.pick(texts)
        value = self.draws.pick(NUMBERS)
        return value if column < self.width and self.table.kinds[column] == "int" else str(value)

    def long_text(self):
        """A text of the most bytes, or of one more. It has half as many characters."""
        return "é" * 2047 + "x" * (2 + self.draws.below(2))

    def row(self, texts=TEXTS):
        """A row, one time in eleven too short or too long."""
        width = self.width + self.draws.pick((-1, 1)) if self.draws.one_in(11) else self.width
        return [self.cell(column, texts) for column in range(max(width, 1))]

    def insert(self, verb):
        return verb, self.row()

    def load(self, verb):
        return verb, [self.row(TEXTS_OF_LOADS) for _ in range(self.draws.below(4))]

    def set(self, verb):
        column = self.column()
        return verb, self.place(), column, self.cell(column)

    def remove(self, verb):
        return verb, self.place()

    def watch(self, verb):
        fold = self.draws.pick(("totals", "extrema"))
        key = None if self.draws.one_in(2) else self.column()
        numbers = [column for column, kind in enumerate(self.table.kinds) if kind == "int"]
        value = self.column() if self.draws.one_in(8) else self.draws.pick(numbers)
        count = 4 + self.draws.below(2) if self.draws.one_in(20) else self.draws.below(3)
        return verb, fold, value, key, [self.test() for _ in range(count)]

    def test(self):
        """A test, one time in twelve one of the other kind or with a constant that may be too long."""
        column = self.column()
        is_text = column < self.width and self.table.kinds[column] == "text"
        if self.draws.one_in(12):
            return self.odd_test(column, is_text)
        if is_text:
            return column, self.draws.pick(("=", "^=")), self.draws.pick(CONSTANTS)
        return column, self.draws.pick(NUMBER_OPS), self.draws.pick(NUMBERS)

    def odd_test(self, column, is_text):
        """A test of the other kind, or with a long constant."""
        if self.draws.one_in(2):
            return column, "^=", self.long_text()
        return column, *self.draws.pick((("<", 5), ("!=", 5)) if is_text else (("=", "fig"), ("<", "fig"), ("^=", "fig"), ("^=", 5)))

    def unwatch(self, verb):
        return verb, self.number()

    ask = recount = unwatch

    def scan(self, verb):
        a = self.number()
        return verb, a, self.pending(a)

    def offload(self, verb):
        """Half of the time, a build whose columns the store has, if there is one."""
        table = self.table
        clean = [
            (a, group)
            for a, it in enumerate(table.aggregates)
            for group in (sorted(it.pending) if it else ())
            if not any(table.objects[column][group].dirty for column in it.columns())
        ]
        return (verb, *self.draws.pick(clean)) if clean and self.draws.one_in(2) else self.scan(verb)

    def lend(self, verb):
        """Mostly lends the next row group of the column's stride, else a part of some row groups."""
        column = self.column()
        lent = self.table.lent[column] if column < self.width else []
        if len(lent) > 1 and not self.draws.one_in(3):
            first = max(2 * lent[-1] - lent[-2], 0) * self.table.limits.group
            return verb, column, first, first + 1
        start = self.place()
        stop = min(start + self.draws.below(3 * self.table.limits.group), HIGHEST)
        return (verb, column, stop, start) if self.draws.one_in(8) else (verb, column, start, stop)

    def prefetch(self, verb):
        return verb, self.column()

    def evac(self, verb):
        return verb, self.column(), self.group()

    fetch = pin = unpin = evac

    def carry(self, verb):
        return verb, self.job(is_carried=False)

    def commit(self, verb):
        return verb, self.job(is_carried=True)

    install = merge = commit

    def end(self, _):
        """The end of a job by its kind."""
        n = self.job(is_carried=True)
        return end_of(self.table, n), n

    def trip(self, _):
        """The first command of some that move an object. If there is no object, the previous trip continues, or the table is dumped."""
        column, group = self.column(), self.group()
        if column < self.width and group < self.table.groups():
            moves = self.packed(column, group) if self.draws.one_in(4) else ()
            self.trips = itertools.chain(moves, self.away_and_back(column, group))
        return next(self.trips, ("dump",))

    def away_and_back(self, column, group):
        """Evicts a local object, and mostly fetches it again; fetches one that is away."""
        leaves = self.table.objects[column][group].part is not None
        returns = not leaves or not self.draws.one_in(3)
        for begin, end in [("evac", "commit")] * leaves + [("fetch", "install")] * returns:
            n = self.table.begun
            yield begin, column, group
            yield "carry", n
            yield end, n

    def packed(self, column, group):
        """Compacts the segment of an object. Half of the time it does so twice, and lends the object between."""
        it, place = self.table.objects[column][group], group * self.table.limits.group
        if it.part and self.draws.one_in(2):
            yield "compact", self.table.kinds[column], it.part.segment
            yield "lend", column, place, place + 1
        if it.part:
            yield "compact", self.table.kinds[column], it.part.segment

    def near_job(self, _):
        """A command about the object or row group of one of the last jobs, which may make that job stale."""
        jobs = list(self.table.jobs.values())[-6:]
        if not jobs:
            return self.evac("evac")
        job = self.draws.pick(jobs)
        column = self.column() if job.column is None or self.draws.one_in(3) else job.column
        a = self.number() if job.a is None else job.a
        place = job.group * self.table.limits.group + self.draws.below(self.table.limits.group)
        about_object = [(verb, column, job.group) for verb in ("evac", "fetch", "pin", "unpin")]
        about_rows = [("set", place, column, self.cell(column)), ("remove", place), ("remove", place), ("insert", self.row())]
        return self.draws.pick((*about_object, *about_rows, ("scan", a, job.group), ("unwatch", a)))

    def compact(self, verb):
        kind = self.draws.pick(("int", "text"))
        segments = self.table.regions[kind].segments
        full = [number for number, parts in enumerate(segments) if len(parts) > 1]
        return verb, kind, self.draws.pick(full) if full and self.draws.one_in(2) else self.draws.below(len(segments) + 1)

    def renew(self, verb):
        """A store with space for all objects that are away and some contents more, or sometimes one or two less."""
        return verb, max(0, away(self.table) - 2 + self.draws.below(16))

    def dump(self, verb):
        return (verb,)

    def no_command(self, verb):
        """A line that is not a command: sometimes a test of neither kind, on a column of texts."""
        texts = [column for column, kind in enumerate(self.table.kinds) if kind == "text"]
        if texts and self.draws.one_in(9):
            return verb, f"watch totals 0 if {self.draws.pick(texts)} < b"
        return verb, self.draws.pick(NO_COMMANDS)


def end_of(table, n):
    """The command that ends a job, if its number is not spent."""
    kind = table.jobs[n].kind if n in table.jobs else "evac"
    return {"evac": "commit", "fetch": "install", "offload": "merge"}[kind]


def away(table):
    """The number of objects that are away."""
    return sum(it.part is None for column in table.objects for it in column)


def objects(table):
    """The columns and row groups of all objects."""
    return itertools.product(range(len(table.kinds)), range(table.groups()))


def look(draws, table, is_whole):
    """Commands that show a table and do not change it: they remove a pin at once. They show the rows, and all aggregates and objects or a
    third of them."""
    yield ("dump",)
    for a, it in enumerate(table.aggregates):
        if it and (is_whole or draws.one_in(3)):
            yield "ask", a
            yield "recount", a
    for column in range(len(table.kinds)):
        yield "prefetch", column
    for column, group in objects(table):
        if is_whole or draws.one_in(3):
            yield "pin", column, group
            yield "unpin", column, group


def jobs_end(table):
    """Commands that carry and end each job, and remove all pins."""
    for n in sorted(table.jobs):
        yield "carry", n
        yield end_of(table, n), n
    for column, group in objects(table):
        for _ in range(table.objects[column][group].pins + 1):
            yield "unpin", column, group


def all_move(table):
    """Commands that evict all objects, so that the regions are empty, and then fetch as many as fit and lend them: forwards in the even
    columns, backwards in the odd ones. Some runs have no jobs left for that, or too few."""
    yield "renew", 1_000
    if table.begun == table.limits.edits:
        return
    for column, group in objects(table):
        if table.objects[column][group].part:
            yield "evac", column, group
            yield "carry", table.begun - 1
            yield "commit", table.begun - 1
    for column in range(len(table.kinds)):
        groups = range(table.groups())
        for group in reversed(groups) if column % 2 else groups:
            yield "fetch", column, group
            yield "carry", table.begun - 1
            yield "install", table.begun - 1
            places = table.places_of(group)
            yield "lend", column, places.start, places.stop


def all_are_scanned(table):
    """Commands that scan all pending row groups that can be scanned."""
    for a, it in enumerate(table.aggregates):
        for group in sorted(it.pending) if it else ():
            yield "scan", a, group


def commands(draws, table, steps, between):
    """The commands of a run: steps, with commands that show the table after each so many. The first steps insert rows and make a small
    store."""
    drawer = Drawer(draws, table)
    for step in range(steps):
        yield drawer.load("load") if step < 4 else drawer.renew("renew") if step == 4 else drawer.command()
        if (step + 1) % between == 0:
            yield from look(draws, table, is_whole=between > 1)
    for last in (jobs_end(table), all_move(table), all_are_scanned(table), look(draws, table, is_whole=True)):
        yield from last
