"""Judges the history of sessions that share a table: each reply must be a plain table's, in the order in which the sessions had the lock.

bindings/rust/examples/history prints such a history. This file models only rows and answers, not objects, jobs or storage.
"""
import collections
import functools
import operator

from reference_aggregates import Aggregate, record

# The aggregates that each history has from the start.
WATCHED = {
    "0": ("totals", 1, None, ()),
    "1": ("totals", 1, 0, ()),
    "2": ("extrema", 1, 0, ()),
    "3": ("totals", 1, 2, ((1, ">", 0),)),
    "4": ("extrema", 1, 2, ((0, "!=", 1),)),
}
KINDS = (int, int, str)
NO_ROW, REMOVED_ROW, BUILDING, ABSENT, REGION_FULL = (f"refused {it}" for it in (8, 9, 15, 16, 17))
PINNED, STALE_JOB, FAR_FAULT, FAILED = "refused 19", "refused 20", "refused 21", "failed"
# Replies of calls that change nothing, for runs whose sessions move objects, and for runs whose far side may fail.
BY_HAND = {ABSENT, REGION_FULL}
OF_FAR_SIDE = {FAR_FAULT, FAILED}
# Replies that movers may get at any time, since others move and edit the same objects.
MOVES = {
    "evict": {ABSENT, PINNED, STALE_JOB},
    "evict the coldest": {PINNED, STALE_JOB},
    "fetch": {STALE_JOB},
    "pin": {ABSENT},
    "unpin": set(),
    "renew": set(),
    "build": {STALE_JOB},
    "scan": {STALE_JOB},
}


class Wrong(Exception):
    """A history is wrong."""


# A row as in a history, and the cells of a record. There are few different rows, so each is computed once.
row_told = functools.cache(record)


def cell(text, column):
    """Parses a cell."""
    return None if text == "\\N" else KINDS[column](text)


@functools.cache
def cells_of(text):
    """The cells of a record."""
    return tuple(cell(it, column) for column, it in enumerate(text.split(",")))


class Parts(dict):
    """Maps the cells of a row to the key and the value that an aggregate counts, or None if it skips the row."""

    def __init__(self, about):
        super().__init__()
        self.about = about

    def __missing__(self, cells):
        about = self.about
        key = None if about.key is None else cells[about.key]
        part = self[cells] = (key, cells[about.value]) if about.keeps(cells) else None
        return part


@functools.cache
def parts_of(*about):
    """Returns the map that all aggregates with the same spec share, so that each row is computed once."""
    return Parts(Aggregate(*about, set()))


class Answer:
    """An aggregate: how often each value occurs, by key."""

    def __init__(self, *about):
        self.parts = parts_of(*about)
        self.about, self.values, self.seen = self.parts.about, collections.defaultdict(collections.Counter), 0

    def take(self, changes):
        """Applies changes: rows, and how many more or fewer of each there are."""
        parts, values = self.parts, self.values
        for cells, by in changes:
            part = parts[cells]
            if part is not None:
                key, value = part
                values[key][value] += by

    def told(self):
        """Formats the answer as in a history."""
        if self.about.key is None and self.about.fold == "totals":
            return self.line(None)
        return "; ".join(self.line(key) for key in sorted(self.values) if any(self.values[key].values())) or "none"

    def line(self, key):
        """Formats the line of a key."""
        first, under = "" if key is None else record([key]) + " ", self.values[key]
        if self.about.fold == "extrema":
            there = [value for value, count in under.items() if count]
            return f"{first}min {min(there)} max {max(there)}"
        return f"{first}count {sum(under.values())} sum {sum(map(operator.mul, under, under.values()))}"


class PlainTable:
    """Rows as tuples, how often each occurs, and all changes. An answer applies the changes that it has not seen when it is asked."""

    def __init__(self):
        self.rows, self.removed, self.alive, self.changes = [], set(), collections.Counter(), []
        self.answers = {}
        for name, about in WATCHED.items():
            self.watch(name, *about)

    def watch(self, name, *about):
        """Registers an aggregate over the current rows."""
        self.answers[name] = answer = Answer(*about)
        answer.take(self.alive.items())
        answer.seen = len(self.changes)

    def count(self, cells, by):
        """Records an added or a removed row."""
        self.alive[cells] += by
        self.changes.append((cells, by))

    def told(self, name):
        """Formats an answer as in a history."""
        answer = self.answers[name]
        answer.take(self.changes[answer.seen :])
        answer.seen = len(self.changes)
        return answer.told()

    def refusal(self, place):
        """Why an edit of the row at a place is refused, or None."""
        return NO_ROW if place >= len(self.rows) else REMOVED_ROW if place in self.removed else None

    def due(self, verb, words):
        """The expected reply if only rows matter."""
        if verb == "insert":
            return f"place {len(self.rows)}"
        if verb == "row":
            return self.row(int(words[0]))
        if verb in ("ask", "recount"):
            return self.told(words[0])
        return (self.refusal(int(words[0])) if verb in ("set", "remove") else None) or "ok"

    def row(self, place):
        """Formats a row as in a history, with a mark."""
        if place >= len(self.rows):
            return NO_ROW
        return ("- " if place in self.removed else "+ ") + row_told(self.rows[place])

    def apply(self, verb, words):
        """Applies a call that is not refused."""
        if verb == "insert":
            self.rows.append(cells_of(" ".join(words)))
            self.count(self.rows[-1], 1)
        elif verb == "set":
            place, column = int(words[0]), int(words[1])
            old = self.rows[place]
            self.rows[place] = new = (*old[:column], cell(" ".join(words[2:]), column), *old[column + 1 :])
            self.count(old, -1)
            self.count(new, 1)
        elif verb == "remove":
            self.count(self.rows[int(words[0])], -1)
            self.removed.add(int(words[0]))
        elif verb == "watch":
            self.watch(words[0], words[1], int(words[2]), int(words[4]), ())
        elif verb == "unwatch":
            del self.answers[words[0]]


def may_get(verb, is_by_hand, may_fail):
    """The replies that a call may get instead of the expected one; it changes nothing then."""
    if verb in ("watch", "unwatch"):
        return set()
    if is_by_hand:
        return {"ask": {BUILDING}, "recount": {ABSENT}}.get(verb, BY_HAND)
    return OF_FAR_SIDE if may_fail else set()


def judge_moves(lines, is_by_hand, may_fail):
    """Raises Wrong for a reply that movers must not get."""
    for _, what, reply, _ in lines:
        may = MOVES[what] | {"ok"}
        if is_by_hand and what in ("fetch", "scan"):
            may |= BY_HAND
        if may_fail and what != "unpin":
            may |= OF_FAR_SIDE
        if reply not in may:
            raise Wrong(f"a mover got '{reply}' to '{what}'")


def clocked(lines):
    """Yields the session, the clock, the call and the reply of each line. Raises if a call had the lock outside its begin and end, or a
    session made two calls at once. So the order of the lock agrees with real time."""
    last, ends = -1, {}
    for line in lines:
        session, begun, at, ended, call, reply = line.split("\t")
        begun, at, ended = int(begun), int(at), int(ended)
        if not (last < at and ends.get(session, -1) < begun < at < ended):
            raise Wrong(f"the clock of session {session} at {at}")
        last, ends[session] = at, ended
        yield session, at, call, reply


def judge(text, sessions, edits):
    """Raises Wrong for a wrong history of so many sessions with so many edits each. Returns the number of its calls."""
    setup, *lines = text.splitlines()
    _, policy, far, _ = setup.split("\t")
    is_by_hand, may_fail = policy == "Manual", far == "faulty"
    moves, calls = [it for it in lines if it.startswith("moved")], [it for it in lines if not it.startswith("moved")]
    judge_moves([it.split("\t") for it in moves], is_by_hand, may_fail)
    table, made, looked = PlainTable(), collections.Counter(), 0
    for session, at, call, reply in clocked(calls):
        verb, *words = call.split(" ")
        due = table.due(verb, words)
        if reply != due:
            if due in (NO_ROW, REMOVED_ROW) or reply not in may_get(verb, is_by_hand, may_fail):
                raise Wrong(f"session {session} at {at}: the reply to '{call}' should be '{due}', but is '{reply}'")
            continue
        if not due.startswith("refused"):
            table.apply(verb, words)
            made[session] += verb in ("insert", "set", "remove")
        looked = looked + 1 if verb == "row" and words[0] == str(looked) else looked if verb in ("ask", "recount") else 0
    if looked != len(table.rows):
        raise Wrong(f"only {looked} of {len(table.rows)} rows were read at the end")
    if +made != {str(session): edits for session in range(sessions)}:
        raise Wrong(f"sessions made {dict(made)} edits")
    judge_answers(table)
    return len(calls)


def judge_answers(table):
    """Raises if an incremental answer differs from one computed from all rows."""
    rows = [cells for place, cells in enumerate(table.rows) if place not in table.removed]
    for name, it in table.answers.items():
        if table.told(name) != it.about.answer(rows).replace("\n", "; "):
            raise Wrong(f"the incremental answer of aggregate {name} is wrong")
