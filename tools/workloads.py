"""The scripts that tools/bench times: whole workloads, with the aim for each, and turns of a line or of a job."""
import random

GROUP = 64
KEYS, MANY_KEYS = 100, 5_000
TURNS = 4
AGGREGATES = ["totals 0", "totals 0 by 1", "totals 0 if 0 > 10", "extrema 0", "totals 0 by 1 if 0 > -100", "extrema 0 by 1"]
AGGREGATES += ["extrema 0 if 0 <= 250", "totals 0 if 0 >= -250 if 0 < 250"]
EVICT = "evac {0} {1}\ncarry {2}\ncommit {2}\n"
FETCH = "fetch {0} {1}\ncarry {2}\ninstall {2}\n"
OFFLOAD = "offload 0 {1}\ncarry {2}\nmerge {2}\n"


def opening(kinds, watched=()):
    """Returns the lines that open a table with the largest limits and these aggregates."""
    texts = "1024 1048576" if "text" in kinds else "1 64"
    return [f"schema {GROUP} {kinds} 16777216 1099511627776 1024 65536 {texts}\n", *(f"watch {it}\n" for it in watched)]


def number(draw):
    return draw.randrange(-500, 500)


def rows(draw, count, kinds, keys=KEYS):
    """Returns rows of a number alone, or with one of the keys, or with one of 400 texts."""
    rest = {"int": lambda: "", "int,int": lambda: f",{draw.randrange(keys)}", "int,text": lambda: f",town{draw.randrange(400)}"}
    return [f"{number(draw)}{rest[kinds]()}\n" for _ in range(count)]


def load(records):
    """Returns a load of these records."""
    body = "".join(records)
    return [f"load {len(body)}\n", body]


def jobs(form, column, groups, first):
    """Returns a job for each row group: commands by a template with a column, the row group and the job's number."""
    return [form.format(column, group, first + group) for group in range(groups)]


def inserts(draw, size, kinds, count, keys=KEYS):
    """Inserts under the first few aggregates, which are asked at the end."""
    asked = [f"ask {it}\n" for it in range(count)]
    return opening(kinds, AGGREGATES[:count]) + [f"insert {it}" for it in rows(draw, size, kinds, keys)] + asked


def edits(draw, size, count):
    """Edits of a quarter as many rows: nine in ten set a row's number, one removes a row."""
    script = inserts(draw, size // 4, "int,int", count)
    places = list(range(size // 4))
    for _ in range(size):
        at = draw.randrange(len(places))
        if draw.randrange(10):
            script.append(f"set {places[at]} 0 {number(draw)}\n")
        else:
            places[at], places[-1] = places[-1], places[at]
            script.append(f"remove {places.pop()}\n")
    return script + [f"ask {it}\n" for it in range(count)]


def asks(draw, size):
    """Asks of totals over 4,096 rows, with one ask by key for each 50."""
    return inserts(draw, 4096, "int,int", 2) + ["ask 0\n"] * size + ["ask 1\n"] * (size // 50)


def loads(draw, size, kinds, after=""):
    """One load under totals, an ask, and the lines after it."""
    return opening(kinds, ["totals 0"]) + load(rows(draw, size, kinds)) + ["ask 0\n", after]


def asks_after_sets(draw, size, watched):
    """Asks of an aggregate over 50,000 rows, with a set of a row's number before one in ten."""
    count = 50_000
    script = opening("int,int", [watched]) + load(rows(draw, count, "int,int"))
    for at in range(size):
        script.append("ask 0\n" if at % 10 else f"set {draw.randrange(count)} 0 {number(draw)}\nask 0\n")
    return script


def queue(_, size, watched):
    """A queue: removes its least number, inserts a greater one, and asks the aggregate."""
    rising = [f"insert {it},{it % KEYS}\n" for it in range(2 * size)]
    turns = [f"remove {it}\n{rising[size + it]}ask 0\n" for it in range(size)]
    return opening("int,int", [watched]) + rising[:size] + turns


def scans(draw, size, watched):
    """An aggregate, built over all row groups, asked and forgotten, four times."""
    build = [f"watch {watched}\n", *(f"scan 0 {it}\n" for it in range(size)), "ask 0\n", "unwatch 0\n"]
    return opening("int,int") + load(rows(draw, size * GROUP, "int,int")) + build * TURNS


def lends(draw, size, kinds, column):
    """A column lent eight times, from one of its first places to its end."""
    return opening(kinds) + load(rows(draw, size, kinds)) + [f"lend {column} {it} {size}\n" for it in range(8)]


def moves(draw, size, places, is_written):
    """Evicts and fetches all row groups of a column, four times; if they are written, sets a number of each between."""
    room = max(places, 4096)
    script = [f"schema {places} int {size * places} 1099511627776 {size * places // room + 2} {room} 1 64\n"]
    script += load(rows(draw, size * places, "int"))
    for turn in range(TURNS):
        script += jobs(EVICT, 0, size, 2 * turn * size) + jobs(FETCH, 0, size, (2 * turn + 1) * size)
        if is_written:
            script += [f"set {group * places + turn} 0 {turn}\n" for group in range(size)]
    return script + ["lend 0 0 1000\n"]


def offloads(draw, size):
    """Totals by key, built four times from the far copies of two columns that are away."""
    script = opening("int,int") + load(rows(draw, size * GROUP, "int,int"))
    script += jobs(EVICT, 0, size, 0) + jobs(EVICT, 1, size, size)
    for turn in range(TURNS):
        script += ["watch totals 0 by 1\n", *jobs(OFFLOAD, 0, size, (2 + turn) * size), "ask 0\n", "unwatch 0\n"]
    return script


def recounts(draw, size):
    """Totals by key, computed from scratch 20 times."""
    return opening("int,int", ["totals 0 by 1"]) + load(rows(draw, size, "int,int")) + ["recount 0\n"] * 20


def sets(draw, size, count, edited=True):
    """A load of rows, and then sets at random, under the first few aggregates."""
    filled = opening("int,int", AGGREGATES[:count]) + load(rows(draw, size, "int,int"))
    return filled + [f"set {draw.randrange(size)} 0 {number(draw)}\n" for _ in range(size * edited)]


# For each workload, the function that makes its script, its size, and the function's other arguments.
WORKLOADS = {
    "insert_0": (inserts, 200_000, "int", 0),
    "insert_1": (inserts, 200_000, "int", 1),
    "insert_8": (inserts, 100_000, "int,int", 8),
    "insert_8_keys": (inserts, 100_000, "int,int", 8, MANY_KEYS),
    "insert_text": (inserts, 50_000, "int,text", 1),
    "edits_1": (edits, 200_000, 1),
    "edits_8": (edits, 100_000, 8),
    "sets_0": (sets, 100_000, 0),
    "sets_1": (sets, 100_000, 1),
    "sets_8": (sets, 50_000, 8),
    "asks": (asks, 200_000),
    "load_int": (loads, 400_000, "int,int"),
    "load_text": (loads, 100_000, "int,text"),
    "dump": (loads, 100_000, "int,int", "dump\n" * 4),
    "asks_extrema": (asks_after_sets, 40_000, "extrema 0"),
    "asks_extrema_by": (asks_after_sets, 2_000, "extrema 0 by 1"),
    "least_goes": (queue, 40_000, "extrema 0"),
    "least_goes_by": (queue, 4_000, "extrema 0 by 1"),
    "scans": (scans, 2_000, "totals 0 by 1"),
    "scans_extrema": (scans, 2_000, "extrema 0"),
    "lend_int": (lends, 60_000, "int", 0),
    "lend_text": (lends, 60_000, "int,text", 1),
    "move_64": (moves, 4_000, 64, False),
    "move_written_64": (moves, 4_000, 64, True),
    "move_4096": (moves, 200, 4096, False),
    "move_written_4096": (moves, 200, 4096, True),
    "offloads": (offloads, 2_000),
    "recounts": (recounts, 200_000),
}

# The aims: the most that a workload should take, as a multiple of the time of the earlier program (docs/PERFORMANCE.md, "Scripts"). The
# first is for the size above, the second for 8 times that size.
NAMES_OF = {
    (1.5, 1.5): "insert_0 insert_1 load_int dump scans scans_extrema lend_int move_4096 offloads recounts",
    (1.6, 1.6): "asks asks_extrema asks_extrema_by least_goes least_goes_by move_64 move_written_64 move_written_4096",
    (1.8, 2.0): "insert_8 insert_8_keys edits_1 edits_8 sets_0 sets_1 sets_8",
    (2.0, 2.0): "insert_text load_text lend_text",
}
AIMS = {name: aims for aims, names in NAMES_OF.items() for name in names.split()}


# For each turn its name, the lines that open a script, and the turn: a line, or the commands of a job or two. `{0}` and `{1}` are the
# numbers of its jobs.
WIDE = "schema 4096 int 8192 1099511627776 4 65536 1 64\nload 4096\n" + "123456\n" * 4096
AWAY_AND_BACK = "evac 0 0\ncarry {0}\ncommit {0}\nfetch 0 0\ncarry {1}\ninstall {1}\n"
IS_AWAY = "evac 0 0\ncarry 0\ncommit 0\n"
BUILT = "watch totals 0\noffload 0 0\ncarry {0}\nmerge {0}\nunwatch 0\n"
TURNS_OF = [
    ("inserts without an aggregate", "schema 64 int\n", "insert 123456\n"),
    ("inserts under totals by key", "schema 64 int,int\nwatch totals 0 by 1\n", "insert 123456,7\n"),
    ("inserts of texts", "schema 64 int,text 16777216 1099511627776 64 4096 1024 65536\nwatch totals 0\n", "insert 5,north\n"),
    ("inserts of quoted texts", "schema 64 text\n", 'insert "a, b"\n'),
    ("sets under totals", "schema 64 int\nwatch totals 0\ninsert 1\n", "set 0 0 -42\n"),
    ("asks", "schema 64 int\nwatch totals 0\ninsert 1\n", "ask 0\n"),
    ("an object of 4,096 numbers away and back", WIDE, AWAY_AND_BACK),
    ("the same, written between", WIDE, "set 0 0 7\n" + AWAY_AND_BACK),
    ("totals of 4,096 numbers from their far copy", WIDE + IS_AWAY, BUILT),
]
LINES, JOBS = 200_000, 2_000


def turns(opening, turn):
    """Returns turns whose jobs have successive numbers."""
    jobs = sum(turn.count(verb) for verb in ("evac", "fetch", "offload"))
    if not jobs:
        return [turn] * LINES
    begun = opening.count("evac")
    return [turn.format(begun + jobs * it, begun + jobs * it + 1) for it in range(JOBS)]


def script_of(name, size):
    """Returns the script of a workload at a size, from random numbers that are the same in each run."""
    make, _, *told = WORKLOADS[name]
    return "".join(make(random.Random(name), size, *told))


def filling_of(name, size):
    """Returns the part of a workload's script that only fills the table, which is not timed; empty for most."""
    make, _, *told = WORKLOADS[name]
    return "".join(make(random.Random(name), size, *told, False)) if make is sets else ""
