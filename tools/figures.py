"""The figures of docs/RELIABILITY.md: the runs against each target, and the costs of the limits; and the table of edits of docs/EVIDENCE.md.

The first are the sums of the lines of docs/reliability.csv. The commands write such a line with --record: the target, the runs, their
calls or commands if these are counted, the seconds, and the failed runs. The target may have a suffix after a colon that says how the runs
were hindered. In the document's table, the row that names the command gets the figures in its second cell; all else stays. The rows of its
table of limits are the lines of docs/full-size.tsv, which the example full_size of the Rust crate writes. The rows of the table of edits are
the lines of docs/edits.csv, which ./edits writes with --record: a crate, its edits, how many of these were refused, the seconds, and a digest
of what was tried."""
import collections
import csv
import hashlib
import re
from pathlib import Path

from sources import ROOT, need, text_of

PAGE, RESULTS, LIMITS = "docs/RELIABILITY.md", "docs/reliability.csv", "docs/full-size.tsv"
# The head of the table of limits, which its rows follow.
HEAD = "| Limit | What was met | One more | Refused with | Processor seconds | Most memory, MB |\n|---|---|---|---|---|---|\n"
EVIDENCE, EDITS = "docs/EVIDENCE.md", "docs/edits.csv"
EDITS_HEAD = "| Crate | Edits | Refused by the last run of all | Seconds | Since then |\n|---|---|---|---|---|\n"
# What the edits of a crate rest on: its code, its definitions, and the edits.
TRIED = ("src", "specs", "must-fail", "edits")
# By target: a word of the command in the table's row, and the form of its figures.
TOLD = {
    "simulator": ("--example simulator", "{runs:,} seeds of {calls:,} calls"),
    "fuzz": ("tests/fuzz --seconds", "{runs:,} inputs"),
    "fuzz-random": ("tests/fuzz --random", "{runs:,} inputs"),
    "random-tables": ("tests/random-tables", "{runs:,} scripts of {calls:,} commands"),
    "program-tests": ("tests/program-tests", "{runs:,} scripts"),
    "threads": ("tests/random-threads --runs", "{runs:,} runs of {calls:,} edits"),
    "histories": ("tests/random-threads --history", "{runs:,} histories of {calls:,} calls"),
}
# By suffix: the words for how runs were hindered.
HINDERED = {"1": "on one processor", "2": "on two", "stolen": "on two of which one was half stolen"}
# How many pieces a row of the table has between its bars, including the empty ones at its ends.
PIECES = 7


def sums():
    """Returns the sums of the results by target, and how many runs were hindered in each way."""
    found = collections.defaultdict(lambda: dict.fromkeys(("runs", "calls", "seconds", "failed", *HINDERED), 0))
    for line in text_of(RESULTS).splitlines()[1:]:
        what, *numbers = line.split(",")
        what, _, how = what.partition(":")
        for name, number in zip(found[what], numbers):
            found[what][name] += int(number or 0)
        if how:
            found[what][how] += int(numbers[0])
    return found


def told(what, one):
    """Formats the figures of a row."""
    minutes = max(one["seconds"] // 60, 1)
    text = TOLD[what][1].format(**one) + f", in {minutes:,} minute{'s' * (minutes > 1)}"
    hindered = [f"{one[how]:,} {it}" for how, it in HINDERED.items() if one[how]]
    text += f"; of them {', '.join(hindered)}" * bool(hindered)
    return text + f"; {one['failed']} runs of the command failed" * bool(one["failed"])


def reliability(pages):
    """Updates the figures."""
    lines, results = pages[PAGE].splitlines(), sums()
    for number, line in enumerate(lines):
        cells = line.split("|")
        for what, (command, _) in TOLD.items():
            if len(cells) == PIECES and command in cells[3] and what in results:
                cells[2] = f" {told(what, results[what])} "
                lines[number] = "|".join(cells)
    above, head, below = ("\n".join(lines) + "\n").partition(HEAD)
    need(head, f"{PAGE} has no table of limits")
    comma = lambda found: f"{int(found[0]):,}"
    rows = [re.sub(r"[0-9]{4,}", comma, line).replace("\t", " | ") for line in text_of(LIMITS).splitlines()[1:]]
    pages[PAGE] = above + head + "".join(f"| {it} |\n" for it in rows) + re.sub(r"\A(\|.*\n)*", "", below)


# ---- edits that must fail


def digest_of(folder):
    """Returns a digest of what a trial of a crate's edits rests on."""
    folder, sum = Path(folder), hashlib.sha256()
    for file in sorted(it for part in TRIED for it in folder.glob(f"{part}/**/*") if it.is_file()):
        sum.update(f"{file.relative_to(folder)}\n".encode() + file.read_bytes())
    return sum.hexdigest()[:16]


def rows_of(text):
    return {row[0]: row for row in csv.reader(text.splitlines())}


def record_edits(file, row):
    """Writes the line of a crate into the record of edits, in place of an earlier one."""
    file, row = Path(file), [str(it) for it in row]
    head, *rest = rows_of(file.read_text(encoding="utf-8")).values()
    lines = [head, *sorted({it[0]: it for it in [*rest, row]}.values())]
    file.write_text("".join(",".join(it) + "\n" for it in lines), encoding="utf-8")


def edits(pages):
    """Updates the table of edits: of each crate how many it has, and its last whole run."""
    above, head, below = pages[EVIDENCE].partition(EDITS_HEAD)
    need(head, f"{EVIDENCE} has no table of edits")
    counts = collections.Counter(it.parts[-3] for it in (ROOT / "crates").glob("*/*/*.edit"))
    _, *runs = rows_of(text_of(EDITS)).values()
    runs, lines = {it[0]: it for it in runs}, []
    for name, count in sorted(counts.items()):
        _, tried, refused, seconds, digest = runs.get(name, (name, 0, 0, 0, ""))
        since = "" if digest == digest_of(ROOT / "crates" / name) else "changed" if digest else "not recorded"
        lines.append((name, f"{count}", f"{refused} of {tried}", f"{int(seconds):,}", since) if digest else (name, f"{count}", "", "", since))
    sums = [sum(int(it[at]) for it in runs.values()) for at in (1, 2, 3)]
    lines.append(("all", f"{sum(counts.values()):,}", f"{sums[1]:,} of {sums[0]:,}", f"{sums[2]:,}", ""))
    pages[EVIDENCE] = above + head + "".join(f"| {' | '.join(it)} |\n" for it in lines) + re.sub(r"\A(\|.*\n)*", "", below)
