"""The measurements of scripts: the files that tools/bench writes with --record, and the parts of docs/PERFORMANCE.md, "Scripts", that
tools/documents makes of them.

A line of docs/measurements/scripts.csv is a workload at a size, 1 or as many times as large as --times says, as tools/bench prints it; then
the number of runs, and the memory of a program that does nothing. A line of docs/measurements/instructions.csv has the instructions and the
misses of a unit, of each program. Both end with the date and the processor. The other programs are `plain`, which is plain_script of the
Rust crate, and `earlier`, a hand-written program from before it. A cell is empty if it was not measured."""
import csv
import datetime
import io
import re
import textwrap
from pathlib import Path

from sources import fill, need, text_of
from workloads import AIMS, WORKLOADS

PAGE = "docs/PERFORMANCE.md"
TIMES, COUNTS = "docs/measurements/scripts.csv", "docs/measurements/instructions.csv"
OTHERS = ("plain", "earlier")
# The columns that are not numbers.
TEXTS = ("workload", "date", "processor")
LARGE = 8
WIDTH = 140


def columns(own, theirs, runs=()):
    """Returns the columns of a file: those of the program, of each other program, and of the runs."""
    others = [f"{other}_{it}" for other in OTHERS for it in theirs]
    return ["workload", "size", "units", *own, *others, *runs, "date", "processor"]


COLUMNS = {
    TIMES: columns(("ms", "growth", "mb"), ("ms", "ratio", "mb"), ("runs", "floor_mb")),
    COUNTS: columns(("instructions", "misses"), ("instructions", "misses")),
}


# ---- the files


def lines_of(path, text, names):
    """Reads the lines of a file with these columns."""
    read = csv.DictReader(text.splitlines())
    need(read.fieldnames == names, f"{path} has other columns than {','.join(names)}")
    lines = list(read)
    for line in lines:
        need(line["workload"] in WORKLOADS, f"{path}: {line['workload']} is no workload of tools/workloads.py")
        numbers = [line[it] for it in names if it not in TEXTS]
        need(all(re.fullmatch(r"(\d+(\.\d+)?)?", it or "") for it in numbers), f"{path}: a cell of {line['workload']} is no number")
        need(re.fullmatch(r"\d+", line["size"]), f"{path}: a line of {line['workload']} has no size")
    return lines


def text_with(lines, names):
    """Returns the text of a file with these lines."""
    text = io.StringIO()
    writer = csv.DictWriter(text, names, restval="", lineterminator="\n")
    writer.writeheader()
    writer.writerows(lines)
    return text.getvalue()


def place_of(line):
    """Returns what orders the lines of a file: the place of the workload in tools/workloads.py, and the size."""
    return list(WORKLOADS).index(line["workload"]), int(line["size"])


def merged(lines, line):
    """Returns the lines with one more, in place of that of the same workload and size."""
    others = [it for it in lines if place_of(it) != place_of(line)]
    return sorted([*others, line], key=place_of)


def processor():
    """Returns the model of the processor, or an empty text if the system does not say it."""
    file = Path("/proc/cpuinfo")
    found = re.search(r"^model name\s*: (.*)$", file.read_text(), re.MULTILINE) if file.is_file() else None
    return found[1].strip() if found else ""


class Record:
    """A file of measurements, which gets lines."""

    def __init__(self, file, kind):
        """Opens a file with the columns of TIMES or COUNTS. It may be missing."""
        self.file, self.names = file, COLUMNS[kind]
        self.lines()

    def lines(self):
        return lines_of(self.file, self.file.read_text(encoding="utf-8"), self.names) if self.file.exists() else []

    def add(self, cells, **runs):
        """Writes a line: the first cells, of the workload and of as many other programs as were run, and those of the runs."""
        line = {name: str(it) for name, it in zip(self.names, cells)}
        line.update({name: str(it) for name, it in runs.items()}, date=str(datetime.date.today()), processor=processor())
        self.file.write_text(text_with(merged(self.lines(), line), self.names), encoding="utf-8")


def check_measurements(_):
    """Checks that each workload has an aim, and that the files are as `Record` writes them: to add a line anew changes nothing."""
    need(sorted(AIMS) == sorted(WORKLOADS), "AIMS of tools/workloads.py has other workloads than WORKLOADS")
    for path, names in COLUMNS.items():
        lines = lines_of(path, text_of(path), names)
        need(text_with(lines, names) == text_of(path), f"{path} has another form than tools/bench writes")
        for at, line in enumerate(lines):
            label = f"{path}: the line of {line['workload']} at size {line['size']}"
            need(merged(lines, line) == lines, f"{label} is not the only one, or not in the order of tools/workloads.py")
            need(merged(lines[:at] + lines[at + 1 :], line) == lines, f"{label} would be recorded at another place")


# ---- the page


def cell(line, name, digits=0):
    """Formats a number of a line, which may be missing."""
    return f"{float(line[name]):,.{digits}f}" if line.get(name) else ""


def both(cells):
    """Formats the cells of the two sizes, of which one or both may be missing."""
    return ", ".join(it or "–" for it in cells) if any(cells) else ""


def table(head, rows):
    """Formats a table."""
    first, *others = [f"| {' | '.join(it)} |".replace("  ", " ") for it in (head, *rows)]
    return "\n".join([first, "|" + "---|" * len(head), *others])


def paragraph(text):
    return textwrap.fill(text, WIDTH, break_long_words=False, break_on_hyphens=False)


def span(values, form=str):
    """Formats the least and the greatest of some values, or the only one."""
    ends = [form(it) for it in (min(values), max(values))]
    return " to ".join(dict.fromkeys(ends))


def day(text):
    """Formats a date: 2026-11-30 as 30 November 2026."""
    it = datetime.date.fromisoformat(text)
    return f"{it.day} {it:%B %Y}"


def found(lines, name):
    """Returns the different texts of a column, without the empty one, in order."""
    return sorted({it[name] for it in lines if it[name]})


def dates(lines):
    """Says when lines were recorded."""
    return f"from {span(found(lines, 'date'), day)}"


def machines(lines):
    """Says on which processors lines were recorded, if that is known."""
    models = found(lines, "processor")
    return f", on {' and '.join(f'`{it}`' for it in models)}" if models else ""


def by_workload(path):
    """Returns the lines of a file by workload and size."""
    lines = lines_of(path, text_of(path), COLUMNS[path])
    need(lines, f"{path} has no line")
    return {(it["workload"], int(it["size"])): it for it in lines}


def ratios(lines, name):
    """Formats the ratios of a workload to the earlier program, at both sizes."""
    return [cell(lines.get((name, size), {}), "earlier_ratio", 1) for size in (1, LARGE)]


def above(lines):
    """Says which workloads have a ratio above their aim, as the table has it."""
    is_above = lambda name: any(it and float(it) > aim for it, aim in zip(ratios(lines, name), AIMS[name]))
    names = [name for name in WORKLOADS if is_above(name)]
    return f"Above their aim at one size or at both are {len(names)} of {len(WORKLOADS)}: {', '.join(names) or 'none'}."


def times_of(lines, name):
    """Returns a row of the table of times."""
    small, large = (lines.get((name, size), {}) for size in (1, LARGE))
    sizes = [it for line in (small, large) for it in (cell(line, "units"), cell(line, "ms"), cell(line, "plain_ratio", 1))]
    aims = [f"{it}" for it in dict.fromkeys(AIMS[name])]
    return [name, *sizes, cell(large, "mb"), cell(large, "plain_mb"), both(ratios(lines, name)), both(aims)]


def times(pages):
    """Updates the table of times, and what is said of its series."""
    lines = by_workload(TIMES)
    every = lines.values()
    head = ["workload", "units", "ms", "ratio", f"units at {LARGE} times the size", "ms", "ratio", "MB", "MB of `plain_script`"]
    head += ["ratio to the earlier program, at both sizes", "aim for it"]
    runs, floors = (span(sorted(map(float, found(every, it))), "{:.0f}".format) for it in ("runs", "floor_mb"))
    said = f"These times are {dates(every)}{machines(every)}. Each is the least of {runs} runs, in turn with the other programs. "
    said += f"The process that starts a program takes {floors} MB, so the table shows no less of any. {above(lines)}"
    fill(pages, PAGE, "the times of scripts", f"{table(head, [times_of(lines, it) for it in WORKLOADS])}\n\n{paragraph(said)}")


def counts_of(lines, name):
    """Returns a row of the table of instructions and misses."""
    line, programs = lines.get((name, 1), {}), ("", *(f"{it}_" for it in OTHERS))
    return [name, *(cell(line, f"{it}instructions") for it in programs), *(cell(line, f"{it}misses", 1) for it in programs)]


def compared(lines):
    """Says how many times the instructions of `plain_script` the earlier program takes."""
    known = [it for it in lines if it["plain_instructions"] and it["earlier_instructions"]]
    times = [float(it["earlier_instructions"]) / float(it["plain_instructions"]) for it in known]
    return f" The earlier program takes {span(times, '{:.1f}'.format)} times the instructions of `plain_script`." if times else ""


def counts(pages):
    """Updates the table of instructions and misses, and what is said of its series."""
    lines = by_workload(COUNTS)
    every = [it for (_, size), it in lines.items() if size == 1]
    others = ["of `plain_script`", "of the earlier program"]
    rows = [counts_of(lines, it) for it in WORKLOADS]
    said = paragraph(f"These counts are {dates(every)}.{compared(every)}")
    fill(pages, PAGE, "the counts of scripts", f"{table(['workload', 'instructions', *others, 'misses', *others], rows)}\n\n{said}")
