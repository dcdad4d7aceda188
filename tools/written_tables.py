"""Compares tables that are written by hand with the code: the refusals of an edit in docs/DEFINITIONS.md, and all refusals and limits in
docs/SCRIPT.md. Also compares the numbers and bounds in the comments of `Refusal` and `Limits`."""
import re

from sources import need, text_of

PAGE, SCRIPT = "docs/DEFINITIONS.md", "docs/SCRIPT.md"
# Refusals of an edit that the plain table does not know: objects that are away, space and memory.
OF_OBJECTS = {"Absent", "RegionFull", "NoMemory"}
REFUSAL, LIMITS = "crates/far_types/src/refusal.rt", "crates/far_types/src/limits.rt"
NUMBERS, SENTENCES = "crates/far_types/specs/Refusals.antt", "crates/far_types/specs/Sentences.antt"
EDITS, BOUNDS = "crates/far_types/specs/Edits.antt", "crates/far_types/specs/Bounds.antt"
# The names of the limits in scripts, in the order of docs/SCRIPT.md.
NAMES = {"group": "G", "places": "PLACES", "edits": "EDITS"}
NAMES.update({"int_segments": "ISEGS", "int_size": "ISIZE", "text_segments": "TSEGS", "text_size": "TSIZE"})


def rows_under(path, title):
    """Returns the cells of the first table under a title, row by row, with its head first."""
    lines = text_of(path).partition(f"# {title}\n")[2].partition("\n#")[0].split("\n")
    rows = [[cell.strip() for cell in it.strip("|").split("|")] for it in lines if it.startswith("|")]
    need(len(rows) > 2, f"{path} has no table under {title}")
    return rows[:1] + rows[2:]


# ---- refusals


def arms_of(path, name):
    """Returns the arms of a definition over refusals: the name of each, and its right-hand side."""
    return re.findall(rf"^{name} \(?(\w+)[\w ]*\)? = (.*)$", text_of(path), re.MULTILINE)


def comments():
    """Returns the comment of the type of refusals, and of each of them."""
    above, _, below = text_of(REFUSAL).partition("pub enum Refusal {\n")
    said = re.findall(r"((?: {4}/// .*\n)+) {4}(\w+)", below.partition("\n}")[0])
    head = re.findall(r"^/// ?(.*)$", above, re.MULTILINE)
    return "\n".join(head), {name: re.sub(r"\s*/// ", " ", lines).strip() for lines, name in said}


def refusals():
    """Returns the number and the name of each refusal, in the order of numbers."""
    found = [(int(number), name) for name, number in arms_of(NUMBERS, "number_of")]
    names, sentences = dict(arms_of(NUMBERS, "name_of")), dict(arms_of(SENTENCES, "sentence_of"))
    _, said = comments()
    for number, name in found:
        need(names.get(name) == f'codes "{name}"', f"name_of has another name for {name}")
        need(name in sentences, f"sentence_of has no sentence for {name}")
        need(said.get(name, "").startswith(f"{number}: "), f"the comment of {name} in {REFUSAL} lacks its number, {number}")
    need(len(said) == len(found), f"{REFUSAL} and {NUMBERS} have different refusals")
    numbers = [number for number, _ in found]
    need(numbers == sorted(set(numbers)), f"the numbers of number_of do not ascend in {NUMBERS}")
    return found


def order_of(text, path):
    """Returns the order of refusals in a text, as the text has it and number by number."""
    said = re.search(r"the first in this order: ([\d, to]+)\.", text)
    need(said, f"{path} lacks the order of refusals")
    ends = [[int(end) for end in it.split(" to ")] for it in said[1].split(", ")]
    return said[1], [number for it in ends for number in range(it[0], it[-1] + 1)]


def check_order(all_of_them):
    """Compares the order in which a call tests for refusals in docs/SCRIPT.md with that in the comment of the type. Returns the numbers."""
    said, numbers = order_of(comments()[0], REFUSAL)
    need(sorted(numbers) == [number for number, _ in all_of_them], f"the order in {REFUSAL} does not have each number once")
    need(order_of(text_of(SCRIPT), SCRIPT)[0] == said, f"{SCRIPT} has another order of refusals than {REFUSAL}")
    return numbers


def refusals_of_edits():
    """Returns for each kind of edit the names of the plain table's refusals, in order."""
    text = text_of(EDITS)
    faults = re.findall(r"^edit_faults .*\(edit\.(\w+).*\) =\n((?: {4}.*\n)+)", text, re.MULTILINE)
    others = re.findall(r"refusal\.(\w+)", text.partition("\nedit_refusal ")[2])
    never_too_long = re.findall(r"^overfills .*\(edit\.(\w+).*\) places = false$", text, re.MULTILINE)
    found = {}
    for edit, cases in faults:
        names = re.findall(r"refusal\.(\w+)", cases) + others
        found[edit.lower()] = [it for it in names if it != "ChunkFull" or edit not in never_too_long]
    return found


def check_refusals(_):
    """Compares the tables of all refusals and of the refusals of an edit."""
    all_of_them = refusals()
    order = check_order(all_of_them)
    named = [f"{number} {name}" for number, name in all_of_them]
    _, *rows = rows_under(SCRIPT, "Refusals")
    need([" ".join(it[:2]) for it in rows] == named, f"{SCRIPT} has other numbers or names of refusals than {NUMBERS}")
    head, *rows = rows_under(PAGE, "Refusals of an edit, in order")
    need(all(it[0] in named for it in rows), f"{PAGE} has another number or name of an edit's refusal")
    numbers = [int(it[0].split()[0]) for it in rows]
    need(numbers == sorted(numbers, key=order.index), f"{PAGE} has another order of an edit's refusals than {REFUSAL}")
    due = refusals_of_edits()
    need(head[1:] == list(due), f"the edits in {PAGE} are not those of {EDITS}")
    for at, edit in enumerate(head[1:], 1):
        said = [it[0].split()[1] for it in rows if it[at] and it[0].split()[1] not in OF_OBJECTS]
        need(said == due[edit], f"{PAGE} refuses {edit} for {said}, and {EDITS} for {due[edit]}")


# ---- limits


def commented(value):
    """Formats a bound of a definition as in the comments of the limits."""
    return f"{int(value):,}" if value.isdigit() else value.replace("limits.group", "`group`").replace(" ", "")


def scripted(value):
    """Formats a bound or a usual value of a definition as in docs/SCRIPT.md."""
    power, greater = re.fullmatch(r"(\d+) \^ (\d+)", value), re.fullmatch(r"max g (\d+)", value)
    if power:
        return str(int(power[1]) ** int(power[2]))
    return f"{greater[1]}, or G if that is more" if greater else value.replace("limits.group", "G")


def limits():
    """Returns for each limit its name in a script, its bounds and its usual value, formatted as in docs/SCRIPT.md."""
    bounds = text_of(BOUNDS)
    columns = re.search(r"^IsSchema kinds = \((\d+) ≤ length kinds\) × \(length kinds ≤ (\d+)\)$", bounds, re.MULTILINE)
    usual = re.search(r"^usual_limits g = record \{\s(.*?)\}$", bounds, re.MULTILINE | re.DOTALL)
    need(columns and usual, f"IsSchema or usual_limits of {BOUNDS} has another form")
    values = dict(re.findall(r"(\w+) = ([^;]*)", usual[1].rstrip()))
    found = [["columns", columns[1], columns[2], "always named"]]
    for said, name in re.findall(r" {4}/// (.*)\n {4}pub (\w+): u\d+,", text_of(LIMITS)):
        ends = re.search(rf"_low : (\S+) ≤ limits\.{name}\n.*_high : limits\.{name} ≤ (.*)\n", bounds)
        need(ends, f"AreLimits of {BOUNDS} has no bounds of {name}")
        span = f"{commented(ends[1])} to {commented(ends[2])}"
        need(said.endswith(f" {span}."), f"the comment of {name} in {LIMITS} does not say {span}")
        usually = "always named" if values[name] == "g" else scripted(values[name])
        found.append([NAMES[name], scripted(ends[1]), scripted(ends[2]), usually])
    return found


def check_limits(_):
    """Compares the table of the limits."""
    _, *rows = rows_under(SCRIPT, "Limits")
    said, due = [[it[0].partition(",")[0], *it[1:]] for it in rows], limits()
    need(len(said) == len(due), f"{SCRIPT} has {len(said)} limits, but the code has {len(due)}")
    for row, limit in zip(said, due):
        need(row == limit, f"{SCRIPT} has the limit {row}, but {BOUNDS} has {limit}")
