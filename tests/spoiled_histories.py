"""Makes wrong histories from a printed one, each with a reply that no table gives. tests/random-threads must find each.

Of all lines that could be spoiled, each takes the middle one.
"""
# A number that no session writes.
NOWHERE = "41"
# The calls whose replies to spoil.
VERBS = ("insert", "set", "remove", "row", "ask", "recount")


def parts(history):
    """The fields of each line."""
    return [line.split("\t") for line in history.splitlines()]


def joined(lines):
    """The history of these lines."""
    return "".join("\t".join(it) + "\n" for it in lines)


def is_done(line, verb):
    """Whether a line has a call with this verb that succeeded with a non-empty reply."""
    return line[-2].startswith(f"{verb} ") and not line[-1].startswith(("refused", "failed", "none"))


def middle(found):
    """The middle one."""
    return found[len(found) // 2]


def another_reply(history, verb):
    """A reply with another end."""
    lines = parts(history)
    line = middle([it for it in lines if is_done(it, verb)])
    line[-1] = line[-1][:-1] + ("1" if line[-1][-1] == "0" else "0")
    return joined(lines)


def lost_edit(history):
    """A set of another number than the one that is read from then on."""
    lines, later, last = parts(history), set(), []
    for line in reversed(lines):
        verb, *words = line[-2].split(" ")
        if is_done(line, "set") and words[1] == "1" and words[0] not in later:
            later.add(words[0])
            last.append((line, f"{verb} {words[0]} 1 {NOWHERE}"))
    line, call = middle(last)
    line[-2] = call
    return joined(lines)


def edit_twice(history):
    """A row inserted once more, in place of a call that read one."""
    lines = parts(history)
    line = middle([it for it in lines if is_done(it, "row") and it[0] == "0"])
    line[-2:] = middle([it for it in lines if is_done(it, "insert")])[-2:]
    return joined(lines)


def stale_answer(history):
    """An ask with the answer of the previous ask."""
    lines = parts(history)
    asked = [it for it in lines if is_done(it, "ask") and it[-2] == "ask 1"]
    line, before = middle([(it, old) for old, it in zip(asked, asked[1:]) if old[-1] != it[-1]])
    line[-1] = before[-1]
    return joined(lines)


def other_order(history):
    """Two sessions that inserted in turn, with each other's replies."""
    lines = parts(history)
    inserted = [it for it in lines if is_done(it, "insert")]
    one, other = middle([two for two in zip(inserted, inserted[1:]) if two[0][0] != two[1][0]])
    one[-1], other[-1] = other[-1], one[-1]
    return joined(lines)


def clock_back(history):
    """Two calls in the wrong order."""
    lines = parts(history)
    at = len(lines) // 2
    lines[at], lines[at + 1] = lines[at + 1], lines[at]
    return joined(lines)


def unread_row(history):
    """The last row not read at the end."""
    lines = parts(history)
    del lines[max(number for number, it in enumerate(lines) if is_done(it, "row"))]
    return joined(lines)


WAYS = (lost_edit, edit_twice, stale_answer, other_order, clock_back, unread_row)


def all_spoiled(history):
    """Yields the name of each fault, and the history with it."""
    for verb in VERBS:
        yield f"a reply to '{verb}'", another_reply(history, verb)
    for way in WAYS:
        yield way.__name__.replace("_", " "), way(history)
