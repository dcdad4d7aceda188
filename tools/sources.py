"""Reads the sources of the crates: the definitions of .antt files, the functions and public contracts of .rt files as `rt fmt` lays
them out."""
import re
from dataclasses import dataclass, field
from pathlib import Path

ROOT = Path(__file__).resolve().parent.parent
IMPORT = re.compile(r"^ *(?:ghost )?use Rattle\.(\w+)\.specs\.((?!declared)\w+)(?:\.\{([^}]*)\}| as ([^\s;]+))?;?$", re.MULTILINE)
DEFINITION = re.compile(r"( *)(?:abbrev |pub |record |data |unfoldable )+(\S+)")
FIELD = re.compile(r" +(?:pub )?(\S+) :")
FUNCTION = re.compile(r'( *)(pub )?(?:pub\([a-z]+\) )?(?:const |unsafe |extern "C" )*fn (\w+)')
CLAUSE = re.compile(r" *(?:requires|ensures\*?)\b")
COMMENT = re.compile(r"\s*(?://|--)")
MODULE = re.compile(r"^(pub(?:\(\w+\))? )?mod (\w+);", re.MULTILINE)
ITEM = re.compile(r'^(pub(?:\(\w+\))? )?(?:const |unsafe |extern "C" )*(struct|enum|trait|fn) (\w+)', re.MULTILINE)
FOR_C = re.compile(r'^pub extern "C" fn (\w+)', re.MULTILINE)
EXPORT = re.compile(r"^pub use ([^;]*);", re.MULTILINE)


class Wrong(Exception):
    """What a document or a source has otherwise than it should."""


def need(holds, why):
    if not holds:
        raise Wrong(why)


def read(path):
    return path.read_text(encoding="utf-8")


def text_of(path):
    """Returns the text of a file of the repository."""
    need((ROOT / path).is_file(), f"there is no {path}")
    return read(ROOT / path)


def fill(pages, path, what, text):
    """Writes a text between the marks of a part of a page."""
    part = re.compile(rf"(<!-- Made by tools/documents: {what}\. -->\n\n).*?(\n\n<!-- Its end\. -->)", re.DOTALL)
    pages[path], count = part.subn(lambda it: it[1] + text + it[2], pages[path])
    need(count == 1, f"{path} lacks the marks of the part that is {what}")


# ---- definitions


def names_of(text):
    """Returns the names in a text: whole, and up to their first dot."""
    whole = re.findall(r"[^\s(){}\[\],;:λ∷×⊎→↔¬≡≤<]+", text)
    return {it.strip("◌") for it in whole} | {it.split(".")[0] for it in whole}


def words_of(text):
    """Returns the names in a text and all parts of them, as fields."""
    return names_of(text) | set(re.findall(r"[\w'-]+", text))


def imports_of(text):
    """Returns by name what a file, or an item in it, imports of specs: the key of a file, and a definition's name, or None for all."""
    found = {}
    for crate, file, items, alias in IMPORT.findall(text):
        if not items:
            found.setdefault(alias or file, set()).add(((crate, file), None))
        for item in filter(None, (it.strip() for it in items.split(","))):
            name, _, other = item.partition(" as ")
            found.setdefault((other or name).strip("◌"), set()).add(((crate, file), name.strip("◌")))
    return found


def indent(line):
    return len(line) - len(line.lstrip(" "))


@dataclass
class Definition:
    """A definition: its comment, the heads of the modules around it, and its lines without comments."""

    comment: list
    scope: list
    lines: list = field(default_factory=list)

    def text(self):
        return "\n".join([*self.scope, *self.lines])

    def is_law(self):
        """Returns whether it is a proved fact, which needs no reader."""
        return re.match(r" *pub (?!abbrev|record|data)", self.lines[0])

    def fields(self):
        """Returns the names of its fields or variants."""
        return {found[1] for found in map(FIELD.match, self.lines) if found}


class Spec:
    """A spec file: the comment at its head, what it imports, and its definitions by name."""

    def __init__(self, path):
        self.path, self.text = path, read(path)
        self.imports, self.head, self.definitions = imports_of(self.text), [], {}
        comment, scopes, now, depth = self.head, [], None, 0
        for line in self.text.split("\n"):
            if COMMENT.match(line):
                comment.append(line.strip()[2:].removeprefix(" "))
                continue
            if comment is self.head:
                comment = []
            if not line.strip() or line.startswith("use "):
                continue
            begins, is_module = DEFINITION.match(line), line.lstrip().startswith("module ")
            if is_module or begins and (now is None or indent(line) <= depth):
                # (what follows is no longer in a module that is indented as far)
                scopes = [it for it in scopes if indent(it) < indent(line)]
                now, depth = None, indent(line)
            if is_module:
                scopes.append(line)
            elif begins and now is None:
                now = self.definitions.setdefault(begins[2], Definition(comment, scopes))
            if now:
                now.lines.append(line)
            elif scopes and not is_module:
                # (the head of a module goes on)
                scopes[-1] += f" {line}"
            comment = []

    def named(self, name):
        """Returns the definitions that a name may mean: that of this name, or those that have such a field or variant."""
        if name is None:
            return list(self.definitions)
        return [name] if name in self.definitions else [it for it, made in self.definitions.items() if name in made.fields()]


def read_specs(root=ROOT):
    """Returns the spec files by crate and name."""
    paths = [it for it in sorted(root.glob("crates/*/specs/*.antt")) if it.stem != "Lib"]
    return {(it.parts[-3], it.stem): Spec(it) for it in paths}


def closure(specs, texts):
    """Returns the definitions that texts rest on, each with what its file imports, as pairs of a file's key and a name."""
    reached, waiting = set(), []

    def reach(key, name):
        new = {(key, it) for it in specs[key].named(name)} - reached if key in specs else set()
        reached.update(new)
        waiting.extend(new)

    def reach_all(words, imports):
        for word in words & imports.keys():
            for key, name in imports[word]:
                reach(key, name)

    for text, imports in texts:
        reach_all(words_of(text), imports)
    while waiting:
        key, name = waiting.pop()
        text = specs[key].definitions[name].text()
        reach_all(words_of(text), specs[key].imports)
        # (after a dot it is a variant or a field, not the definition of that name)
        for word in names_of(text) & specs[key].definitions.keys():
            reach(key, word)
    return reached


# ---- functions


@dataclass
class Function:
    """A function: the lines of its signature and contract, and of its body, or None where it has none."""

    name: str
    is_public: bool
    head: list
    body: list

    def clauses(self):
        """Returns the lines of each clause of its contract."""
        begins = [at for at, line in enumerate(self.head) if CLAUSE.match(line)]
        return [self.head[first:end] for first, end in zip(begins, [*begins[1:], len(self.head)])]

    def forwards(self):
        """Returns whether the body is one call of a function of the same name."""
        body = " ".join(it.strip() for it in self.body)
        return bool(re.fullmatch(rf"[\w.:&<>]*\b{self.name}\([^;{{}}]*\)\??", body))


def ends_head(lines, row, margin):
    """Returns whether a function's head ends with a line: a line of a clause may end so too, but is indented further."""
    line = lines[row]
    if line.startswith(margin) and line[len(margin)] != " ":
        return line.endswith(("{", "{}", ";"))
    return line.endswith(";") and (row + 1 == len(lines) or indent(lines[row + 1]) <= len(margin))


def functions(lines):
    """Yields the functions of a file or an item."""
    row = 0
    while row < len(lines):
        first, begins = row, FUNCTION.match(lines[row])
        row += 1
        if not begins:
            continue
        while not ends_head(lines, row - 1, begins[1]):
            row += 1
        head, body = lines[first:row], None
        if head[-1].endswith("{"):
            end = lines.index(f"{begins[1]}}}", row)
            body, row = lines[row:end], end + 1
        elif head[-1].endswith("}"):
            body = []
        yield Function(begins[3], bool(begins[2]), [it for it in head if it.strip() not in ("{", "{}")], body)


# ---- public contracts


def modules(file, folder, is_public):
    """Returns the texts of a crate's files, and whether a caller can name what is in them."""
    text = read(file)
    found = [(text, is_public)]
    for visible, name in MODULE.findall(text):
        if (folder / f"{name}.rt").exists():
            found += modules(folder / f"{name}.rt", folder / name, is_public and visible == "pub ")
    return found


def items_of(text):
    """Returns the items of a file, each as its lines."""
    items = []
    for line in text.split("\n"):
        if line and line[0] not in " }/#{)>":
            items.append([line])
        elif items:
            items[-1].append(line)
    return items


def subject_of(lines):
    """Returns the type that an `impl` is of, and whether it is an `impl` of a trait."""
    head = re.sub(r"^(unsafe )?impl", "", " ".join(lines).partition("{")[0]).replace("->", "")
    while re.search(r"<[^<>]*>", head):
        head = re.sub(r"<[^<>]*>", "", head)
    trait, _, subject = head.split(" where ")[0].rpartition(" for ")
    names = re.findall(r"\w+", subject)
    return names[-1] if names else "", bool(trait)


def contract_of(lines, public, private):
    """Returns the lines of an item that are contracts, where a caller can see them: heads of functions, and views of types. What a type
    keeps true of its own fields is none."""
    ghosts = [line for line in lines if re.match(r" *ghost (?!use|invariant)", line)]
    if lines[0].startswith(("impl", "unsafe impl")):
        subject, of_trait = subject_of(lines)
        heads = [it.head for it in functions(lines) if it.is_public or of_trait]
        return [] if subject in private else [line for head in heads for line in head] + ghosts
    declared = ITEM.match(lines[0])
    if not declared or declared[3] not in public:
        return []
    return lines if declared[2] == "trait" else next(functions(lines)).head if declared[2] == "fn" else ghosts


def contracts(crate):
    """Yields the text of the public contracts of each file of a crate, and what the file imports."""
    files = modules(crate / "src/lib.rt", crate / "src", True)
    exported = {name for text, is_public in files if is_public for it in EXPORT.findall(text) for name in re.findall(r"\w+", it)}
    exported |= {name for text, _ in files for name in FOR_C.findall(text)}
    declared = [(it, is_public) for text, is_public in files for it in ITEM.findall(text)]
    public = {name for (visible, _, name), is_public in declared if visible == "pub " and (is_public or name in exported)}
    private = {name for (_, _, name), _ in declared} - public
    for text, _ in files:
        yield "\n".join(line for item in items_of(text) for line in contract_of(item, public, private)), imports_of(text)
