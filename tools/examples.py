"""The examples of the documents: scripts with their replies in docs/SCRIPT.md, the session of README.md, the table of docs/SCRIPT.md with
the files of each rule, and code in comments and in some pages of docs/."""
import re

from sources import ROOT, Wrong, indent, need, read, text_of

SCRIPT = "docs/SCRIPT.md"
# ---- scripts

# A line of the page that is `examples/NAME.txt` in backquotes, with a colon after it, begins an example.
EXAMPLE = re.compile(r"^`(examples/\w+)\.txt`:\n(?:\n|    .*\n)*", re.MULTILINE)
# The session of README.md: its file, its heading and the column where replies begin.
SESSION, HEADING, REPLIES = "examples/readme_session", "## A session", 28


def block(path):
    """Returns the lines of a file, indented."""
    return "".join(f"    {line}\n" if line else "\n" for line in text_of(path).splitlines())


def scripts(pages):
    """Updates each example of a script: the line that names its file, the script, an empty line and the replies."""
    made = lambda found: f"`{found[1]}.txt`:\n\n{block(f'{found[1]}.txt')}\n{block(f'{found[1]}.out')}\n"
    pages[SCRIPT] = EXAMPLE.sub(made, pages[SCRIPT])


def session(_):
    """Compares the session of README.md, with commands on the left and replies on the right, with its file."""
    lines = text_of("README.md").partition(HEADING)[2].splitlines()
    first = next(i for i, line in enumerate(lines) if line.startswith("    "))
    last = next(i for i in range(first, len(lines)) if not lines[i].startswith("    "))
    commands = [line[4:REPLIES].rstrip() for line in lines[first:last]]
    said = "".join(f"{it}\n" for it in commands if it), "".join(f"{line[REPLIES:]}\n" for line in lines[first:last])
    need(said == (text_of(f"{SESSION}.txt"), text_of(f"{SESSION}.out")), f"the session in README.md is not that of {SESSION}.txt and .out")


# ---- the files of each rule

RULES = "\n## Where each rule is\n"
NAMED = re.compile(r"((?:`\w+` and )?`\w+` in )?`([\w/]+\.(?:antt|rt))`")


def check_files(cell):
    """Checks that the files of a cell exist, and that each file has the `name` before it. A cell leaves out the folders specs/ and src/ of
    a crate, and the crate of a file if it is that of the file before."""
    crate = ""
    for names, file in NAMED.findall(cell):
        first, _, rest = file.partition("/")
        if first.startswith("far"):
            crate, file = first, rest
        text = text_of(f"crates/{crate}/{'src' if file.endswith('.rt') else 'specs'}/{file}")
        for name in re.findall(r"`(\w+)`", names):
            need(re.search(rf"\b{name}\b", text), f"{SCRIPT} names {name} in {file} of {crate}, which does not have it")


def rules(_):
    """Checks the table of rules: the files of definitions and of code, and the examples, or a folder of them."""
    rows = [it.strip("|").split("|") for it in text_of(SCRIPT).partition(RULES)[2].split("\n") if it.startswith("| ")][1:]
    need(rows, f"{SCRIPT} has no table of rules")
    for _, defined, done, example in rows:
        check_files(defined)
        check_files(done)
        for name, is_folder in re.findall(r"`(\w+)(/?)`", example):
            file = f"examples/{name}" if is_folder else f"examples/{name}.txt"
            need((ROOT / file).exists(), f"{SCRIPT} needs {file}, which does not exist")


# ---- code

# The items that a program in Rattle begins with: each must have an example.
SHOWN = """
far_types::Cell far_types::Key far_types::Row far_types::Schema far_types::Limits far_types::Filter far_types::Spec far_types::TotalLines
far_types::Refusal far_frame::Frame far_frame::World far_frame::View far_shared::Plan far_shared::Shared far_shared::Background
far_store::FarStore far_store::AgentStore far_host::HostStore far_pointer::Word far_prefetcher::Prefetcher far_types::Reciprocal
far_shell::run_script
""".split()
PAGES = ("docs/CHANGING.md", "docs/FAR_STORE.md", "docs/THREADS.md")
COMMENT = re.compile(r" *///(?: (.*))?$")
ITEM = re.compile(r" *pub (?:unsafe )?(?:struct|enum|trait|fn) (\w+)")
FUNCTION = re.compile(r"(?:pub(?:\(crate\))? )?fn \w+")


def blocks_in(lines):
    """Yields the fenced blocks of comments: the name of the item below, the number of the block's first line, and its lines."""
    block, blocks = None, []
    for at, line in enumerate(lines, 1):
        comment, item = COMMENT.match(line), ITEM.match(line)
        if not comment:
            if item:
                yield from ((item[1], first, block) for first, block in blocks)
            if item or not line.lstrip().startswith("#["):
                blocks, block = [], None
        elif (comment[1] or "").startswith("```"):
            if block is None:
                block = []
                blocks.append((at + 1, block))
            else:
                block = None
        elif block is not None:
            block.append(comment[1] or "")


def blocks_of_page(lines):
    """Yields the same for a page, which has no items."""
    for at, line in enumerate(lines):
        if line == "```rust":
            yield None, at + 2, lines[at + 1 : lines.index("```", at)]


class Code:
    """All code of the crates: the positions of each line, without its indent."""

    def __init__(self):
        paths = sorted(ROOT.glob("crates/*/src/**/*.rt"))
        self.files, self.places = {str(it.relative_to(ROOT)): read(it).split("\n") for it in paths}, {}
        for path, lines in self.files.items():
            for at, line in enumerate(lines):
                if line.strip() and not COMMENT.match(line):
                    self.places.setdefault(line.strip(), []).append((path, at))

    def has(self, block):
        """Returns whether the code has the lines of a block in a row, with any indent."""
        moved = lambda lines: [line[indent(lines[0]) :] for line in lines]
        places = self.places.get(block[0].strip(), []) if block else []
        return any(moved(self.files[path][at : at + len(block)]) == moved(block) for path, at in places)


def code(_):
    """Checks that each example of code is, line for line, in a crate's code, which is proved, and which tests may run. In a comment an
    example is one whole function."""
    crates, with_example, wrong = Code(), set(), []
    found = [(path, it) for path, lines in crates.files.items() for it in blocks_in(lines)]
    found += [(path, it) for path in PAGES for it in blocks_of_page(text_of(path).split("\n"))]
    for path, (name, first, block) in found:
        with_example.add(f"{path.split('/')[1]}::{name}")
        if not crates.has(block):
            wrong.append(f"{path}:{first}: no crate's code has this example")
        if name and not (FUNCTION.match(block[0]) and block[-1] == "}"):
            wrong.append(f"{path}:{first}: this example is not one whole function")
    wrong += [f"{name} has no example" for name in sorted(set(SHOWN) - with_example)]
    if wrong:
        raise Wrong("\n".join(wrong))
