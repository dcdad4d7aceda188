"""``python -m fullercoral``: a shell over a table. See ``help`` there.

It prints refusals as sentences, on a terminal and through a pipe. Only input whose first command
is ``schema`` is a script, which gets the replies of ``docs/SCRIPT.md``.

The exit status is 1 if the CSV file of the command line cannot be imported, or if a line that came
through a pipe was refused. For a script it is 0 whatever was refused.
"""

from __future__ import annotations

import argparse
import io
import os
import sys
from pathlib import Path
from typing import Any, Sequence

from . import __version__
from .shell import Shell

_PROMPT = "fullercoral> "
_HISTORY = Path("~/.fullercoral_history")
_KEPT = 1000


class _Completer:
    """Completes commands, names of columns and names of files, for readline."""

    def __init__(self, shell: Shell, readline: Any) -> None:
        self._shell, self._readline = shell, readline
        self._found: list[str] = []

    def __call__(self, text: str, state: int) -> str | None:
        if state == 0:
            self._found = sorted(self._candidates(text))
        return self._found[state] if state < len(self._found) else None

    def _candidates(self, text: str) -> list[str]:
        before = self._readline.get_line_buffer()[: self._readline.get_begidx()]
        first = before.split(" ")[0]
        if not before.strip():
            return [word + " " for word in self._shell.words() if word.startswith(text)]
        if first in (".import", ".export", ".plot"):
            return _files(text)
        table = self._shell.table
        names = list(table.schema) if table is not None else []
        words = ["totals", "extrema", "by", "if"] if "watch" in first else []
        words += ["on", "off"] if first in (".time", ".policy") else []
        quoted = [f'"{name}"' if " " in name else name for name in names]
        bare = text.lstrip('"')
        return [word + " " for word in [*quoted, *words] if word.lstrip('"').startswith(bare)]


def _files(text: str) -> list[str]:
    folder, _, begun = text.rpartition("/")
    base = Path(folder + "/" if folder or text.startswith("/") else ".").expanduser()
    try:
        found = [path for path in base.iterdir() if path.name.startswith(begun)]
    except OSError:
        return []
    lead = folder + "/" if "/" in text else ""
    return [f"{lead}{path.name}{'/' if path.is_dir() else ' '}" for path in found]


def _with_readline(shell: Shell) -> None:
    try:
        import readline
    except ImportError:
        return
    import atexit

    history = str(_HISTORY.expanduser())
    try:
        readline.read_history_file(history)
    except OSError:
        pass
    readline.set_history_length(_KEPT)
    atexit.register(_save, readline, history)
    readline.set_completer_delims(" \t")
    readline.set_completer(_Completer(shell, readline))
    editline = "libedit" in (readline.__doc__ or "")
    readline.parse_and_bind("bind ^I rl_complete" if editline else "tab: complete")


def _save(readline: Any, history: str) -> None:
    try:
        readline.write_history_file(history)
    except OSError:
        pass


def _talk(shell: Shell) -> None:
    """Serves lines that a person types."""
    print(f"Fullercoral {__version__}. Type help; .import FILE.csv is a good beginning.")
    _with_readline(shell)
    while not shell.done:
        try:
            line = input(_PROMPT)
        except EOFError:
            print()
            return
        except KeyboardInterrupt:
            print()
            continue
        try:
            shell.line(line)
        except KeyboardInterrupt:
            print("interrupted; the changes made so far remain")


def _serve(shell: Shell) -> None:
    """Serves lines from a pipe or a file, as a script if the first command is ``schema``."""
    source, begun = sys.stdin.buffer, shell.table is not None
    for raw in source:
        line = raw.removesuffix(b"\n").removesuffix(b"\r") if raw.endswith(b"\n") else raw
        if line.strip() and not begun:
            begun, shell.friendly = True, line.split(b" ")[0] != b"schema"
        shell.line(line.decode(), lambda count: source.read(count).decode())
        if shell.done:
            return


def _import(shell: Shell, asked: argparse.Namespace) -> bool:
    """Imports the file of the command line, if one is named; returns whether that failed."""
    if asked.csv:
        shell.out = said = io.StringIO()
        far = f" far={asked.far}" if asked.far else ""
        shell.line(f".import {asked.csv} local={asked.local}{far}")
        shell.out = sys.stdout
        print(said.getvalue(), end="", file=sys.stderr if shell.failed else sys.stdout)
    return shell.failed


def main(arguments: Sequence[str] | None = None) -> int:
    """Runs the shell, and returns its exit status."""
    about = "A shell over a table; type help in it. Exits with 1 if a line from a pipe is refused."
    parser = argparse.ArgumentParser(prog="python -m fullercoral", description=about)
    parser.add_argument("csv", nargs="?", help="a CSV file to import first")
    parser.add_argument("--local", default="64MB", help="local memory of its table (default: 64MB)")
    parser.add_argument("--far", help="a file for evicted data (default: this process's memory)")
    parser.add_argument("--version", action="version", version=f"fullercoral {__version__}")
    asked = parser.parse_args(arguments)
    terminal = sys.stdin.isatty()
    shell = Shell()
    try:
        if _import(shell, asked):
            return 1
        (_talk if terminal else _serve)(shell)
        return 1 if shell.failed and shell.friendly and not terminal else 0
    except BrokenPipeError:
        os.dup2(os.open(os.devnull, os.O_WRONLY), sys.stdout.fileno())
    finally:
        if shell.table is not None:
            shell.table.close()
    return 1


if __name__ == "__main__":
    sys.exit(main())
