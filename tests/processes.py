"""Functions that the commands of this folder share: for options, for running programs, and for reporting results."""
import argparse
import os
import subprocess
import sys
import time
from pathlib import Path

ROOT = Path(__file__).resolve().parent.parent
PROCESSORS = len(os.sched_getaffinity(0))
# A program that takes longer, in seconds, is ended.
PATIENCE = 120
OPTIONS = {
    "--runs": {"type": int, "help": "how many runs"},
    "--scripts": {"type": int, "help": "how many random scripts, and no other test"},
    "--seconds": {"type": int, "help": "for how many seconds"},
    "--seed": {"type": int, "default": 0, "help": "the first seed"},
    "--jobs": {"type": int, "default": PROCESSORS, "help": "how many run at once"},
    "--record": {"metavar": "FILE", "help": "add a line with the results to this CSV, such as docs/reliability.csv"},
}


def parser(doc, *options, **defaults):
    """Returns a parser with some of the options above. Its help is the command's docstring."""
    made = argparse.ArgumentParser(description=doc, formatter_class=argparse.RawDescriptionHelpFormatter)
    for name in options:
        made.add_argument(name, **OPTIONS[name])
    made.set_defaults(**defaults)
    return made


def run(words, script=b"", seconds=PATIENCE, **how):
    """Runs a command on these bytes. Returns its status and its output, with standard error unless the caller captures that separately.
    Raises TimeoutExpired if it does not end."""
    how = {"stderr": subprocess.STDOUT, **how}
    return subprocess.run(words, input=script, stdout=subprocess.PIPE, timeout=seconds, check=False, **how)


def compiled(compiler, made, sources, *words):
    """Compiles C files of bindings/c to a program: those of any of the patterns. Returns the path of the executable."""
    flags = ["-std=c11", "-Wall", "-Wextra", "-Werror", "-pedantic", "-g", f"-I{ROOT}/include"]
    paths = sorted(path for pattern in sources.split() for path in ROOT.glob(f"bindings/c/{pattern}"))
    subprocess.run([compiler, *flags, *paths, "-o", made, *words], check=True)
    return made


class Series:
    """A series of runs against one target, and its results."""

    def __init__(self, what, given):
        self.what, self.file, self.begun = what, given.record, time.monotonic()

    def end(self, runs, calls, failed):
        """Adds a line to the file, if one is named: the target, the runs, their calls if these are counted, the seconds, and the failed
        runs. tools/documents makes docs/RELIABILITY.md from such lines."""
        if self.file:
            with open(self.file, "a", encoding="utf-8") as it:
                it.write(f"{self.what},{runs},{calls},{time.monotonic() - self.begun:.0f},{failed}\n")


def tell(passed, failed):
    """Prints the last line, and ends the command."""
    print(f"{passed} passed, {failed} failed")
    sys.exit(1 if failed else 0)
