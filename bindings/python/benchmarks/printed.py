"""Prints the results of the benchmarks: lines of one table of times."""

from __future__ import annotations

import sys
import time
from pathlib import Path
from typing import Any, Callable

sys.path.insert(0, str(Path(__file__).resolve().parents[1]))


def best(work: Callable[[], Any], rounds: int = 5) -> float:
    """Returns the least seconds of some rounds."""
    times = []
    for _ in range(rounds):
        began = time.perf_counter()
        work()
        times.append(time.perf_counter() - began)
    return min(times)


def shown(seconds: float) -> str:
    """Formats a time in a fitting unit."""
    for unit, size in (("s ", 1.0), ("ms", 1e-3), ("µs", 1e-6)):
        if seconds >= size:
            return f"{seconds / size:,.2f} {unit}"
    return f"{seconds * 1e9:,.0f} ns"


def say(what: str, ours: float, other: str = "", theirs: float = 0.0) -> None:
    """Prints a line of the table."""
    times = f"{theirs / ours:,.2f}" if theirs else ""
    takes = shown(theirs) if theirs else ""
    line = f"| {what:<61} | {shown(ours):>10} | {other:<25} | {takes:>10} | {times:>8} |"
    print(line, flush=True)


def begin() -> None:
    """Prints the head of the table."""
    print(f"| {'what':<61} | {'takes':>10} | {'other':<25} | {'takes':>10} | {'times':>8} |")
    print(f"|{'-' * 63}|{'-' * 11}:|{'-' * 27}|{'-' * 11}:|{'-' * 9}:|")
