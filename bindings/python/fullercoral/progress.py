"""Shows the progress of long work: by a bar on a terminal, by a callback, or not at all."""

from __future__ import annotations

import sys
import time
from types import TracebackType
from typing import Any, Callable, TextIO, Union

_EVERY = 0.1  # seconds between two updates of the bar
_WIDTH = 30


class Bar:
    """A progress bar on a terminal, with the percentage, the rate and the time left."""

    def __init__(self, label: str, unit: str = "B", stream: TextIO | None = None) -> None:
        self.label, self.unit = label, unit
        self._stream = stream or sys.stderr
        self._began = self._shown_at = time.monotonic()
        self._drawn = False

    def __call__(self, done: int, total: int) -> None:
        """Shows how much is done of how much."""
        now = time.monotonic()
        if now - self._shown_at < _EVERY and done < total:
            return
        self._shown_at = now
        self._draw(done, total, now - self._began)

    def _draw(self, done: int, total: int, seconds: float) -> None:
        part = min(1.0, done / total) if total else 1.0
        full = int(part * _WIDTH)
        left = seconds / part - seconds if part > 0 else 0.0
        rate = done / seconds if seconds > 0 else 0.0
        bar = "█" * full + "░" * (_WIDTH - full)
        text = f"{self.label} {bar} {part:4.0%} {_amount(rate, self.unit)}/s, {left:,.0f} s left"
        self._stream.write(f"\r\x1b[K{text}")
        self._stream.flush()
        self._drawn = True

    def close(self) -> None:
        """Erases the bar."""
        if self._drawn:
            self._stream.write("\r\x1b[K")
            self._stream.flush()


def _amount(number: float, unit: str) -> str:
    for prefix in ("", "k", "M", "G"):
        if number < 1000 or prefix == "G":
            break
        number /= 1000
    return f"{number:.{0 if number >= 10 else 1}f} {prefix}{unit}".rstrip()


class Shown:
    """Handles ``progress=``: a callable, or True for a bar if standard error is a terminal."""

    def __init__(
        self, progress: Union[bool, Callable[[int, int], Any], None], label: str, unit: str = "B"
    ) -> None:
        self._bar: Bar | None = None
        self._call: Callable[[int, int], Any] | None = None
        if callable(progress):
            self._call = progress
        elif progress and sys.stderr is not None and sys.stderr.isatty():
            self._bar = self._call = Bar(label[-30:], unit)

    def __call__(self, done: int, total: int) -> None:
        if self._call is not None:
            self._call(done, total)

    def __enter__(self) -> Shown:
        return self

    def __exit__(
        self,
        kind: type[BaseException] | None,
        error: BaseException | None,
        trace: TracebackType | None,
    ) -> None:
        if self._bar is not None:
            self._bar.close()
