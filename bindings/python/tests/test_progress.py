"""Progress: a bar on a terminal, nothing elsewhere, or a callback."""

from __future__ import annotations

import contextlib
import io
import time
import unittest
from unittest import mock

from fullercoral.progress import Bar, Shown


class Terminal(io.StringIO):
    def isatty(self) -> bool:
        return True


class Progress(unittest.TestCase):
    def test_a_bar_is_drawn_and_taken_away(self) -> None:
        terminal = Terminal()
        with mock.patch.object(time, "monotonic", side_effect=[0.0, 1.0, 1.01, 2.0]):
            bar = Bar("orders.csv", stream=terminal)
            bar(5_000_000, 20_000_000)
            bar(5_000_001, 20_000_000)
            bar(20_000_000, 20_000_000)
            bar.close()
        first, second, last = terminal.getvalue().split("\r\x1b[K")[1:]
        self.assertEqual(first, f"orders.csv {'█' * 7}{'░' * 23}  25% 5.0 MB/s, 3 s left")
        self.assertEqual(second, f"orders.csv {'█' * 30} 100% 10 MB/s, 0 s left")
        self.assertEqual(last, "")

    def test_true_is_a_bar_only_on_a_terminal(self) -> None:
        for stream, drawn in ((Terminal(), True), (io.StringIO(), False)):
            with contextlib.redirect_stderr(stream), Shown(True, "x") as shown:
                shown(1, 1)
            self.assertEqual(bool(stream.getvalue()), drawn)

    def test_false_is_nothing_and_a_callable_is_called(self) -> None:
        calls: list[tuple[int, int]] = []
        with contextlib.redirect_stderr(Terminal()) as stream:
            with Shown(False, "x") as shown:
                shown(1, 2)
            with Shown(lambda *done: calls.append(done), "x") as shown:
                shown(1, 2)
        self.assertEqual((calls, stream.getvalue()), ([(1, 2)], ""))


if __name__ == "__main__":
    unittest.main()
