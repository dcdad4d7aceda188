"""A process with little memory holds a table of 8 times as much."""

from __future__ import annotations

import os
import subprocess
import sys
import tempfile
import unittest
from pathlib import Path

PACKAGE = Path(__file__).resolve().parents[1]
MOST = 64_000_000


class LittleMemory(unittest.TestCase):
    def test_a_table_of_eight_times_the_memory_of_its_process(self) -> None:
        child = [sys.executable, "-m", "tests.child_in_little_memory", str(MOST)]
        environment = {**os.environ, "PYTHONPATH": str(PACKAGE), "PYTHONMALLOC": "malloc"}
        with tempfile.TemporaryDirectory() as folder:
            done = subprocess.run(
                [*child, str(Path(folder, "table.far"))],
                cwd=PACKAGE,
                env=environment,
                capture_output=True,
                text=True,
            )
        self.assertEqual((done.returncode, done.stderr), (0, ""))
        held, objects, away, peak = map(int, done.stdout.split())
        self.assertGreaterEqual(held, 8 * MOST)
        self.assertGreater(away, objects * 9 // 10)
        self.assertLess(peak, MOST)


if __name__ == "__main__":
    unittest.main()
