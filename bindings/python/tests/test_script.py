"""The scripts of examples/ get the replies of their .out files."""

from __future__ import annotations

import unittest
from pathlib import Path

from fullercoral.script import Script

EXAMPLES = Path(__file__).resolve().parents[3] / "examples"
# A recount of objects that are away takes job numbers, which a later reply of these scripts shows.
SHOWS_JOBS = {
    "a_recount_between_the_phases_of_jobs",
    "offloads_build_what_is_away",
    "recounts_of_all_kinds_read_what_is_away",
}


@unittest.skipUnless(EXAMPLES.is_dir(), f"{EXAMPLES} is not there")
class Examples(unittest.TestCase):
    def scripts(self, folder: Path) -> None:
        served = 0
        for path in sorted(folder.glob("*.txt")):
            content = path.read_bytes()
            if path.stem in SHOWS_JOBS or b"threads" in content:
                continue
            with self.subTest(script=path.stem):
                script = Script()
                due = path.with_suffix(".out").read_bytes().decode()
                self.assertEqual(script.run(content.decode()), due)
                if script.table is not None:
                    script.table.close()
                served += 1
        self.assertGreater(served, 1)

    def test_all_scripts(self) -> None:
        self.scripts(EXAMPLES)

    def test_scripts_that_open_no_table(self) -> None:
        self.scripts(EXAMPLES / "bad_starts")


if __name__ == "__main__":
    unittest.main()
