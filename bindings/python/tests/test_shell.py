"""The shell: its replies, its completion, and a run in a terminal."""

from __future__ import annotations

import io
import os
import pty
import re
import select
import subprocess
import sys
import tempfile
import time
import unittest
from pathlib import Path

from fullercoral.__main__ import _Completer
from fullercoral.shell import Shell

PACKAGE = Path(__file__).resolve().parents[1]
ORDERS = "sku,quantity,note\nbread,5,fresh\nrye,3,\nbread,2,day old\n"


class Replies(unittest.TestCase):
    def setUp(self) -> None:
        self.out = io.StringIO()
        self.shell = Shell(self.out)
        folder = tempfile.TemporaryDirectory()
        self.addCleanup(folder.cleanup)
        self.folder = Path(folder.name)
        self.path = self.folder / "orders.csv"
        self.path.write_text(ORDERS)
        self.addCleanup(lambda: self.shell.table and self.shell.table.close())

    def says(self, line: str, due: str) -> None:
        self.out.truncate(0)
        self.out.seek(0)
        self.shell.line(line)
        with self.subTest(line=line):
            self.assertEqual(self.out.getvalue().rstrip("\n"), due)

    def says_like(self, line: str, *due: str) -> None:
        self.out.truncate(0)
        self.out.seek(0)
        self.shell.line(line)
        for part in due:
            with self.subTest(line=line):
                self.assertRegex(self.out.getvalue(), part)

    def test_a_session(self) -> None:
        self.says_like(
            f".import {self.path} local=1MB", "^3 rows in .*sku str, quantity int, note str"
        )
        self.says(
            ".rows 1 3",
            "place  sku    quantity  note\n       str         int  str\n"
            "    1  rye           3\n    2  bread         2  day old",
        )
        self.says(
            ".watch totals quantity by sku if quantity > 1",
            "aggregate 0\nsku    count  sum\nbread      2    7\nrye        1    3",
        )
        self.says("set 1 quantity 30", "ok")
        self.says("ask 0", "bread count 2 sum 7\nrye count 1 sum 30")
        self.says("watch extrema quantity if note ^= day", "aggregate 1")
        self.says("ask 1", "min 2 max 2")
        self.says("insert cake,1,", "place 3")
        self.says("remove 0", "ok")
        self.says("lend quantity 0 4", "piece -+++ 5,30,2,1")
        self.says(".evict", "evicted 3 objects")
        self.says_like(
            ".status", "quantity ·", "3 rows at 4 places", "policy on", "aggregate 0: totals"
        )
        self.says("set 2 sku rye", "ok")
        self.says("ask 0", "rye count 2 sum 32")
        self.says(f".export {self.folder}/out.csv", "3 rows")
        self.assertEqual(Path(self.folder, "out.csv").read_text().count("\n"), 4)
        self.says_like(f".plot {self.folder}/map.svg", "wrote")
        self.assertIn("<svg", Path(self.folder, "map.svg").read_text())
        self.says_like(".rows", "3 rows by 3 columns")
        self.says(".close", "ok")
        self.says_like("ask 0", "no table is open")

    def test_amounts_of_money(self) -> None:
        self.path.write_text("sku,price\nbread,1.99\nrye,2\n")
        self.says_like(f".import {self.path} local=1MB scaled=price:2", "sku str, price int")
        self.says(".watch totals price", "aggregate 0\ncount  sum\n    2  399")
        self.says_like(f".import {self.path} scaled=price", "write scaled=COLUMN:DECIMALS")

    def test_files_of_other_kinds(self) -> None:
        self.path.write_bytes("sku;quantity\nBrötchen;5\n".encode("latin-1"))
        self.says_like(f".import {self.path} local=1MB", "delimiter=';' splits it")
        self.says_like(f".import {self.path} local=1MB delimiter=';'", 'try encoding="latin-1"')
        self.says(".close", "ok")
        self.says_like(f".import {self.path} delimiter=; encoding=latin-1", "quantity int")
        self.says_like(".rows 0", "0  Brötchen         5")

    def test_names_with_spaces(self) -> None:
        self.path.write_text("Store,Unit Price,Qty\nBerlin,1.99,5\nWien,2.50,3\n")
        self.says_like(f".import {self.path} local=1MB", "Unit Price str")
        self.says_like('.watch totals "Unit Price" by Store', "holds texts.*scaled=.Unit Price:2")
        self.says(".close", "ok")
        self.says_like(f'.import {self.path} local=1MB scaled="Unit Price:2"', "Unit Price int")
        self.says_like('.watch totals "Unit Price" by Store', "Berlin +1 +199")
        self.says('set 0 "Unit Price" 300', "ok")
        self.says('set 0 Store "Bern, ""Stadt"""', "ok")
        self.says("ask 0", '"Bern, ""Stadt""" count 1 sum 300\nWien count 1 sum 250')
        self.says('lend "Unit Price" 0 2', "piece ++ 300,250")
        self.says_like(
            "watch totals Unit Price", "no column 'Unit'; the columns are Store, Unit Price, Qty"
        )
        self.says_like(".watch sum Qty", r"this is not a valid \.watch command: \.watch totals")

    def test_spaces_that_completion_leaves(self) -> None:
        self.path.write_text("Unit Price,Qty,note\n199,5,fresh\n250,3,\n")
        self.says_like(f".import {self.path} local=1MB", "^2 rows")
        self.says(".watch  totals  Qty  if  Qty  >  3 ", "aggregate 0\ncount  sum\n    1    5")
        self.says("watch totals  Qty ", "aggregate 1")
        self.says("ask  1 ", "count 2 sum 8")
        self.says('set  0  "Unit Price" 300', "ok")
        self.says("set 0 note   two ", "ok")
        self.says(" lend  note  0  2", "piece ++   two ,")
        self.says('.evict  "Unit Price"  0 ', "evicted 1 object")
        self.says(".evict 1", "evicted 1 object")
        self.says(".evict Qty x", "give a whole number, not 'x'")
        self.says(".rows 0 x", "give a whole number, not 'x'")
        self.says_like(".evict 9", "no column '9'; the columns are Unit Price, Qty, note")

    def test_open_and_options(self) -> None:
        far = self.folder / "x.far"
        self.says(f".open sku:text, quantity:int local=1MB far={far} group=16", "ok")
        assert self.shell.table is not None
        self.assertEqual(
            (self.shell.table.limits.group, self.shell.table.columns), (16, ("sku", "quantity"))
        )
        self.says_like(".open nonsense", "not a column")
        self.says_like(".open a:float", "a column holds int")
        self.says_like(".open a:int local=much", "not an amount of memory")
        self.says(
            "schema 4 int",
            "this is not a valid schema command: schema GROUP KINDS",
        )

    def test_refusals_are_sentences_with_their_number(self) -> None:
        self.says(".open sku:text,quantity:int local=1MB", "ok")
        self.says(
            "insert bread,x",
            "refused: column quantity holds whole numbers of 64 bits, not 'x' [5]",
        )
        self.says("set 7 quantity 5", "refused: there is no place 7; the table is empty [8]")
        self.says("ask 3", "refused: there is no such aggregate (any more) [12]")
        self.says(
            "insert",
            "this is not a valid insert command: insert CSV",
        )
        self.says(
            "set quantity 0 9",
            "this is not a valid set command: set PLACE COLUMN CSV",
        )
        self.says("fly", "there is no command 'fly'; try help")
        self.says(".fly", "there is no command '.fly'; try help")
        self.says_like(".import /no/such.csv", "No such file")
        self.says_like(".watch totals price", "no column 'price'")
        self.says(".policy off", "ok")
        self.says("insert bread,5", "place 0")
        self.says(".evict quantity 0", "evicted 1 object")
        self.says(
            "set 0 sku rye", "refused: column quantity is away in row group 0; fetch it first [16]"
        )
        self.says(".policy on", "ok")
        self.says("set 0 sku rye", "ok")
        self.says_like(".policy maybe", "write .policy on, or .policy off")

    def test_time_and_help(self) -> None:
        self.says_like("help", r"\.import FILE", "script language")
        self.says_like("help watch", "watch totals COLUMN", r"\.watch totals")
        self.says_like("help nothing", "no help on 'nothing'")
        self.says_like(".time on", r"ok\n\(.* µs\)")
        self.says_like(".open a:int", r"ok\n\(\d+(\.\d+)? (µs|ms|s)\)")

    def test_completion(self) -> None:
        class Line:
            text = ""

            def get_line_buffer(self) -> str:
                return self.text

            def get_begidx(self) -> int:
                return self.text.rfind(" ") + 1

        self.shell.line(".open sku:text,quantity:int local=1MB")
        line = Line()
        completer = _Completer(self.shell, line)
        for text, due in (
            (".im", [".import "]),
            ("un", ["unpin ", "unwatch "]),
            ("set 0 q", ["quantity "]),
            ("watch t", ["totals "]),
            ("watch totals quantity by s", ["sku "]),
            (f".import {self.folder}/or", [f"{self.folder}/orders.csv "]),
            (".time o", ["off ", "on "]),
            ("zzz", []),
        ):
            line.text = text
            found = []
            while (next_ := completer(text[line.get_begidx() :], len(found))) is not None:
                found.append(next_)
            self.assertEqual(found, due)


class Processes(unittest.TestCase):
    def environment(self) -> dict[str, str]:
        return {**os.environ, "PYTHONPATH": str(PACKAGE), "HOME": self.home, "TERM": "xterm"}

    def setUp(self) -> None:
        folder = tempfile.TemporaryDirectory()
        self.addCleanup(folder.cleanup)
        self.home = folder.name

    def test_a_script_through_a_pipe_gets_its_plain_replies(self) -> None:
        script = b"schema 4 int,text\nload 8\n5,a\n7,b\ndump\nset 9 0 1\nwatch totals x\n"
        done = subprocess.run(
            [sys.executable, "-m", "fullercoral"],
            input=script,
            capture_output=True,
            env=self.environment(),
            check=True,
        )
        due = "ok\nloaded 2\nrows 2\n5,a\n7,b\nrefused 8 NoRow\nsyntax command 5\n"
        self.assertEqual((done.stdout.decode(), done.stderr.decode()), (due, ""))

    def piped(self, lines: str, *arguments: str) -> tuple[int, str, str]:
        done = subprocess.run(
            [sys.executable, "-m", "fullercoral", *arguments],
            input=lines.encode(),
            capture_output=True,
            env=self.environment(),
        )
        return done.returncode, done.stdout.decode(), done.stderr.decode()

    def test_lines_through_a_pipe_get_sentences_and_a_status(self) -> None:
        wrong = ".open sku:text,quantity:int\ninsert bread,5\nset 0 quantity x\nset 0 nope 1\n"
        wrong += "exit\nfly\n"
        status, said, _ = self.piped(wrong)
        self.assertEqual(status, 1)
        self.assertIn("quantity holds whole numbers of 64 bits, not 'x' [5]\n", said)
        self.assertIn("no column 'nope'; the columns are sku, quantity [4]\n", said)
        self.assertNotIn("fly", said)
        self.assertEqual(self.piped("\n.open a:int\ninsert 5\n"), (0, "ok\nplace 0\n", ""))

    def test_a_file_that_cannot_be_imported(self) -> None:
        said = "/no/such.csv: No such file or directory\n"
        self.assertEqual(self.piped("dump\n", "/no/such.csv"), (1, "", said))

    def test_a_terminal(self) -> None:
        path = Path(self.home, "orders.csv")
        path.write_text(ORDERS)
        terminal, side = pty.openpty()
        process = subprocess.Popen(
            [sys.executable, "-m", "fullercoral", str(path)],
            stdin=side,
            stdout=side,
            stderr=side,
            env=self.environment(),
        )
        os.close(side)
        said = ""
        for sent, due in (
            ("", r"3 rows in .*fullercoral> "),
            (".wat\ttotals quan\tby sk\t\n", r"bread +2 +7.*fullercoral> "),
            ("set 0 quantity 50\n", r"ok.*fullercoral> "),
            ("\x1b[A\n", r"ok.*fullercoral> "),
            (".quit\n", r"\.quit"),
        ):
            os.write(terminal, sent.encode())
            said = self.read_until(terminal, due)
        self.assertIn("quit", said)
        self.assertEqual(process.wait(10), 0)
        os.close(terminal)
        self.assertIn("set 0 quantity 50", Path(self.home, ".fullercoral_history").read_text())

    def read_until(self, terminal: int, due: str) -> str:
        said, end = "", time.monotonic() + 10
        while not re.search(due, said, re.S):
            self.assertLess(time.monotonic(), end, said)
            if select.select([terminal], [], [], 0.1)[0]:
                try:
                    said += os.read(terminal, 65536).decode()
                except OSError:
                    return said
        return said


if __name__ == "__main__":
    unittest.main()
