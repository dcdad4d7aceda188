"""Display: reprs, HTML, and the map of row groups by columns."""

from __future__ import annotations

import tempfile
import unittest
import xml.etree.ElementTree as xml
from pathlib import Path

import fullercoral as fc
from fullercoral.picture import AWAY, CLEAN, DIRTY, PINNED, Map

SVG = "{http://www.w3.org/2000/svg}"
KINDS = {"sku": str, "quantity": int}


def cells_of(svg: str) -> list[str]:
    """Returns the states of the cells of a picture, without its legend and its page."""
    rects = xml.fromstring(svg).iter(f"{SVG}rect")
    return [rect.attrib["class"][3:] for rect in rects if rect.attrib.get("height") == "16"]


class Texts(unittest.TestCase):
    def test_an_empty_table(self) -> None:
        with fc.Table(KINDS, local="1MB") as table:
            due = "0 rows by 2 columns\nplace  sku  quantity\n       str       int"
            self.assertEqual(repr(table), due)
            self.assertNotIn("<svg", table._repr_html_())

    def test_head_and_tail(self) -> None:
        with fc.Table(KINDS, local="1MB", group=16) as table:
            table.extend((f"sku{n}", n) for n in range(1000))
            for place in (0, 998, *range(3, 600)):
                table.remove(place)
            lines = repr(table).split("\n")
            self.assertEqual(lines[0], "401 rows by 2 columns")
            places = [line.split()[0] for line in lines[3:]]
            self.assertEqual(places, "1 2 600 601 602 … 994 995 996 997 999".split())

    def test_characters_of_two_places_are_aligned(self) -> None:
        with fc.Table({"name": str, "quantity": int}) as table:
            table.extend([("日本", 5), ("Zoe\u0308", 12), ("bread", 7)])
            due = ["    0  日本          5", "    1  Zoe\u0308          12", "    2  bread         7"]
            self.assertEqual(repr(table).splitlines()[3:], due)

    def test_what_cannot_be_printed_is_escaped(self) -> None:
        with fc.Table(KINDS, local="1MB") as table:
            table.extend([("two\nlines", 1), ("x" * 100, None), (None, 2), ("é", 3)])
            lines = repr(table).split("\n")
            self.assertEqual(lines[3].split(), ["0", r"two\nlines", "1"])
            self.assertEqual(lines[4].split(), ["1", "x" * 31 + "…", "NA"])
            self.assertEqual(lines[5].split(), ["2", "NA", "2"])
            self.assertEqual(len(lines[5]), len(lines[6]))

    def test_rows_that_are_away_without_a_policy(self) -> None:
        with fc.Table(KINDS, local="1MB", policy=None) as table:
            table.append(("bread", 5))
            table.evict()
            self.assertIn("1 rows; column sku is away in row group 0", repr(table))
            self.assertIn("is away in row group 0", table._repr_html_())

    def test_html(self) -> None:
        with fc.Table({"<sku>": str, "n": int}, local="1MB") as table:
            table.extend([("<b>&", 1), (None, None)])
            html = table._repr_html_()
            self.assertIn("&lt;b&gt;&amp;", html)
            self.assertIn("&lt;sku&gt;", html)
            self.assertNotIn("<b>", html)
            body = html[html.index('<div class="fc-table">') :]
            self.assertEqual(xml.fromstring(body).tag, "div")

    def test_an_answer_as_html(self) -> None:
        with fc.Table(KINDS, local="1MB") as table:
            table.extend((f"<{n}>", n) for n in range(50))
            keyed, plain = table.watch(fc.totals("quantity", by="sku")), table.watch(
                fc.extrema("quantity")
            )
            html = keyed._repr_html_()
            self.assertIn("&lt;1&gt;", html)
            self.assertIn("and 10 lines more", html)
            self.assertIn('<td class="n">49</td>', plain._repr_html_())
        self.assertIn("no longer watched", keyed._repr_html_())

    def test_reprs_can_be_pasted(self) -> None:
        values = [
            fc.Schema(KINDS),
            fc.Limits.for_local(fc.Schema(KINDS), "1MB"),
            fc.totals("quantity", by="sku", where=[("quantity", ">", 0)]),
            fc.extrema("quantity"),
            fc.Total(2, 7),
            fc.MinMax(-1, 5),
        ]
        names = {**vars(fc)}
        for value in values:
            self.assertEqual(eval(repr(value), names), value)
        for value in (fc.Policy(prefetch=False), fc.Memory(), fc.Files("x.far"), fc.NA):
            self.assertEqual(repr(eval(repr(value), names)), repr(value))


class Maps(unittest.TestCase):
    def test_the_four_states(self) -> None:
        with fc.Table(KINDS, local="1MB", group=16) as table:
            table.extend((f"sku{n}", n) for n in range(64))
            table.evict()
            table.fetch("quantity", 0)
            table.fetch("quantity", 1)
            table.set(17, "quantity", 5)
            with table.pin("quantity", 2):
                map_ = table.map()
            self.assertEqual(map_.states[1], (CLEAN, DIRTY, PINNED, AWAY))
            self.assertEqual(map_.states[0], (AWAY, CLEAN, AWAY, AWAY))
            self.assertEqual(map_.counts(), {DIRTY: 1, CLEAN: 2, AWAY: 4, PINNED: 1})
            self.assertEqual(str(map_).split("\n")[:2], ["     sku ·▒··", "quantity ▒█P·"])
            self.assertEqual(cells_of(map_.svg()), [*map_.states[0], *map_.states[1]])

    def test_many_row_groups_share_cells(self) -> None:
        states = tuple([AWAY] * 500 + [DIRTY] * 499 + [PINNED])
        map_ = Map(("a column of a very long name, longer than its place",), 1000, (states,))
        line = map_.text(50).split("\n")[0].split()[-1]
        self.assertEqual(line, "·" * 25 + "█" * 24 + "P")
        self.assertIn("1,000 row groups, 20 a character", map_.text(50))
        self.assertLessEqual(set(cells_of(map_.svg())), {AWAY, DIRTY, PINNED})
        self.assertIn("…", map_.svg())

    def test_a_picture_for_a_file_and_for_a_page(self) -> None:
        with fc.Table(KINDS, local="1MB") as table, tempfile.TemporaryDirectory() as folder:
            table.append(("bread", 5))
            path = Path(folder, "map.svg")
            table.plot(path)
            root = xml.parse(path).getroot()
            self.assertEqual((root.tag, root.attrib["width"]), (f"{SVG}svg", "720"))
            self.assertIn("prefers-color-scheme:dark", path.read_text())
            self.assertFalse(table.map()._repr_svg_().startswith("<?xml"))


if __name__ == "__main__":
    unittest.main()
