"""Tests of the report, the tables and the page: their numbers, and that names of any kind come out right."""

from __future__ import annotations

import csv
import io
import json
import os
import tempfile
import unittest
from html.parser import HTMLParser
from typing import Optional

from frontend.design import Design, Site, bare_design
from frontend.errors import Failed
from frontend.grading import grade_all
from frontend.outputs import check_outputs, encoded, write_outputs
from frontend.page import page_text
from frontend.report import folded, ranges, report_text, steps, wrapped
from frontend.summary import Share, Summary, summarize
from frontend.tables import COLUMNS, csv_text, json_text
from frontend.tests.brute import ROOT, Brute, card_of_gates, random_card, random_gates
from frontend.vectors import all_vectors, pack
from frontend.words import read_text

ODD = ['<b>"x"</b>', "a&b", "c,d", "e'f", 'g"h', "<script>alert(1)</script>", "n\u00e9t", "u\u202ev", "w\nz", "&lt;"]
NAND = 0x28000002  # a hidden one of two leads


def example(name: str) -> tuple[list[int], list[int]]:
    text = read_text(os.path.join(ROOT, "examples", name))
    return text.card, text.vectors


def c17(vectors: Optional[list[int]] = None) -> Summary:
    gates, words = example("c17.gates")
    card = card_of_gates(gates)
    return summarize(bare_design("c17.gates", gates, True), grade_all(card, words if vectors is None else vectors, 1, None, Brute()), "c17.vec")


def odd_design(vectors: Optional[list[int]] = None) -> Summary:
    """c17 whose lines and leads have names that texts, tables and pages must not take for their own signs."""
    made = c17(vectors)
    names = [ODD[at % len(ODD)] + str(at) for at in range(23)]
    design = Design("o<dd>.bench", made.design.words, True, names[:5], [(names[9], 9), (names[10], 10)],
                    [Site(f"{names[11 + at]}/A", at + 1) for at in range(12)], [Site(names[at], at + 1) for at in range(11)], ["<note> & more"])
    return summarize(design, made.grading, "a <list>.vec")


def xor_design(vectors: Optional[list[int]] = None) -> Summary:
    """An XOR of two inputs, each on one pin, as a netlist's cell U: its pins are BUF lines, and four NANDs are inside."""
    gates = [0, 0, 0x34000001, 0x60000000, 0x34000001, 0x60000001, NAND, 0x60000002, 0x60000003, NAND, 0x60000002, 0x60000004,
             NAND, 0x60000003, 0x60000004, 0x48000002, 0x60000005, 0x60000006]
    inside = Site("", 3, "XOR U")
    lines = [Site("a", 1), Site("b", 2), Site("U/A", 3), Site("U/B", 3), inside, inside, inside, Site("y", 3)]
    design = Design("xor.bench", gates, True, ["a", "b"], [("y", 7)], [inside] * 10, lines, [])
    words = pack(all_vectors(2).bits, 2) if vectors is None else vectors
    return summarize(design, grade_all(card_of_gates(gates), words, 1, None, Brute()))


class Numbers(unittest.TestCase):
    def test_shares(self) -> None:
        found = [Share(caught, total).percent for caught, total in ((0, 3), (1, 3), (2, 3), (3, 3), (10239, 10240), (1, 10240), (0, 0))]
        self.assertEqual(found, ["0.00 %", "33.33 %", "66.67 %", "100.00 %", "99.99 %", "0.01 %", "-"])

    def test_c17(self) -> None:
        """The field's numbers for c17: 34 faults, and 22 where equivalent ones are one."""
        made = c17()
        self.assertEqual((made.each, made.uncollapsed, made.collapsed), (Share(46, 46), Share(34, 34), Share(22, 22)))
        self.assertEqual((made.growth[-1], made.uncaught, made.firsts), ((4, 22), [], [0, 1, 2, 3]))
        self.assertEqual([made.caught_after(vectors) for vectors in range(6)], [0, 7, 14, 17, 22, 22])

    def test_uncollapsed_is_the_grade(self) -> None:
        for seed in range(30):
            card = random_card(seed)
            made = summarize(bare_design("r", card, False), grade_all(card, pack(all_vectors(4).bits, 4)[::3], 1, None, Brute()))
            self.assertEqual(made.uncollapsed, Share(made.grading.marked, made.grading.total))
            self.assertEqual(made.each.total, made.grading.faults)
            self.assertEqual(made.collapsed.caught, made.caught_after(made.grading.vectors))

    def test_needed_vectors_catch_the_same(self) -> None:
        for seed in range(20):
            gates = random_gates(seed)
            card, words = card_of_gates(gates), pack(all_vectors(4).bits, 4)
            made = summarize(bare_design("r", gates, True), grade_all(card, words, 1, None, Brute()))
            fewer = summarize(made.design, grade_all(card, [words[at] for at in made.firsts], 1, None, Brute()))
            self.assertEqual(fewer.collapsed, made.collapsed)
            self.assertEqual(sorted(made.firsts + made.idle), list(range(len(words))))
            for at in made.essential:
                less = summarize(made.design, grade_all(card, words[:at] + words[at + 1 :], 1, None, Brute()))
                self.assertLess(less.collapsed.caught, made.collapsed.caught)

    def test_inside_stays_out(self) -> None:
        """An input and its only pin are one line, though a BUF stands between them; of an XOR nothing else is equivalent."""
        made = xor_design()
        self.assertEqual(len(made.own), 10)
        self.assertEqual((made.each, made.uncollapsed, made.collapsed), (Share(10, 10), Share(6, 6), Share(6, 6)))
        self.assertIn("10 of 36: the other 26 are inside", " ".join(report_text(made).split()))
        self.assertEqual([made.labels.name(group[0]) for group in made.groups], ["U/A", "U/A", "U/B", "U/B", "y", "y"])
        self.assertEqual(made.firsts, [0, 1, 2])  # all four vectors are the first to catch some fault, the last one those inside
        self.assertEqual(set(made.grading.marks), {0, 1, 2, 3})

    def test_unseen(self) -> None:
        card, words = example("leads.words")
        made = summarize(bare_design("leads", card, False), grade_all(card, words, 1, None, Brute()))
        self.assertEqual(made.unseen, {4, 5, 22, 23})
        self.assertEqual(made.uncaught, [[4, 22], [5, 23]])

    def test_another_card(self) -> None:
        with self.assertRaises(ValueError):
            summarize(c17().design, xor_design().grading)

    def test_taken_for_equivalent_and_graded_differently(self) -> None:
        made = c17()
        made.grading.tallies[0] += 1
        with self.assertRaisesRegex(Failed, "graded differently"):
            summarize(made.design, made.grading)


class Text(unittest.TestCase):
    def test_pieces(self) -> None:
        self.assertEqual(steps(0), [])
        self.assertEqual(steps(1), [1])
        self.assertEqual(steps(5), [1, 2, 5])
        self.assertEqual(steps(1000), [1, 2, 5, 10, 20, 50, 100, 200, 500, 1000])
        self.assertEqual(ranges([3, 7, 8, 9, 40, 41]), ["3", "7-9", "40-41"])
        self.assertEqual(list(wrapped("none here", [])), ["  none here: none"])
        self.assertTrue(all(len(line) <= 110 for line in wrapped("many", [str(at) for at in range(0, 900, 2)])))
        self.assertTrue(all(len(line) <= 110 for line in folded("word " * 99)))

    def test_by_number(self) -> None:
        card, words = example("leads.words")
        text = report_text(summarize(bare_design("leads.words", card, False), grade_all(card, words, 1, None, Brute())))
        self.assertIn("2 inputs, 7 graphs (2 observable), 7 nodes, 28 faults\n", text)
        self.assertIn("  node 2 of graph 4 stuck at its 0-exit; nothing observable depends on it\n    as graph 4 stuck-at-0\n", text)
        self.assertIn("  graph 0  with node 0 of graph 2\n", text)

    def test_gates_by_number(self) -> None:
        text = report_text(c17([0xA0000001]))
        self.assertIn("  lead 2 stuck-at-1\n", text)
        self.assertIn("    as line 5 stuck-at-0\n", report_text(c17([])))
        self.assertIn("  line 0  with lead 0\n", text)
        self.assertIn("1 vector: c17.vec\n", text)

    def test_by_name(self) -> None:
        text = report_text(odd_design([]))
        self.assertIn("    as <script>alert(1)</script>5 stuck-at-0, line 5\n", text)
        self.assertIn("  w?z18/A stuck-at-1, line 8, lead 7\n", text)  # of unprintable ones a line has question marks
        self.assertIn("  no vectors\n", text)

    def test_crossed(self) -> None:
        card, words = example("inverters.words")
        made = summarize(bare_design("inverters", card, False), grade_all(card, words, 1, None, Brute()))
        self.assertIn(", crossed\n", report_text(made))


class Tables(unittest.TestCase):
    def test_csv(self) -> None:
        made = odd_design()
        rows = list(csv.DictReader(io.StringIO(csv_text(made), newline="")))
        self.assertEqual(csv_text(made).split("\n")[0], "fault,name,site,number,stuck,counts,paired,own,equivalent,first,tally")
        self.assertEqual(len(rows), 46)
        for fault, row in enumerate(rows):
            site = (made.design.leads + made.design.lines)[fault // 2]
            self.assertEqual((row["fault"], row["name"], row["stuck"]), (str(fault), site.name, str(fault % 2)))
        self.assertEqual([rows[24][key] for key in COLUMNS[2:]], ["line", "0", "0", "0", "0", "1", "0", "3", "1"])
        self.assertEqual([rows[0][key] for key in COLUMNS[2:]], ["lead", "0", "0", "1", "", "1", "", "3", "1"])

    def test_json(self) -> None:
        made = odd_design([0xA0000001])
        text = json_text(made)
        self.assertTrue(text.isascii())
        found = json.loads(text)
        self.assertEqual(list(found), ["version", "design", "vectors", "grade", "coverage", "growth", "uncaught", "faults"])
        self.assertEqual((found["version"], found["design"]["file"], found["design"]["notes"]), (1, "o<dd>.bench", ["<note> & more"]))
        self.assertEqual([row["name"] for row in found["faults"][24::2]], [site.name for site in made.design.lines])
        self.assertEqual(sorted(found["faults"][0]), sorted(COLUMNS + ["title", "source_line", "inside", "unseen"]))
        self.assertEqual(found["coverage"]["collapsed"], {"caught": 7, "total": 22, "percent": 31.82})
        self.assertEqual(found["uncaught"], made.uncaught)

    def test_no_own_faults(self) -> None:
        made = xor_design()
        design = Design("x", made.design.words, True, ["a", "b"], [], made.design.leads, [Site("", 0, "constant")] * 8, [])
        none = summarize(design, made.grading)
        self.assertEqual(json.loads(json_text(none))["coverage"]["collapsed"], {"caught": 0, "total": 0, "percent": None})
        self.assertIn("-  0 of 0", report_text(none))
        page_text(none)


class Reader(HTMLParser):
    """Takes a page apart, and finds tags that are not closed."""

    def __init__(self) -> None:
        super().__init__()
        self.open: list[str] = []
        self.cells: list[str] = []
        self.tags: list[str] = []
        self.links: list[str] = []

    def handle_starttag(self, tag: str, attrs: list[tuple[str, Optional[str]]]) -> None:
        self.tags.append(tag)
        self.links += [value or "" for name, value in attrs if name in ("src", "href", "xlink:href")]
        if tag not in ("meta", "br"):
            self.open.append(tag)
        if tag in ("td", "title", "h1", "li"):
            self.cells.append("")

    def handle_startendtag(self, tag: str, attrs: list[tuple[str, Optional[str]]]) -> None:
        self.tags.append(tag)

    def handle_endtag(self, tag: str) -> None:
        if not self.open or self.open.pop() != tag:
            raise AssertionError(f"</{tag}> at {self.getpos()}")

    def handle_data(self, data: str) -> None:
        if self.open and self.open[-1] in ("td", "title", "h1", "li"):
            self.cells[-1] += data


def read_page(text: str) -> Reader:
    reader = Reader()
    reader.feed(text)
    reader.close()
    if reader.open:
        raise AssertionError(f"not closed: {reader.open}")
    return reader


class Page(unittest.TestCase):
    def test_names(self) -> None:
        made = odd_design([])
        found = read_page(page_text(made))
        for group in made.uncaught:
            name = made.labels.fault(group[0]).replace("\n", "?").replace("\u202e", "?")
            self.assertIn(name, found.cells)
        self.assertIn("o<dd>.bench", found.cells)
        self.assertIn("<note> & more", found.cells)
        self.assertNotIn("script", found.tags)

    def test_stands_alone(self) -> None:
        for made in (odd_design(), odd_design([]), c17([0xA0000001] * 150), xor_design()):
            text = page_text(made)
            found = read_page(text)
            self.assertEqual(found.links, [])
            self.assertNotRegex(text, r"(?i)https?:|url\(|@import")
            self.assertEqual("svg" in found.tags, made.grading.vectors > 0)

    def test_chart(self) -> None:
        text = page_text(c17())
        self.assertIn('class="curve" d="M52 252 H214.0 V177.5 H376.0 V103.1', text)
        self.assertIn("vectors, logarithmic scale", page_text(c17([0xA0000001] * 150)))


class Outputs(unittest.TestCase):
    def test_files(self) -> None:
        made = odd_design()
        with tempfile.TemporaryDirectory() as folder:
            wanted = {option: os.path.join(folder, option) for option in ("--csv", "--json", "--html", "--report")}
            write_outputs(made, wanted)
            self.assertEqual(sorted(os.listdir(folder)), sorted(wanted))
            for option, text in (("--csv", csv_text), ("--json", json_text), ("--html", page_text), ("--report", report_text)):
                with open(wanted[option], "rb") as file:
                    self.assertEqual(file.read(), text(made).encode())
            with self.assertRaises(Failed):
                write_outputs(made, {"--csv": os.path.join(folder, "none", "x")})

    def test_one_place_for_one_text(self) -> None:
        check_outputs({"--report": "-", "--csv": "x"})
        for wanted in ({"--report": "-", "--csv": "-"}, {"--json": "x", "--csv": "x"}):
            with self.assertRaisesRegex(Failed, "takes one of them"):
                check_outputs(wanted)

    def test_names_that_are_no_utf8(self) -> None:
        self.assertEqual(encoded("a\udcff"), b"a\xff")
        self.assertEqual(encoded("a\ud800"), b"a\\ud800")


if __name__ == "__main__":
    unittest.main()
