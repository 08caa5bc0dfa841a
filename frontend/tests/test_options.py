"""The arguments."""

from __future__ import annotations

import os
import unittest

from frontend.errors import Failed
from frontend.options import FLAGS, USAGE, VALUED, Options, parse
from frontend.tests.helpers import FilesCase


class Arguments(FilesCase):
    def failed(self, *arguments: str) -> str:
        with self.assertRaises(Failed) as caught:
            parse(arguments)
        self.assertTrue(str(caught.exception).endswith("; ./cardgrade --help tells how it is used"))
        return str(caught.exception).partition(";")[0]

    def test_names(self) -> None:
        self.assertEqual(parse([]).names, [])
        self.assertEqual(parse(["-"]).names, ["-"])
        self.assertEqual(parse(["--", "-x"]).names, ["-x"])
        self.assertEqual(parse(["--join", "--", "--a", "--", "c"]).names, ["--a", "--", "c"])
        self.assertEqual(parse(["a", "-b", "-"]).names, ["a", "-b", "-"])
        self.assertEqual(self.failed("a", "b"), "one FILE at most, or A, B and WIRES")

    def test_a_name_that_looks_like_an_option(self) -> None:
        self.assertEqual(self.failed("a", "--b", "c"), "no option --b")
        here = os.getcwd()
        self.addCleanup(os.chdir, here)
        os.chdir(self.folder)
        self.file(b"", "--b")
        self.assertEqual(parse(["a", "--b", "c"]).names, ["a", "--b", "c"])
        self.assertEqual(self.failed("--b"), "no option --b")

    def test_options_behind_the_name(self) -> None:
        options = parse(["a.words", "--report", "--csv", "x", "--json=y", "--random", "5", "--seed=7"])
        self.assertEqual((options.names, options.report, options.files), (["a.words"], True, {"--csv": "x", "--json": "y"}))
        self.assertEqual((options.random, options.seed, options.has_vectors), (5, 7, True))
        self.assertTrue(parse(["a.words", "--help"]).help)

    def test_modes(self) -> None:
        self.assertEqual(parse(["--card", "a.gates"]).mode, "--card")
        self.assertEqual(self.failed("--card", "a.words"), "--card takes one FILE.gates or netlist")
        self.assertEqual(self.failed("--card", "a.gates", "b.gates"), "--card takes one FILE.gates or netlist")
        self.assertEqual(self.failed("--join", "a"), "one FILE at most, or A, B and WIRES")
        self.assertEqual(self.failed("--join", "--bytes", "a"), "--join and --bytes do not go together")
        self.assertEqual(self.failed("--gates", "a.gates"), "--gates takes one netlist")
        self.assertEqual(self.failed("--card", "a.gates", "--report"), "--card and a report do not go together")
        self.assertEqual(self.failed("--bytes", "a.words", "--exhaustive"), "--bytes takes a text of words alone")

    def test_what_makers_ask_for(self) -> None:
        plains: list[list[str]] = [["a.words"], ["a.gates"], ["a"], [], ["-"], ["a", "b", "c"], ["--join", "a", "b", "c"], ["--bytes", "a.json"],
                                   ["--", "a"]]
        for plain in plains:
            self.assertFalse(parse(plain).is_makers, plain)
        for made in (["a.bench"], ["a.V"], ["--card", "a.json"], ["a.words", "--names", "n"], ["a", "b", "c", "--exhaustive"], ["x.gates", "--html", "-"]):
            self.assertTrue(parse(made).is_makers, made)
        for wrong in (["--report"], ["--report", "-"], ["a", "--random", "3"]):
            self.assertEqual(self.failed(*wrong), "these options take a text of words or a netlist, by its name")

    def test_values(self) -> None:
        for value in ("", "x", "-1", "1.5", "1" * 21, "٣"):
            self.assertEqual(self.failed("a.words", "--random", value), "--random takes a number")
        self.assertEqual(self.failed("a.words", "--csv"), "--csv takes a value")
        self.assertEqual(self.failed("a.words", "--report=1"), "no option --report=1")
        self.assertEqual(self.failed("a.words", "--seed", "1"), "--seed goes with --random")
        self.assertEqual(self.failed("a.words", "--random", "1", "--exhaustive"), "--vectors, --random and --exhaustive do not go together")

    def test_names_files(self) -> None:
        self.assertEqual(parse(["a", "b", "c", "--names", "x", "--names", "y"]).names_files, ["x", "y"])
        self.assertEqual(self.failed("a.words", "--names", "x", "--names", "y"), "--names is there once, with A B WIRES twice")
        self.assertIn("a netlist has its own names", self.failed("a.bench", "--names", "x"))
        self.assertEqual(self.failed("a.gates", "--write-names", "x"), "--write-names takes a netlist")


class Usage(unittest.TestCase):
    def test_every_option_is_told(self) -> None:
        for option in FLAGS + VALUED:
            if option != "-h":
                self.assertIn(option, USAGE)
        self.assertTrue(all(len(line) <= 120 for line in USAGE.splitlines()))
        self.assertFalse(Options().is_makers)
