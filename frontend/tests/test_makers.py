"""What makers ask for: vectors apart, names, netlists and reports, through the whole of a run but the process."""

from __future__ import annotations

import importlib.util
import json
import os
import unittest
from unittest import mock

from frontend import files, main
from frontend.engine import run_program
from frontend.errors import Failed, Told
from frontend.tests.helpers import FilesCase, example, example_text, needs_engine
from frontend.words import program_input, read_text

PARTS = ("design", "formats", "grading", "outputs", "summary", "vectors")
needs_parts = unittest.skipUnless(all(importlib.util.find_spec(f"frontend.{part}") for part in PARTS), "a part is not there")


class Run(FilesCase):
    def run_it(self, *arguments: str) -> tuple[int, str, str]:
        """The status of a run, and what it wrote."""
        out: list[bytes] = []
        said: list[str] = []
        real = files.write_all

        def write_all(fd: int, data: bytes) -> None:
            if fd == 1:
                out.append(bytes(data))
            else:
                real(fd, data)

        with mock.patch("frontend.files.write_all", write_all), mock.patch("frontend.files.tell", said.append):
            status = main.run(arguments)
        return status, b"".join(out).decode(), "\n".join(said)

    def printed(self, *arguments: str) -> str:
        """What a run prints that ends well."""
        status, out, said = self.run_it(*arguments)
        self.assertEqual((status, said), (0, ""))
        return out


@needs_engine
@needs_parts
class Vectors(Run):
    def test_in_the_place_of_the_texts_own(self) -> None:
        card = example_text("majority.words").card
        all_eight = run_program(program_input(card, range(0xA0000000, 0xA0000008))).decode()
        self.assertEqual(self.printed("--exhaustive", example("majority.words")), all_eight)
        listed = self.file(b"".join(b"%d%d%d\n" % (number & 1, number >> 1 & 1, number >> 2) for number in range(8)))
        self.assertEqual(self.printed(example("majority.words"), "--vectors", listed), all_eight)

    def test_a_long_list_has_the_same_text(self) -> None:
        for name, count in (("alu181.words", 3000), ("c17.gates", 500), ("spare.words", 100)):
            short = self.printed("--random", str(count), "--seed", "9", example(name))
            with mock.patch("frontend.makers.MOST_VECTORS", 10):
                self.assertEqual(self.printed("--random", str(count), "--seed", "9", example(name)), short)

    def test_longer_than_the_program_takes(self) -> None:
        lines = self.printed("--random", "20000", example("s.words")).splitlines()
        self.assertEqual((lines[0], lines[-1]), ("card 1 3 3 12", "grade 7 10"))

    def test_of_a_pair(self) -> None:
        adder, ripple = example("fulladder.words"), example("ripple.wires")
        self.assertTrue(self.printed(adder, adder, ripple, "--exhaustive").endswith("\ngrade 58 58\n"))
        joined = read_text(self.file(self.printed("--join", adder, adder, ripple, "--random", "3").encode()))
        self.assertEqual(len(joined.vectors), 3)

    def test_what_is_wrong(self) -> None:
        with self.assertRaises(Failed) as failed:
            self.run_it("--vectors", "none", example("s.words"))
        self.assertEqual(str(failed.exception), "none: no such file")
        wide = self.file(b"00000000\n" * 17 + b"40000001\n60000000\n80000001\n", "wide.words")
        with self.assertRaises(Failed) as failed:
            self.run_it("--exhaustive", wide)
        self.assertIn("16 inputs", str(failed.exception))
        bad = self.file(b"0\n1\n2\n")
        with self.assertRaises(Told) as caught:
            self.run_it("--vectors", bad, example("s.words"))
        self.assertTrue(str(caught.exception).startswith(f"{bad}:3: "))


@needs_engine
@needs_parts
class Names(Run):
    def test_a_netlist_and_its_gate_list_have_one_report(self) -> None:
        gates, names = os.path.join(self.folder, "c17.gates"), os.path.join(self.folder, "names")
        bench = self.file(C17, "c17.bench")
        with open(gates, "w", encoding="utf-8") as file:
            file.write(self.printed("--gates", bench, "--write-names", names))
        of_netlist = self.printed("--exhaustive", "--report", bench).splitlines()
        of_gates = self.printed("--exhaustive", "--report", gates, "--names", names).splitlines()
        self.assertEqual((of_netlist[0], of_gates[0]), (bench, gates))
        self.assertEqual(of_netlist[1:], of_gates[1:])

    def test_a_netlist_is_graded(self) -> None:
        bench = self.file(C17, "c17.bench")
        self.assertTrue(self.printed("--exhaustive", bench).endswith("\ngrade 34 34\n"))
        self.assertTrue(self.printed(bench).endswith("\ngrade 0 34\n"))
        card = read_text(self.file(self.printed("--card", bench).encode()))
        self.assertIn("graph 5: line 5, NAND, N10", card.card_comments)

    def test_joined(self) -> None:
        adder, ripple = example("fulladder.words"), example("ripple.wires")
        first, second = self.file(b"input 0 x\ngraph 3 sum\nnode 0 sum/x\n", "first"), self.file(b"input 1 y\n", "second")
        plain = self.printed("--join", adder, adder, ripple)
        named = self.printed("--join", adder, adder, ripple, "--names", first, "--names", second)
        self.assertIn("# graph 0: graph 0 of A, A.x\n", named)
        self.assertIn("#   node 0, A.sum/x, reads graph ", named)
        self.assertIn(" of B, B.y\n", named)
        self.assertEqual(read_text(self.file(named.encode())).card, read_text(self.file(plain.encode())).card)
        self.assertIn("A.sum", self.printed(adder, adder, ripple, "--json", "-", "--names", first))

    def test_no_names_change_nothing(self) -> None:
        none = self.file(b"# none\n")
        self.assertEqual(self.printed("--card", example("c17.gates"), "--names", none), self.printed("--card", example("c17.gates")))
        self.assertEqual(self.printed(example("s.words"), "--names", none), self.printed(example("s.words")))


@needs_engine
@needs_parts
class Reports(Run):
    def test_files(self) -> None:
        paths = {kind: os.path.join(self.folder, kind) for kind in ("csv", "json", "html")}
        arguments = [word for kind, path in paths.items() for word in (f"--{kind}", path)]
        out = self.printed(example("alu181.words"), "--report", *arguments)
        self.assertIn("Coverage", out)
        marked, total = open_words(example("alu181.out"))[-2:]
        grade = json.loads(self.read(paths["json"]))["grade"]
        self.assertEqual((grade["marked"], grade["total"]), (int(marked), int(total)))
        self.assertTrue(self.read(paths["html"]).lower().startswith(b"<!doctype html"))
        self.assertEqual(self.read(paths["csv"]).count(b"\n"), 1 + int(open_words(example("alu181.out"))[4]))

    def test_two_on_standard_output(self) -> None:
        with self.assertRaises(Failed):
            self.run_it(example("s.words"), "--report", "--csv", "-")

    def test_refusals(self) -> None:
        card = self.file(b"00000000\n40000001\n60000000\n80000002\n", "card.words")
        status, out, said = self.run_it("--report", card)
        self.assertEqual((status, out), (1, "refused 7 3\n"))
        self.assertTrue(said.startswith(f"{card}:4: word 3, 80000002: "))
        vectors = self.file(self.read(example("s.words")) + b"A0000002\n", "s.words")
        status, out, said = self.run_it("--report", vectors)
        self.assertEqual((status, out), (1, "refused 10 2\n"))
        self.assertIn("vector word 2, A0000002: the kind or a bit", said)

    def test_a_text_with_a_long_list(self) -> None:
        text = self.file(self.read(example("s.words")) + b"A0000001\n" * 20000, "s.words")
        self.assertEqual(self.run_it(text)[:2], (1, "long\n"))
        self.assertIn("20,002 vectors", self.printed("--report", text))

    def test_a_file_that_cannot_be_written(self) -> None:
        with self.assertRaises(Failed):
            self.run_it(example("s.words"), "--csv", os.path.join(self.folder, "none", "file"))


def open_words(path: str) -> list[str]:
    with open(path, encoding="ascii") as file:
        return file.read().split()


C17 = b"""# c17
INPUT(N1)
INPUT(N2)
INPUT(N3)
INPUT(N6)
INPUT(N7)
OUTPUT(N22)
OUTPUT(N23)
N10 = NAND(N1, N3)
N11 = NAND(N3, N6)
N16 = NAND(N2, N11)
N19 = NAND(N11, N7)
N22 = NAND(N10, N16)
N23 = NAND(N16, N19)
"""
