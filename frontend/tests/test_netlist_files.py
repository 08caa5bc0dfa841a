"""Tests of the readers of .bench and BLIF, and of what they refuse."""

from __future__ import annotations

import random
import unittest

from frontend.design import fault_name, own_faults
from frontend.formats import read_design, read_netlist
from frontend.netlist import NetlistError
from frontend.tests.netlist_files import BENCH, C17, Files
from frontend.tests.netlist_sim import all_vectors, gate_values


class Bench(Files):
    def test_c17(self) -> None:
        self.same(C17)
        design = read_design(C17)
        self.assertEqual(design.inputs, ["N1", "N2", "N3", "N6", "N7"])
        self.assertEqual(design.outputs, [("N22", 8), ("N23", 10)])
        self.assertEqual([site.name for site in design.lines[5:]], ["N10", "N11", "N16", "N22", "N19", "N23"])
        self.assertEqual(own_faults(design), list(range(46)))
        self.assertEqual((fault_name(design, 17), fault_name(design, 40)), ("N19/N11 stuck-at-1, line 9, lead 8", "N22 stuck-at-0, line 8"))

    def test_dialects(self) -> None:
        path = self.put("\ufeff" + BENCH.replace("\n", "\r\n"))
        self.same(path)
        self.same(self.put(BENCH.replace("\n", "\r")))
        netlist = read_netlist(path)
        self.assertEqual([(each.kind, each.line) for each in netlist.cells][:5], [("NAND", 7), ("NOR", 8), ("XOR", 9), ("XNOR", 10), ("BUF", 12)])
        self.assertEqual(netlist.cells[3].inputs, ("p", "q", "r", "a"))
        self.same(self.put(b"# \xe9\xff\x00\nINPUT(a)\nOUTPUT(b)\nb = NOT(a)"))

    def test_refused(self) -> None:
        ports = "INPUT(a)\nOUTPUT(y)\n"
        for text, wanted in (
                ("y = DFF(a)", ":3: y: a flip-flop; cards are combinational"),
                ("y = LATCH(a, a)", ":3: y: a latch; cards are combinational"),
                ("y = MAJ(a, a, a)", ":3: y: MAJ: no gate that is known"),
                ("y = LUT 0x8 ( a, a )", ":3: y: a lookup table, and no gate; ABC writes gates by write_bench -l"),
                ("y = NOT(a, a)", ":3: y: NOT takes 1 input, and has 2"),
                ("y = AND()", ":3: y: AND without an input"),
                ("y = AND", ":3: y: AND without an input"),
                ("y = AND(a,,a)", ":3: y: no name between two commas of AND"),
                ("y = AND(a a)", ":3: y: not one name: a a"),
                ("y = AND(a, b)", ":3: y: it reads b, which nothing drives"),
                ("y AND(a)", ":3: no INPUT(a), OUTPUT(a) or a = GATE(b, ..): y AND(a)"),
                ("\ny = AND(a,", ":4: a bracket that is not closed: y = AND(a,"),
                ("y = NOT(a)\ny = BUF(a)", ":4: y: driven twice: by y, line 3"),
                ("y = NOT(a)\na = BUF(y)", ":4: a: driven twice: it is an input, line 1"),
                ("INPUT(a)\ny = NOT(a)", ":3: a: an input twice, line 1"),
                ("y = NOT(x)\nx = AND(a, y)", ":3: y: a loop of 2 cells, and cards are combinational: y <- x <- y"),
                ("y = NOT(a)\np = NOT(p)", ":4: p: a loop of 1 cell, and cards are combinational: p <- p"),
                ("", ":2: y: an output that nothing drives"),
                ("y = NOT(a\x01)", ":3: a name with characters that cannot be shown: a?")):
            with self.subTest(text):
                self.refused(ports + text, wanted)
        self.refused("INPUT(a)\nb = NOT(a)", ":1: no output; a card has at least one")
        self.refused("OUTPUT(y)\ny = VDD", ":1: no input; a card has at least one")

    def test_limits(self) -> None:
        gates = "".join(f"n{at} = NAND({'a' if not at else f'n{at - 1}'}, a)\n" for at in range(1100))
        self.refused(f"INPUT(a)\nOUTPUT(n1099)\n{gates}",
                     ":1026: inputs: 1, gates: 1,100, leads: 2,200; a card has at most 1,024 lines, of inputs and gates, and 4,096 leads")
        gates = gates.replace("NAND", "XOR")
        self.refused(f"INPUT(a)\nOUTPUT(n199)\n{gates}", ":173: lines: 1,201, 600 of them inside cells like XOR, leads: 2,000; "
                     "a card has at most 1,024 lines, of inputs and gates, and 4,096 leads")
        self.refused(f"INPUT(a)\nOUTPUT(y)\ny = AND(a{', a' * 4096})", ":3: y: 4,097 leads; a card has at most 4,096")
        many = "".join(f"INPUT(i{at})\n" for at in range(1024))
        self.refused(many + "OUTPUT(i0)", ":1024: inputs: 1,024; a card has at most 1,024 lines, of inputs and gates, and 4,096 leads")
        name = "n" * 100000
        self.refused(f"INPUT({name})\nOUTPUT({name})", f":1: a name of 100,000 characters; 1,000 are the most: {'n' * 40}..")

    def test_loop_of_many(self) -> None:
        gates = "".join(f"{'n' * 30}{at} = NOT({'n' * 30}{(at + 1) % 5000})\n" for at in range(5000))
        with self.assertRaisesRegex(NetlistError, r":3: n+0: a loop of 5,000 cells, and cards are combinational: n+.. <- "):
            read_design(self.put(f"INPUT(a)\nOUTPUT({'n' * 30}0)\n{gates}"))


class Blif(Files):
    HEAD = ".model m # one\n.inputs a \\\n b c\n.outputs y\n"

    def test_covers(self) -> None:
        """Random covers beside their truth."""
        rng = random.Random(7)
        for _ in range(300):
            rows = ["".join(rng.choice("01-") for _ in range(3)) for _ in range(rng.randint(0, 5))]
            value = rng.choice("01") if rows else "1"
            text = self.HEAD + ".names a b c y\n" + "".join(f"{row} {value}\n" for row in rows) + ".end\n"
            design = read_design(self.put(text, "t.blif"))
            given, ones = all_vectors(3)
            wanted = 0
            for row in rows:
                term = ones
                for each, bits in zip(row, given):
                    term &= ones if each == "-" else bits if each == "1" else ones ^ bits
                wanted |= term
            wanted ^= 0 if value == "1" else ones
            self.assertEqual(gate_values(design.words, given, ones)[design.outputs[0][1]], wanted, text)

    def test_kinds(self) -> None:
        for rows, wanted in (("11 1", "AND"), ("11 0", "NAND"), ("00 1", "NOR"), ("00 0", "OR"), ("1- 1\n-1 1", "OR"), ("1- 0\n-1 0", "NOR"),
                             ("0- 1\n-0 1", "NAND"), ("01 1\n10 1", "XOR"), ("01 0\n10 0", "XNOR"), ("11 1\n00 1", "XNOR"), ("10 1", ".names"),
                             ("-- 1", "CONST1"), ("", "CONST0"), ("-1 1", "AND")):
            netlist = read_netlist(self.put(f"{self.HEAD}.names a b y\n{rows}\n.end", "t.blif"))
            self.assertEqual(netlist.cells[0].kind, wanted, rows)

    def test_gates(self) -> None:
        path = self.put(self.HEAD + ".gate nand2 a=a b=b O=n\n.gate inv1 a=n O=m\n.gate one O=k\n.gate XOR3 A=m B=c C=k Y=x\n.barbuf x y\n.end",
                        "t.blif")
        self.same(path)
        self.assertEqual([each.kind for each in read_netlist(path).cells], ["NAND", "NOT", "CONST1", "XOR", "BUF"])

    def test_refused(self) -> None:
        for text, wanted in (
                (".latch a y re c 0", ":5: y: a flip-flop; cards are combinational"),
                (".latch a y ah c 0", ":5: y: a latch; cards are combinational"),
                (".subckt fa x=a y=y", ":5: .subckt fa x=a y=y: an instance of another model; flatten the design first"),
                (".gate aoi21 a1=a a2=b b=c O=y", ":5: y: aoi21: no gate that is known"),
                (".gate nand2b A=a B=b O=y", ":5: y: nand2b: no gate that is known"),
                (".gate nand2 A a", ":5: nand2: no pin=net, or the pin is there: A"),
                (".names a b y\n1 1", ":6: y: no row of 2 figures 0, 1 or - and of a 0 or 1: 1 1"),
                (".names a b y\n11 1\n00 0", ":5: y: a cover with rows for 0 and rows for 1"),
                ("11 1", ":5: no statement of BLIF: 11 1"),
                (".model n", ":5: a second model; flatten the design first"),
                (".wonder", ":5: .wonder: no statement that is known, or one that is cut")):
            self.refused(f"{self.HEAD}{text}\n.end\n", wanted, "t.blif")
        self.refused(f"{self.HEAD}.names a b y\n01 1\n", ":6: the file ends without .end", "t.blif")
        self.refused(f"{self.HEAD}.names a y\n1 1\n.end\n.names b y", ":8: .names after .end", "t.blif")


if __name__ == "__main__":
    unittest.main()
