"""Tests of names files, and of damaged files of every form."""

from __future__ import annotations

import json
import random
import unittest

from frontend.design import bare_design, fault_name, gates_text, give_names, graph_comment, node_comment, read_names, write_names
from frontend.errors import Told
from frontend.formats import is_netlist, read_design
from frontend.netlist import NetlistError
from frontend.tests.netlist_files import BENCH, C17, Files, yosys


class Names(Files):
    def test_both_ways(self) -> None:
        """A names file of a design gives the same names to its bare words."""
        design = yosys()
        design["modules"]["top"]["cells"]["#a %b"] = design["modules"]["top"]["cells"].pop("U608")
        for path in (C17, self.put(BENCH), self.put(json.dumps(design), "t.json")):
            made = read_design(path)
            names = read_names(self.put(write_names(made), "t.names"))
            for is_gates in (True, False):
                named = give_names(bare_design(path, made.words, is_gates), names)
                self.assertEqual((named.inputs, named.outputs, named.lines, named.leads), (made.inputs, made.outputs, made.lines, made.leads))

    def test_by_hand(self) -> None:
        card = [0, 0x20000001, 0x60000000, 0x80000001, 0x40000002, 0x60000001, 0x80000003, 0x60000000, 0x80000001]
        path = self.put("# card S\ninput 0 A\ngraph 1 hidden   # a comment\nnode 2 S/A @12 inside my cell\noutput 2 OUT\n", "s.names")
        design = give_names(bare_design("s.words", card, False), read_names(path))
        self.assertEqual((design.inputs, design.outputs, design.owners), (["A"], [("OUT", 2)], [1, 2, 2]))
        self.assertEqual([fault_name(design, fault) for fault in (0, 5, 6, 9, 10)], [
            "node 0 stuck-at-0, graph 1", "S/A stuck-at-1, graph 2, node 2, inside my cell", "A stuck-at-0, graph 0",
            "hidden stuck-at-1, graph 1", "graph 2 stuck-at-0"])
        self.assertEqual((graph_comment(design, 1), node_comment(design, 2), node_comment(design, 0)), ("hidden", "S/A, inside my cell", ""))

    def test_refused(self) -> None:
        bare = bare_design("c.gates", [0, 0, 0x40000002, 0x60000000, 0x60000001], True)
        for text, wanted in (
                ("line 0", ":1: no input, line, lead or output with a number and a name: line 0"),
                ("wire 0 a", ":1: no input, line, lead or output with a number and a name: wire 0 a"),
                ("line 0 a b", ":1: neither @ and a line nor `inside`: b"),
                ("line 1 a\ngraph 1 b", ":2: line 1 has a name already, in line 1"),
                ("lead 2 a", ":1: lead 2: c.gates has 2, from 0"),
                ("input 2 a", ":1: line 2 of c.gates is no input"),
                ("input 0 a\ninput 1 a", ":2: a: the name of inputs 0 and 1"),
                ("input 0 input1", ":1: input1: the name of inputs 0 and 1"),
                ("output 0 a", ":1: line 0 of c.gates is not observable")):
            path = self.put(text, "t.names")
            with self.assertRaises(Told) as caught:
                give_names(bare, read_names(path))
            self.assertEqual(str(caught.exception), path + wanted)


class Other(Files):
    def test_gates_text(self) -> None:
        design = read_design(C17)
        lines = gates_text(design).splitlines()
        self.assertEqual([int(line[:8], 16) for line in lines], design.words)
        self.assertEqual((lines[2], lines[8], lines[9]), ("00000000  # line 2, input: N3", "28000002  # line 6, NAND, hidden: N11",
                                                          "60000002  #   lead 2 names line 2: N11/N3"))

    def test_endings(self) -> None:
        self.assertEqual([name for name in ("a.bench", "a.BLIF", "a.json", "a.v", "a.sv", "a.words", "bench") if is_netlist(name)],
                         ["a.bench", "a.BLIF", "a.json", "a.v", "a.sv"])

    def test_damaged(self) -> None:
        """Whatever the bytes are, it is a message of one line or a netlist with the values of its cells."""
        rng = random.Random(11)
        sources = {"t.bench": BENCH, "t.json": json.dumps(yosys(), indent=1),
                   "t.blif": ".model m\n.inputs a b c\n.outputs y\n.names a b n\n01 1\n10 1\n.gate nand2 a=n b=c O=y\n.end\n",
                   "t.names": "line 0 a @2 inside b\noutput 1 y\n"}
        for _ in range(600):
            name = rng.choice(list(sources))
            data = bytearray(sources[name].encode())
            for _ in range(rng.randint(1, 4)):
                at, size = rng.randrange(len(data) + 1), rng.choice((1, 1, 3, 30))
                piece = rng.choice((b"", bytes(data[at:at + size]) * 2, bytes([rng.randrange(256)]), bytes(data[-at:size - at]), b"n" * 5000))
                data[at:at + size] = piece
            path = self.put(bytes(data), name)
            try:
                read_names(path) if name == "t.names" else self.same(path)
            except NetlistError as error:
                text = str(error)
                self.assertRegex(text, r"^.+?(:[0-9]+)?: .+$")
                self.assertTrue(text.isprintable() and len(text) < len(path) + 220, text)


if __name__ == "__main__":
    unittest.main()
