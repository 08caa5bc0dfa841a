"""For the tests of the readers of netlists: files of a moment, and small netlists."""

from __future__ import annotations

import json
import os
import tempfile
import unittest
from typing import Any, Union

from frontend.formats import read_design, read_netlist
from frontend.netlist import NetlistError
from frontend.tests.netlist_sim import all_vectors, gate_values, netlist_outputs

ROOT = os.path.dirname(os.path.dirname(os.path.dirname(os.path.abspath(__file__))))
C17 = os.path.join(ROOT, "examples", "c17.bench")

BENCH = """\
# all kinds, with CR LF and any case
INPUT(a)
input ( b )
INPUT(c)
OUTPUT(y)
Output(z)
p = nand(a, b)   # a comment
q=NOR(p,c)
r = xor(a, b, c)
s = XNOR(p, q, r,
         a)
t = BUFF(s)
u = Buf(t)
v = not(u)
w = And(v, a, b)
k = vdd
z = OR(w, k)
y = AND(r)
"""


def cell(kind: str, pins: dict[str, Any], **more: Any) -> dict[str, Any]:
    return {"hide_name": 0, "type": kind, "parameters": {}, "attributes": {}, "connections": {pin: [bit] for pin, bit in pins.items()}, **more}


def yosys() -> dict[str, Any]:
    """A small design as Yosys writes it."""
    return {"creator": "Yosys", "modules": {"top": {
        "attributes": {"top": "00000000000000000000000000000001", "src": "alu.v:1.1-9.10"},
        "ports": {
            "a": {"direction": "input", "bits": [2, 3]},
            "s": {"direction": "input", "bits": [4]},
            "y": {"direction": "output", "bits": [5, 6, "0", 2], "offset": 4},
            "z": {"direction": "output", "bits": [6]}},
        "cells": {
            "$abc$133$auto$blifparse.cc:396:parse_blif$134": cell("$_MUX_", {"A": 2, "B": 3, "S": 4, "Y": 5}, hide_name=1),
            "U608": cell("$_XOR_", {"A": 2, "B": 7, "Y": 6}, attributes={"src": "alu.v:5.9-5.14|alu.v:7.1"}),
            "U9": cell("$_AOI3_", {"A": 3, "B": 4, "C": "1", "Y": 7}),
            "scope": cell("$scopeinfo", {})},
        "netnames": {
            "a": {"hide_name": 0, "bits": [2, 3], "attributes": {"src": "alu.v:2.1"}},
            "$abc$133$new_n7_": {"hide_name": 1, "bits": [7], "attributes": {}}}}}}


class Files(unittest.TestCase):
    def setUp(self) -> None:
        self.folder = tempfile.TemporaryDirectory()
        self.addCleanup(self.folder.cleanup)

    def put(self, text: Union[str, bytes], name: str = "t.bench") -> str:
        path = os.path.join(self.folder.name, name)
        with open(path, "wb") as file:
            file.write(text.encode() if isinstance(text, str) else text)
        return path

    def refused(self, text: Union[str, bytes], wanted: str, name: str = "t.bench") -> None:
        """The message is the file, and then this."""
        path = self.put(text, name)
        with self.assertRaises(NetlistError) as caught:
            read_design(path)
        self.assertEqual(str(caught.exception), path + wanted)

    def refused_json(self, change: Any, wanted: str) -> None:
        """Of the small design with a change in its module. The line is that of the part which the message names."""
        design = yosys()
        change(design["modules"]["top"])
        text = json.dumps(design, indent=1)
        line = text[:text.index(f'"{wanted.partition(":")[0].partition("/")[0]}": ')].count("\n") + 1
        self.refused(text, f":{line}: {wanted}", "t.json")

    def same(self, path: str) -> None:
        """The gate list has the netlist's values."""
        netlist, design = read_netlist(path), read_design(path)
        given, ones = all_vectors(len(netlist.inputs))
        values = gate_values(design.words, given, ones)
        line = dict(design.outputs)
        self.assertEqual([values[line[name]] for name, _, _ in netlist.named_outputs()], netlist_outputs(netlist, given, ones))
