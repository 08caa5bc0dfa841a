"""Tests of netlists in the JSON of Yosys, and of Verilog with a stand-in for Yosys."""

from __future__ import annotations

import json
import os
import unittest
from typing import Any
from unittest import mock

from frontend import verilog
from frontend.errors import Failed
from frontend.formats import read_design
from frontend.netlist import NetlistError
from frontend.tests.netlist_files import Files, cell, yosys
from frontend.tests.netlist_sim import all_vectors, cell_value, gate_values


class YosysJson(Files):
    def test_design(self) -> None:
        path = self.put(json.dumps(yosys(), indent=1), "t.json")
        self.same(path)
        design = read_design(path)
        self.assertEqual(design.inputs, ["a[0]", "a[1]", "s"])
        self.assertEqual([name for name, _ in design.outputs], ["y[4]", "y[5]", "y[6]", "y[7]", "z"])
        names = [site.name for site in design.lines]
        self.assertEqual(names[3:6], ["y[4]/S", "y[4].1", "y[4].2"])
        xor = design.lines[names.index("U608/A")]
        self.assertEqual((xor.file, xor.line), ("alu.v", 5))
        self.assertIn("$new_n7_", names)
        self.assertIn("U9/C", [site.name for site in design.leads])
        self.assertIn("outputs y[5] and z are one line", design.notes)

    def test_cells(self) -> None:
        """Each gate cell beside its truth function."""
        for kind, pins in (("AND", 2), ("NAND", 2), ("OR", 2), ("NOR", 2), ("XOR", 2), ("XNOR", 2), ("NOT", 1), ("BUF", 1), ("ANDNOT", 2),
                           ("ORNOT", 2), ("MUX", 3), ("NMUX", 3), ("AOI3", 3), ("OAI3", 3), ("AOI4", 4), ("OAI4", 4)):
            names = ["A", "B", "S" if "MUX" in kind else "C", "D"][:pins]
            module = {"ports": {"i": {"direction": "input", "bits": list(range(2, 2 + pins))}, "y": {"direction": "output", "bits": [9]}},
                      "cells": {"U1": cell(f"$_{kind}_", {**{pin: at + 2 for at, pin in enumerate(names)}, "Y": 9})}}
            design = read_design(self.put(json.dumps({"modules": {"m": module}}), "t.json"))
            given, ones = all_vectors(pins)
            values = gate_values(design.words, given, ones)
            self.assertEqual(values[design.outputs[0][1]], cell_value(kind, given, ones), kind)

    def test_library_cells(self) -> None:
        def change(module: Any) -> None:
            module["cells"]["U9"] = cell("NAND2_X1", {"B": 3, "ZN": 7, "A": 4})
        design = yosys()
        change(design["modules"]["top"])
        design["modules"]["NAND2_X1"] = {"attributes": {"blackbox": 1}, "ports": {}, "cells": {}}
        path = self.put(json.dumps(design), "t.json")
        self.same(path)
        self.assertIn("U9/A", [site.name for site in read_design(path).leads])

    def test_refused(self) -> None:
        def put(kind: str, pins: Any, directions: Any = {}) -> Any:
            return lambda module: module["cells"].__setitem__("U17", cell(kind, pins, port_directions=directions))

        def port(value: Any) -> Any:
            return lambda module: module["ports"].update(b=value)

        both = {"D": 2, "C": 3, "Q": 9}
        for change, wanted in (
                (put("$_DFF_P_", both), "U17: a flip-flop; cards are combinational"),
                (put("$dff", both), "U17: a flip-flop; cards are combinational"),
                (put("$_SDFFCE_PP0P_", both), "U17: a flip-flop; cards are combinational"),
                (put("$_DLATCH_P_", both), "U17: a latch; cards are combinational"),
                (put("$mem_v2", both), "U17: a memory; cards are combinational"),
                (put("$_TBUF_", both), "U17: a tristate driver; cards have none"),
                (put("$add", both), "U17: $add, a word-level cell; run techmap or simplemap before write_json"),
                (put("top", both), "U17: an instance of module top; run flatten before write_json"),
                (put("WONDER", both), "U17: WONDER: no gate that is known"),
                (put("$_AND_", {"A": 2, "B": "x", "Y": 9}), "U17/B: the value x: nothing drives it, or the design leaves it open"),
                (put("$_AND_", {"A": 2, "Y": 9}), "U17: $_AND_ with other pins than A, B, Y"),
                (put("$_AND_", {"A": 2, "B": 3, "Y": 9}, {"A": "output"}), "U17: $_AND_ with other directions of its pins"),
                (put("$_AND_", {"A": 2, "B": [1], "Y": 9}), "U17: pin B is not on one bit"),
                (put("$_AND_", {"A": 2, "B": True, "Y": 9}), "U17: pin B is not on one bit"),
                (put("$_AND_", {"A": 2, "B": 3, "Y": "1"}), "U17: it drives a constant"),
                (put("$_AND_", {"A": 2, "B": 3, "Y": 6}), "U17: y[5] is driven twice: by U608, line 5"),
                (put("$_AND_", {"A": 2, "B": 12, "Y": 9}), "U17: it reads $12, which nothing drives"),
                (port({"direction": "inout", "bits": [9]}), "b: a port that is inout; cards have inputs and outputs"),
                (port({"direction": "input", "bits": ["0"]}), "b: an input that is the constant 0"),
                (port({"direction": "input", "bits": 7}), "b: no bits, which are a list of numbers and of \"0\" and \"1\"")):
            self.refused_json(change, wanted)

    def test_made_up_names(self) -> None:
        """A cell that Yosys named goes by its net."""
        design = yosys()
        top = design["modules"]["top"]
        top["netnames"]["$flatten\\u1.\\u2.$xor$alu.v:5$7_Y"] = {"hide_name": 1, "bits": [9]}
        top["cells"]["$procdff$4"] = cell("$_NOT_", {"A": 2, "Y": 9}, hide_name=1, port_directions={"A": "input", "Y": "output"})
        top["ports"]["o"] = {"direction": "output", "bits": [9]}
        path = self.put(json.dumps(design), "t.json")
        self.assertIn("o/A", [site.name for site in read_design(path).leads])
        top["ports"].pop("o")
        top["cells"]["U1"] = cell("BUF", {"A": 9, "Y": 12})
        top["ports"]["p"] = {"direction": "output", "bits": [12]}
        path = self.put(json.dumps(design), "t.json")
        self.assertIn("u1.u2.$7_Y/A", [site.name for site in read_design(path).leads])
        top["cells"]["$procdff$4"]["type"] = "$_DFF_P_"
        with self.assertRaisesRegex(NetlistError, r": u1\.u2\.\$7_Y: a flip-flop; cards are combinational$"):
            read_design(self.put(json.dumps(design), "t.json"))

    def test_places(self) -> None:
        def change(module: Any) -> None:
            module["cells"]["U608"]["type"] = "$_DFF_P_"
        design = yosys()
        change(design["modules"]["top"])
        with self.assertRaises(NetlistError) as caught:
            read_design(self.put(json.dumps(design), "t.json"))
        self.assertEqual(str(caught.exception), "alu.v:5: U608: a flip-flop; cards are combinational")

    def test_no_json(self) -> None:
        self.refused("[" * 100000, ":1: no netlist of Yosys: it is nested too deeply, or has a number that is too long", "t.json")
        self.refused('{"modules": {}}', ":1: no module", "t.json")
        self.refused('{"modules": {"m": {"ports": {}, "cells": []}}}', ":1: m: no cells, or it is no object of JSON", "t.json")
        self.refused('{"modules": {"a": {}, "b": {}}}', ":1: 2 modules, of which one has to be marked as top (hierarchy -auto-top): a, b", "t.json")
        self.refused('{"modules":\n {"a": 1,\n "a": 2}}', ":3: a: the name is used twice", "t.json")
        self.refused("\n{", ":2: no JSON: Expecting property name enclosed in double quotes", "t.json")
        self.refused(b"\n\xff", ":2: no JSON: a byte that is no UTF-8", "t.json")
        for text in ("", "7", "null", '{"modules": 1' + "0" * 5000 + "}", '{"modules": {"\\ud800": {"ports": {"\\ud800": 1}, "cells": {}}}}'):
            with self.assertRaises(NetlistError):
                read_design(self.put(text, "t.json"))


class Verilog(Files):
    def test_no_yosys(self) -> None:
        with mock.patch.dict(os.environ, {"PATH": self.folder.name}), self.assertRaisesRegex(Failed, "^alu.v: Verilog wants Yosys, .*install"):
            verilog.read_verilog("alu.v")

    def stand_in(self, text: str) -> None:
        """A program in the place of Yosys."""
        path = self.put("#!/bin/sh\n" + text, "yosys")
        os.chmod(path, 0o755)
        patch = mock.patch.dict(os.environ, {"PATH": self.folder.name + os.pathsep + os.environ["PATH"]})
        patch.start()
        self.addCleanup(patch.stop)

    def test_yosys(self) -> None:
        """The program gets the file's name as it is, and lines are those of the Verilog file."""
        made = self.put(json.dumps(yosys()).replace("alu.v", self.folder.name + "/a; b.v"), "made")
        path = self.put("module", "a; b.v")
        self.stand_in(f'for last; do :; done; [ "$last" = "{path}" ] && [ "$8" = -o ] && cp "{made}" "$9"')
        design = read_design(path)
        self.assertEqual(design.file, path)
        lines = {site.name: site for site in design.lines}
        self.assertEqual((lines["U608/A"].file, lines["U608/A"].line, lines["a[0]"].line), ("", 5, 2))

    def test_yosys_fails(self) -> None:
        path = self.put("module", "a.v")
        self.stand_in(f'echo "Warning: w"; echo "{path}:1: ERROR: syntax error, unexpected end" >&2; exit 1')
        with self.assertRaises(NetlistError) as caught:
            read_design(path)
        self.assertEqual(str(caught.exception), path + ":1: ERROR: syntax error, unexpected end")


if __name__ == "__main__":
    unittest.main()
