"""Tests of netlists as gate lists: every value, and every fault of a pin and of a net, beside a simulation of the netlist itself."""

from __future__ import annotations

import ctypes
import os
import random
import shutil
import subprocess
import tempfile
import unittest
from collections import Counter

from frontend import build
from frontend.design import Design, fault_name, fault_site, own_faults
from frontend.netlist import Cell, Netlist, NetlistError, lower
from frontend.recipes import FUNCTIONS
from frontend.tests.netlist_sim import all_vectors, gate_values, netlist_outputs, random_netlist
from frontend.wiring import pin_name

ROOT = os.path.dirname(os.path.dirname(os.path.dirname(os.path.abspath(__file__))))
ARCHIVE = os.environ.get("CARDHOST_LIB") or os.path.join(ROOT, build.ARCHIVE.file)


def kept_cells(netlist: Netlist) -> list[Cell]:
    """The cells that outputs depend on."""
    cells = {cell.output: cell for cell in netlist.cells}
    due = [net for net, _ in netlist.outputs]
    kept: dict[str, Cell] = {}
    while due:
        net = due.pop()
        if net in cells and net not in kept:
            kept[net] = cells[net]
            due += cells[net].inputs
    return list(kept.values())


def counted_faults(design: Design) -> set[int]:
    """Those that count in the grade of the card: all but those of a line that is not observable and has one lead."""
    readers = Counter(word & 0xFFFF for word in design.words if word >> 29 == 3)
    kinds = [word >> 29 for word in design.words if word >> 29 < 3]
    leads = len(design.leads)
    alone = {leads + line for line, kind in enumerate(kinds) if kind != 2 and readers[line] == 1}
    return {fault for fault in range(2 * leads + 2 * len(kinds)) if fault // 2 not in alone}


def counted_in_netlist(netlist: Netlist) -> int:
    """The same by the netlist alone: two of each pin, and two of each net that is an output or has not exactly one pin, but for
    constants and for inputs that nothing reads."""
    kept = kept_cells(netlist)
    pins = Counter(net for cell in kept for net in cell.inputs)
    outputs = {net for net, _ in netlist.outputs}
    nets = [cell.output for cell in kept if not cell.kind.startswith("CONST")]
    nets += [net for net, _ in netlist.inputs if net in pins or net in outputs]
    return 2 * sum(pins.values()) + 2 * sum(net in outputs or pins[net] != 1 for net in nets)


class Simulated(unittest.TestCase):
    """Random netlists under all vectors."""

    def setUp(self) -> None:
        self.rng = random.Random(31)

    def outputs(self, netlist: Netlist, design: Design, values: list[int]) -> list[int]:
        """The outputs' values in the order of the netlist, where a name may come twice."""
        line = dict(design.outputs)
        return [values[line[net]] for net, _ in netlist.outputs]

    def test_values(self) -> None:
        for _ in range(400):
            netlist = random_netlist(self.rng)
            design = lower(netlist)
            given, ones = all_vectors(len(netlist.inputs))
            values = gate_values(design.words, given, ones)
            self.assertEqual(self.outputs(netlist, design, values), netlist_outputs(netlist, given, ones))

    def test_faults(self) -> None:
        """Each pin's and each net's faults, by the site that has the name."""
        for _ in range(60):
            netlist = random_netlist(self.rng, 5, 15)
            design = lower(netlist)
            given, ones = all_vectors(len(netlist.inputs))
            sites = {fault_site(design, fault).name: fault for fault in own_faults(design) if fault % 2 == 0}
            for cell in kept_cells(netlist):
                for at in range(len(cell.inputs)):
                    for value in (0, 1):
                        found = gate_values(design.words, given, ones, sites[pin_name(cell, at)] + value)
                        wanted = netlist_outputs(netlist, given, ones, ("", value), (cell.name, at))
                        self.assertEqual(self.outputs(netlist, design, found), wanted, (netlist, pin_name(cell, at), value))
            self.check_nets(netlist, design, sites)

    def check_nets(self, netlist: Netlist, design: Design, sites: dict[str, int]) -> None:
        given, ones = all_vectors(len(netlist.inputs))
        nets = [net for net, _ in netlist.inputs] + [cell.output for cell in kept_cells(netlist) if not cell.kind.startswith("CONST")]
        for net in nets:
            for value in (0, 1):
                wanted = netlist_outputs(netlist, given, ones, (net, value))
                if net not in sites:  # it stays out: nothing reads it, or a constant is made of it
                    self.assertTrue(design.lines[design.inputs.index(net)].inside)
                    continue
                found = gate_values(design.words, given, ones, sites[net] + value)
                self.assertEqual(self.outputs(netlist, design, found), wanted, (netlist, net, value))

    def test_counted(self) -> None:
        """The netlist's own faults that count in the grade are those that count by the netlist alone."""
        for _ in range(400):
            netlist = random_netlist(self.rng)
            design = lower(netlist)
            own = set(own_faults(design)) & counted_faults(design)
            self.assertEqual(len(own), counted_in_netlist(netlist), netlist)

    def test_form(self) -> None:
        """Inputs first, leads on earlier lines, a site for each lead and line."""
        for _ in range(100):
            netlist = random_netlist(self.rng)
            design = lower(netlist)
            headers = [word for word in design.words if word >> 29 < 3]
            leads = [word & 0xFFFF for word in design.words if word >> 29 == 3]
            self.assertEqual((len(headers), len(leads)), (len(design.lines), len(design.leads)))
            self.assertEqual([word == 0 for word in headers], [at < len(design.inputs) for at in range(len(headers))])
            self.assertTrue(all(line < owner for line, owner in zip(leads, design.owners)))
            self.assertEqual({line for _, line in design.outputs}, {at for at, word in enumerate(headers) if word >> 29 == 2})


class Parts(unittest.TestCase):
    """What single cells become."""

    def design(self, *cells: Cell, inputs: str = "abc", outputs: str = "y") -> Design:
        return lower(Netlist("n", tuple((net, 1) for net in inputs), tuple((net, 2) for net in outputs), cells))

    def gates(self, design: Design) -> list[str]:
        return [FUNCTIONS[word >> 26 & 7] for word in design.words if word >> 29 in (1, 2)]

    def test_xor(self) -> None:
        design = self.design(Cell("U608", "XOR", "y", ("a", "b"), ("A", "B"), 7), inputs="ab")
        self.assertEqual(self.gates(design), ["BUF", "BUF", "NAND", "NAND", "NAND", "NAND"])
        self.assertEqual([site.name for site in design.lines], ["a", "b", "U608/A", "U608/B", "U608.1", "U608.2", "U608.3", "y"])
        self.assertEqual([site.inside for site in design.lines], [""] * 4 + ["XOR U608"] * 3 + [""])
        self.assertEqual({site.inside for site in design.leads}, {"XOR U608"})
        self.assertEqual(len(own_faults(design)), 10)
        self.assertEqual(fault_name(design, 2 * 10 + 2 * 2 + 1), "U608/A stuck-at-1, line 2")
        self.assertEqual(fault_name(design, 5), "U608.1/1 stuck-at-1, line 4, lead 2, inside XOR U608")

    def test_xnor_of_three(self) -> None:
        design = self.design(Cell("U", "XNOR", "y", ("a", "b", "c"), ("",) * 3, 1))
        self.assertEqual(self.gates(design), ["BUF"] * 3 + ["NAND"] * 7 + ["AND"])

    def test_one_lead(self) -> None:
        for kind, gate in (("AND", "BUF"), ("OR", "BUF"), ("XOR", "BUF"), ("NAND", "NOT"), ("NOR", "NOT"), ("XNOR", "NOT")):
            self.assertEqual(self.gates(self.design(Cell("U", kind, "y", ("a",), ("",), 1))), [gate])

    def test_pin_names(self) -> None:
        design = self.design(Cell("y", "NAND", "y", ("a", "b", "a"), ("",) * 3, 4))
        self.assertEqual([site.name for site in design.leads], ["y/a", "y/b", "y/a(2)"])
        self.assertEqual(fault_name(design, 4), "y/a(2) stuck-at-0, line 3, lead 2")

    def test_outputs(self) -> None:
        design = self.design(Cell("y", "AND", "y", ("a", "b"), ("", ""), 4), outputs="ayya")
        self.assertEqual(design.outputs, [("a", 4), ("y", 3)])
        self.assertEqual(design.notes, [
            "inputs that no output depends on, their faults left out: 1: c", "output a is an input: a BUF line of its own",
            "output y is named twice: one line", "output a is named twice: one line"])
        self.assertEqual((design.lines[4].inside, design.lines[2].inside), ("output a", "an unread input"))
        netlist = Netlist("n", (("a", 1),), (("a", 2), ("a", 3)), (), ("p", "q"))
        design = lower(netlist)
        self.assertEqual((design.outputs, design.lines[1].name, design.lines[1].inside), ([("p", 1), ("q", 1)], "p", ""))

    def test_constants(self) -> None:
        design = self.design(Cell("k", "CONST1", "k", (), (), 3), Cell("y", "AND", "y", ("a", "k"), ("", ""), 4), inputs="a")
        self.assertEqual(self.gates(design), ["NOT", "OR", "AND"])
        self.assertEqual([site.inside for site in design.lines], ["the net of y/a", "constant", "constant", ""])
        self.assertEqual([site.inside for site in design.leads], ["constant"] * 3 + ["", ""])

    def test_left_out(self) -> None:
        design = self.design(Cell("y", "AND", "y", ("a", "b", "c"), ("",) * 3, 4), Cell("p", "NOT", "p", ("y",), ("",), 5),
                             Cell("q", "NOT", "q", ("p",), ("",), 6))
        self.assertEqual(self.gates(design), ["AND"])
        self.assertEqual(design.notes, ["gates that no output depends on, left out: 2: p, q"])

    def test_deep(self) -> None:
        cells = [Cell(f"n{at}", "NOT", f"n{at}", (f"n{at - 1}" if at else "a",), ("",), at + 1) for at in range(1022)]
        design = lower(Netlist("n", (("a", 1),), (("n1021", 1),), tuple(reversed(cells))))
        self.assertEqual(len(design.lines), 1023)
        with self.assertRaisesRegex(NetlistError, "1,024 lines"):
            more = [Cell(f"m{at}", "NOT", f"m{at}", (f"m{at - 1}" if at else "a",), ("",), at + 1) for at in range(50000)]
            lower(Netlist("n", (("a", 1),), (("m49999", 1),), tuple(more)))


@unittest.skipUnless(os.path.exists(ARCHIVE) and shutil.which("gcc"), "the archive is not built, or there is no gcc")
class Archive(unittest.TestCase):
    """The proved call takes every gate list that is made, and its grading is that of the netlist."""

    folder: tempfile.TemporaryDirectory[str]
    calls: ctypes.CDLL

    @classmethod
    def setUpClass(cls) -> None:
        cls.folder = tempfile.TemporaryDirectory()
        made = os.path.join(cls.folder.name, "libcardhost.so")
        subprocess.run(["gcc", "-shared", "-o", made, "-Wl,--whole-archive", ARCHIVE, "-Wl,--no-whole-archive"], check=True)
        cls.calls = ctypes.CDLL(made)

    @classmethod
    def tearDownClass(cls) -> None:
        cls.folder.cleanup()

    def call(self, name: str, *given: list[int], room: tuple[int, ...]) -> tuple[int, list[list[int]]]:
        call = getattr(self.calls, name)
        call.restype = ctypes.c_uint64
        buffers = [ctypes.create_string_buffer(4 * each) for each in room]
        texts = [b"".join(word.to_bytes(4, "big") for word in words) for words in given]
        arguments = [part for text in texts for part in (text, ctypes.c_size_t(len(text)))]
        lent = [part for buffer in buffers for part in (buffer, ctypes.c_size_t(len(buffer)))]
        answer = call(*arguments, *lent)
        return answer, [[int.from_bytes(each.raw[at:at + 4], "big") for at in range(0, len(each), 4)] for each in buffers]

    def test_graded(self) -> None:
        rng = random.Random(5)
        for _ in range(60):
            netlist = random_netlist(rng)
            design = lower(netlist)
            answer, (card,) = self.call("card_from_gates", design.words, room=(9216,))
            self.assertEqual(answer, len(design.lines) + 2 * len(design.leads))
            faults = 2 * len(design.lines) + 2 * len(design.leads)
            given, ones = all_vectors(len(netlist.inputs))
            vectors = [0xA0000000 | vector for vector in range(ones.bit_length())]
            answer, (_, tallies) = self.call("card_grade", card[:answer], vectors, room=(faults, faults))
            self.assertLess(answer, 1 << 32)
            good = netlist_outputs(netlist, given, ones)
            for cell in kept_cells(netlist):
                for at in range(len(cell.inputs)):
                    self.check_pin(netlist, design, cell, at, tallies, good)

    def check_pin(self, netlist: Netlist, design: Design, cell: Cell, at: int, tallies: list[int], good: list[int]) -> None:
        given, ones = all_vectors(len(netlist.inputs))
        sites = {fault_site(design, fault).name: fault for fault in own_faults(design) if fault % 2 == 0}
        for value in (0, 1):
            with_fault = netlist_outputs(netlist, given, ones, ("", value), (cell.name, at))
            caught = 0
            for one, other in zip(good, with_fault):
                caught |= one ^ other
            self.assertEqual(tallies[sites[pin_name(cell, at)] + value], bin(caught).count("1"))


if __name__ == "__main__":
    unittest.main()
