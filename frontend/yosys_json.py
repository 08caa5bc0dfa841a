"""Netlists in the JSON that Yosys writes (write_json): one module of gate cells."""

from __future__ import annotations

import re

from frontend.json_places import find_places
from frontend.netlist import Cell, Netlist, NetlistError, common_gate, listed, read_netlist_bytes, refusal, shown, unknown_cell

TYPE_CHECKING = False
if TYPE_CHECKING:
    from typing import Any

# The gate cells of Yosys: kind, and input pins in the order of frontend.recipes. The output pin is Y.
_GATES = {
    "$_AND_": ("AND", "AB"), "$_NAND_": ("NAND", "AB"), "$_OR_": ("OR", "AB"), "$_NOR_": ("NOR", "AB"), "$_XOR_": ("XOR", "AB"),
    "$_XNOR_": ("XNOR", "AB"), "$_NOT_": ("NOT", "A"), "$_BUF_": ("BUF", "A"), "$_ANDNOT_": ("ANDNOT", "AB"), "$_ORNOT_": ("ORNOT", "AB"),
    "$_MUX_": ("MUX", "ABS"), "$_NMUX_": ("NMUX", "ABS"), "$_AOI3_": ("AOI3", "ABC"), "$_OAI3_": ("OAI3", "ABC"),
    "$_AOI4_": ("AOI4", "ABCD"), "$_OAI4_": ("OAI4", "ABCD"),
}
# Cells that are remarks on a design, and no part of it.
_REMARKS = ("$scopeinfo",)
_MADE_UP = re.compile(r"\$(?:flatten((?:\\[^$]*\.)+)\$)?(?:.*\$)?([^$]+)")
_SOURCE = re.compile(r"(.+?):(\d{1,9})(?:\.\d+)?(?:-\d+(?:\.\d+)?)?")


def read_json(path: str, verilog: str = "") -> Netlist:
    """The netlist in a JSON file. Where that was made of a Verilog file for a moment, its lines are told by that file."""
    text, whole = _load(path)
    reader = _Reader(path, verilog, text, whole)
    reader.name_nets()
    inputs, outputs = reader.ports("input"), reader.ports("output")
    cells = [cell for name, value in reader.cells.items() for cell in reader.cell(name, value)]
    nets = tuple((reader.net(name, bit, line), line) for name, bit, line in outputs)
    notes = (f"top module: {shown(reader.module)}",) if verilog or len(reader.modules) > 1 else ()
    return Netlist(verilog or path, tuple((reader.names[bit], line) for _, bit, line in inputs), nets,
                   tuple(cells + reader.constants()), tuple(name for name, _, _ in outputs), notes)


def _load(path: str) -> tuple[str, Any]:
    import json
    data = read_netlist_bytes(path)
    try:
        text = data.decode("utf-8")
        return text, json.loads(text)
    except UnicodeDecodeError as error:
        raise refusal(path, data.count(b"\n", 0, error.start) + 1, "no JSON: a byte that is no UTF-8") from None
    except json.JSONDecodeError as error:
        raise refusal(path, error.lineno, f"no JSON: {error.msg}") from None
    except (RecursionError, MemoryError, ValueError):
        raise refusal(path, 1, "no netlist of Yosys: it is nested too deeply, or has a number that is too long") from None


def _hidden(name: str, value: dict[str, Any]) -> bool:
    """Whether Yosys made the name up."""
    return bool(value.get("hide_name", name.startswith("$")))


def _short(name: str) -> str:
    """$abc$133$auto$blifparse.cc:396:parse_blif$134 as $134, and $flatten\\u1.\\u2.$xor$alu.v:5$7_Y as u1.u2.$7_Y."""
    found = _MADE_UP.fullmatch(name)
    return (found[1] or "").replace("\\", "") + "$" + found[2] if found else name


class _Reader:
    """The top module of a JSON file, and names for its nets, which the file has as numbers."""

    def __init__(self, path: str, verilog: str, text: str, whole: Any) -> None:
        self.file = verilog or path
        self.verilog = verilog
        self.places, twice = find_places(text)
        if twice:
            raise refusal(self.file, twice[1], f"{shown(twice[0])}: the name is used twice")
        modules = self.part(whole, "modules", "no netlist of Yosys")
        self.modules = {name for name, module in modules.items() if not _is_box(module)}
        self.module = _top(self.file, modules)
        module = self.part(modules, self.module, self.module)
        self.all_ports = self.part(module, "ports", self.module)
        self.cells = self.part(module, "cells", self.module)
        self.netnames = self.part(module, "netnames", self.module) if "netnames" in module else {}
        self.names: dict[Any, str] = {}  # by bit
        self.used: set[str] = set()
        self.constant: dict[str, str] = {}  # the nets of 0 and 1, where they are read
        self.cell_names = {name for name, value in self.cells.items() if isinstance(value, dict) and not _hidden(name, value)}

    # ---- places and parts ----

    def line(self, *keys: str) -> int:
        """The line of the JSON file, or 0 where nobody sees that."""
        return 0 if self.verilog else self.places.get(("modules", self.module, *keys), 1)

    def wrong(self, keys: tuple[str, ...], text: str) -> NetlistError:
        name = f"{shown(keys[-1])}: " if keys else ""
        return refusal(self.file, self.line(*keys), name + text)

    def part(self, value: Any, key: str, what: str) -> dict[str, Any]:
        found = value.get(key) if isinstance(value, dict) else None
        if not isinstance(found, dict):
            raise refusal(self.file, 1, f"{shown(what)}: no {shown(key)}, or it is no object of JSON")
        return found

    def source(self, value: dict[str, Any], line: int) -> tuple[str, int]:
        """The file and line that an src attribute tells, else '' and the line of the JSON file."""
        attributes = value.get("attributes")
        text = attributes.get("src") if isinstance(attributes, dict) else None
        found = _SOURCE.fullmatch(text.split("|")[0]) if isinstance(text, str) else None
        if not found or not found[1].isprintable():
            return "", line
        return ("" if found[1] == self.verilog else found[1]), int(found[2])

    # ---- nets ----

    def bits(self, keys: tuple[str, ...], value: Any) -> list[tuple[str, Any]]:
        """The bits of a port or a net, with names."""
        bits = value.get("bits") if isinstance(value, dict) else None
        if not isinstance(bits, list) or not all(type(bit) in (int, str) for bit in bits):
            raise self.wrong(keys, "no bits, which are a list of numbers and of \"0\" and \"1\"")
        if len(bits) == 1:
            return [(keys[-1], bits[0])]
        offset, upto = value.get("offset", 0), value.get("upto", 0)
        if type(offset) is not int or type(upto) is not int:
            raise self.wrong(keys, "an offset or upto that is no number")
        return [(f"{keys[-1]}[{offset + (len(bits) - 1 - at if upto else at)}]", bit) for at, bit in enumerate(bits)]

    def name_nets(self) -> None:
        """A net has the name of its input, else of its output, else a name of the design, else one that Yosys made up."""
        sections: list[list[tuple[str, Any]]] = [[], [], [], []]
        for name, value in self.all_ports.items():
            sections[0 if isinstance(value, dict) and value.get("direction") == "input" else 1] += self.bits(("ports", name), value)
        for name, value in self.netnames.items():
            bits = self.bits(("netnames", name), value)
            hidden = _hidden(name, value)
            sections[2 + hidden] += [(_short(each) if hidden else each, bit) for each, bit in bits]
        for each in sections:
            for name, bit in each:
                self.give_name(name, bit)

    def give_name(self, name: str, bit: Any) -> None:
        """Two nets never have one name."""
        if bit in self.names or type(bit) is not int:
            return
        while name in self.used:
            name += f"${bit}"
        self.used.add(name)
        self.names[bit] = name

    def net(self, name: str, bit: Any, line: int) -> str:
        """The net of a bit, which a pin or an output is on. The constants are nets too."""
        if type(bit) is int:
            self.give_name(f"${bit}", bit)
            return self.names[bit]
        if bit not in ("0", "1"):
            why = f"the value {shown(bit)}: nothing drives it, or the design leaves it open"
            raise refusal(self.file, line, f"{shown(name)}: {why}")
        if bit not in self.constant:
            self.constant[bit] = self.unused(f"constant{bit}", self.used)
        return self.constant[bit]

    def unused(self, name: str, among: set[str]) -> str:
        while name in among:
            name += "$"
        among.add(name)
        return name

    def constants(self) -> list[Cell]:
        return [Cell(self.unused(net, self.cell_names), f"CONST{bit}", net, (), (), 0) for bit, net in sorted(self.constant.items())]

    # ---- ports and cells ----

    def ports(self, direction: str) -> list[tuple[str, Any, int]]:
        """The bits of the ports of one direction: name, bit and line."""
        found = []
        for name, value in self.all_ports.items():
            keys = ("ports", name)
            if value.get("direction") not in ("input", "output"):
                raise self.wrong(keys, f"a port that is {shown(str(value.get('direction')))}; cards have inputs and outputs")
            if value["direction"] != direction:
                continue
            line = self.source(self.netnames.get(name, {}), 0)[1] if self.verilog else self.line(*keys)
            for each, bit in self.bits(keys, value):
                if direction == "input" and type(bit) is not int:
                    raise self.wrong(keys, f"an input that is the constant {shown(bit)}")
                found.append((each, bit, line))
        return found

    def cell(self, name: str, value: Any) -> list[Cell]:
        """A cell, or none for a remark. One whose name Yosys made up has the name of its net."""
        keys = ("cells", name)
        kind = value.get("type") if isinstance(value, dict) else None
        pins = value.get("connections") if isinstance(value, dict) else None
        if not isinstance(kind, str) or not isinstance(pins, dict):
            raise self.wrong(keys, "a cell without a type or connections")
        if kind in _REMARKS:
            return []
        file, line = self.source(value, self.line(*keys))
        gate, inputs, output = self.gate(name, value, kind, (file or self.file, line))
        self.check_pins(keys, value, inputs, output)
        nets = {pin: self.net(f"{shown(name)}/{pin}", self.bit(keys, pin, bits), self.line(*keys)) for pin, bits in pins.items()}
        if nets[output] in self.constant.values():
            raise self.wrong(keys, "it drives a constant")
        if _hidden(name, value):
            net = nets[output]
            name = self.unused(net if net not in self.cell_names else _short(name), self.cell_names)
        return [Cell(name, gate, nets[output], tuple(nets[pin] for pin in inputs), tuple(inputs), line, (), file)]

    def check_pins(self, keys: tuple[str, ...], value: dict[str, Any], inputs: list[str], output: str) -> None:
        """The pins are those of the gate, and where their directions are told these are too."""
        if {*inputs, output} != set(value["connections"]):
            raise self.wrong(keys, f"{shown(value['type'])} with other pins than {listed([*inputs, output], 9)}")
        directions = value.get("port_directions", {})
        wanted = {**dict.fromkeys(inputs, "input"), output: "output"}
        if not isinstance(directions, dict) or any(wanted.get(pin) != each for pin, each in directions.items()):
            raise self.wrong(keys, f"{shown(value['type'])} with other directions of its pins")

    def bit(self, keys: tuple[str, ...], pin: str, bits: Any) -> Any:
        if not isinstance(bits, list) or len(bits) != 1 or type(bits[0]) not in (int, str):
            raise self.wrong(keys, f"pin {shown(pin)} is not on one bit")
        return bits[0]

    def gate(self, name: str, value: dict[str, Any], kind: str, place: tuple[str, int]) -> tuple[str, list[str], str]:
        """A cell's kind, input pins and output pin."""
        if kind in _GATES:
            return _GATES[kind][0], list(_GATES[kind][1]), "Y"
        common = None if kind in self.modules else common_gate(kind, value["connections"])
        if common:
            return common[0], [pin for pin in value["connections"] if pin != common[1]], common[1]
        raise refusal(*place, f"{shown(self.told_name(name, value))}: {self.why_no_gate(kind)}")

    def told_name(self, name: str, value: dict[str, Any]) -> str:
        """A cell's name, or where Yosys made it up that of the net on an output pin."""
        if not _hidden(name, value):
            return name
        directions = value.get("port_directions")
        for pin, bits in value["connections"].items():
            if isinstance(directions, dict) and directions.get(pin) == "output" and isinstance(bits, list) and len(bits) == 1:
                return self.names.get(bits[0], _short(name)) if type(bits[0]) is int else _short(name)
        return _short(name)

    def why_no_gate(self, kind: str) -> str:
        if kind in self.modules:
            return f"an instance of module {shown(kind)}; run flatten before write_json"
        text = unknown_cell(kind)
        if "known" in text and re.match(r"\$[a-z]", kind):
            return f"{shown(kind)}, a word-level cell; run techmap or simplemap before write_json"
        return text


def _marked(module: Any, key: str) -> bool:
    """Whether an attribute is set, be it a number or a text of figures."""
    attributes = module.get("attributes") if isinstance(module, dict) else None
    value = attributes.get(key) if isinstance(attributes, dict) else None
    return value is not None and str(value).strip("0") != ""


def _is_box(module: Any) -> bool:
    """A module of which only the ports are known."""
    return _marked(module, "blackbox") or _marked(module, "whitebox")


def _top(path: str, modules: dict[str, Any]) -> str:
    """The module that is marked as top, or the only one."""
    tops = [name for name, module in modules.items() if _marked(module, "top")]
    found = tops or [name for name, module in modules.items() if not _is_box(module)]
    if len(found) == 1:
        return found[0]
    why = f"{len(found):,} modules, of which one has to be marked as top (hierarchy -auto-top): {listed(found)}"
    raise refusal(path, 1, why if found else "no module")
