"""A reader of the tests' own for the JSON that Yosys writes. What it gives is netsim's form; a cell is worked out by its truth function.

Names are given as docs/NETLISTS.md has them, since places of the front end's gate list are found by their names.
"""
import json
import re
from typing import Any, Dict, List, Tuple

from netcells import CELLS, library_cell
from netsim import Bad, Gate, Net, make, one, zero

Names = Dict[str, str]  # a name of a net, and the net that it names


def unique(pairs: List[Tuple[str, Any]]) -> Dict[str, Any]:
    """An object whose keys differ: of two equal ones the first would be lost without a word."""
    made = dict(pairs)
    if len(made) < len(pairs):
        raise Bad(0, "a key twice")
    return made


def a_table(value: Any) -> Dict[str, Any]:
    if not isinstance(value, dict):
        raise Bad(0, "no object")
    return value


def a_net(bit: Any) -> str:
    """A bit: a net by its number, or a constant."""
    if type(bit) is int:
        return str(bit)
    if isinstance(bit, str) and bit in ("0", "1"):
        return f"constant {bit}"
    raise Bad(0, f"{bit!r}: no bit")


def bits_of(value: Any) -> List[str]:
    if not isinstance(value, list):
        raise Bad(0, "no bits")
    return [a_net(bit) for bit in value]


def top_module(whole: Any) -> Dict[str, Any]:
    """The one that is marked as top, or the only one that is no empty box."""
    modules = a_table(a_table(whole).get("modules"))
    tops = [module for module in modules.values() if marked(module, "top")]
    whole_ones = [module for module in modules.values() if is_whole(module)]
    if len(tops or whole_ones) != 1:
        raise Bad(0, "no one top module")
    return a_table((tops or whole_ones)[0])


def is_whole(module: Any) -> bool:
    """Whether it is there, and no empty box."""
    return module is not None and not marked(module, "blackbox") and not marked(module, "whitebox")


def marked(module: Any, attribute: str) -> bool:
    attributes = module.get("attributes") if isinstance(module, dict) else None
    value = attributes.get(attribute) if isinstance(attributes, dict) else None
    return value is not None and set(str(value)) - {"0"} != set()


def check_entries(module: Dict[str, Any]) -> None:
    """Ports and names of nets have bits, and those of several bits numbers for them."""
    for entry in [*module["ports"].values(), *module.get("netnames", {}).values()]:
        bits = a_table(entry).get("bits")
        if not isinstance(bits, list) or any(type(bit) not in (int, str) for bit in bits):
            raise Bad(0, "no bits")
        if len(bits) != 1 and any(type(entry.get(key, 0)) is not int for key in ("offset", "upto")):
            raise Bad(0, "an offset or upto")


def port_bits(module: Dict[str, Any], way: str) -> List[Tuple[str, int]]:
    nets = []
    for port in module["ports"].values():
        if a_table(port).get("direction") not in ("input", "output"):
            raise Bad(0, "a port's direction")
        if port["direction"] == way:
            nets += [(net, 0) for net in bits_of(port.get("bits"))]
    return nets


def json_cell(name: str, cell: Dict[str, Any], modules: Dict[str, Any]) -> List[Gate]:
    """The gate of a cell, or none of a remark."""
    kind, pins = cell.get("type"), a_table(cell.get("connections"))
    if not isinstance(kind, str):
        raise Bad(0, f"{name}: no type")
    if kind == "$scopeinfo":
        return []
    try:
        output, truth = ("Y", CELLS[kind][1]) if kind in CELLS else library_cell("" if is_whole(modules.get(kind)) else kind, list(pins))
    except KeyError:
        raise Bad(0, f"{name}: no cell that is known") from None
    inputs = list(CELLS[kind][0]) if kind in CELLS else [pin for pin in pins if pin != output]
    nets = {pin: bits_of(bits) for pin, bits in pins.items()}
    if set(nets) != {*inputs, output} or any(len(bits) != 1 for bits in nets.values()):
        raise Bad(0, f"{name}: its pins")
    for pin, way in a_table(cell.get("port_directions", {})).items():
        if pin not in nets or way != ("output" if pin == output else "input"):
            raise Bad(0, f"{name}: the directions of its pins")
    return [Gate(name, nets[output][0], tuple(nets[pin][0] for pin in inputs), tuple(inputs), truth, 0)]


def bits_by_name(name: str, entry: Dict[str, Any]) -> List[Tuple[str, str]]:
    """The nets of a port or of a name: of several bits NAME[0], NAME[1], .."""
    bits = [f"constant {bit}" if type(bit) is not int else str(bit) for bit in entry["bits"]]
    if len(bits) == 1:
        return [(name, bits[0])]
    places = [entry.get("offset", 0) + at for at in range(len(bits))]
    return [(f"{name}[{place}]", bit) for place, bit in zip(reversed(places) if entry.get("upto") else places, bits)]


def is_made_up(name: str, entry: Dict[str, Any]) -> bool:
    return bool(entry.get("hide_name", name.startswith("$")))


def short(name: str) -> str:
    """The end of a name that Yosys made up, with the instances that it was in."""
    scope = re.fullmatch(r"\$flatten((?:\\[^$]*\.)+)\$.*", name)
    prefix = scope[1].replace("\\", "") if scope else ""
    return prefix + "$" + name.split("$")[-1] if name[:1] == "$" and name[-1:] != "$" else name


def net_names(module: Dict[str, Any]) -> Names:
    """Each net's name: that of its input, else of its output, else one of the design, else the end of one that Yosys made up."""
    ports, others = module.get("ports", {}), module.get("netnames", {})
    rows = [(name, entry, "") for name, entry in ports.items() if entry["direction"] == "input"]
    rows += [(name, entry, "") for name, entry in ports.items() if entry["direction"] == "output"]
    rows += [(name, entry, "") for name, entry in others.items() if not is_made_up(name, entry)]
    rows += [(name, entry, "$") for name, entry in others.items() if is_made_up(name, entry)]
    found: Names = {}
    taken = set()
    for name, entry, made_up in rows:
        for each, net in bits_by_name(name, entry):
            if net in taken or net.startswith("constant"):
                continue
            each = short(each) if made_up else each
            while each in found:
                each += f"${net}"
            found[each] = net
            taken.add(net)
    return found


def output_names(module: Dict[str, Any]) -> Names:
    """Outputs have the names of their ports; one that is a constant is so by this name alone."""
    found: Names = {}
    for name, entry in module["ports"].items():
        for each, net in bits_by_name(name, entry) if entry["direction"] == "output" else ():
            if found.setdefault(each, net) != net:
                raise Bad(0, f"{each}: the name of two outputs")
    return found


def read_json(text: str) -> Tuple[Net, Names]:
    """A netlist that Yosys wrote, and its nets by all their names."""
    try:
        whole = json.loads(text, object_pairs_hook=unique)
    except (ValueError, RecursionError) as why:
        raise Bad(0, str(why)) from None
    module = top_module(whole)
    for part in ("ports", "cells", *(["netnames"] if "netnames" in module else [])):
        a_table(module.get(part))
    check_entries(module)
    net = whole_net(module, [gate for name, cell in module["cells"].items() for gate in json_cell(name, a_table(cell), whole["modules"])])
    names = net_names(module)
    name_others(net, names)
    return cells_by_nets(module, net, names), {**names, **output_names(module)}


def whole_net(module: Dict[str, Any], gates: List[Gate]) -> Net:
    """The netlist of these gates, with constants where they are read."""
    inputs, outputs = port_bits(module, "input"), port_bits(module, "output")
    if not inputs or any(net.startswith("constant") for net in [*(net for net, _ in inputs), *(gate.output for gate in gates)]):
        raise Bad(0, "no input, or a constant that is driven")
    read = [net for net, _ in outputs] + [net for gate in gates for net in gate.nets]
    for value, truth in (("constant 0", zero), ("constant 1", one)):
        if value in read:
            gates.append(Gate(value, value, (), (), truth, 0))
    return make(inputs, outputs, gates)


def name_others(net: Net, names: Names) -> None:
    """Nets without a name go by their numbers, and the two constants by what they are."""
    named = set(names.values())
    for gate in net.gates:
        if gate.output not in named and gate.nets:
            name = f"${gate.output}"
            while name in names:
                name += f"${gate.output}"
            names[name] = gate.output
    for bit in "01":
        name = f"constant{bit}"
        while name in names:
            name += "$"
        names[name] = f"constant {bit}"


def cells_by_nets(module: Dict[str, Any], net: Net, names: Names) -> Net:
    """A cell whose name Yosys made up goes by the name of its net, as far as no other cell has this name."""
    cells = module.get("cells", {})
    shown = {name for name, cell in cells.items() if not is_made_up(name, cell)}
    of_net = {number: name for name, number in names.items()}
    gates = []
    for gate in net.gates:
        name = gate.name
        if name not in shown and gate.output in of_net:
            name = of_net[gate.output] if of_net[gate.output] not in shown else short(name)
        gates.append(gate._replace(name=name))
    return net._replace(gates=tuple(gates))
