"""For the tests of netlists: random netlists, and two simulators that know nothing of each other.

One works out the netlist's cells by their truth functions, the other the words of a gate list. A value is a number whose bit v is the
value under vector v; `ones` has a bit for each vector.
"""

from __future__ import annotations

import random
from functools import reduce
from typing import Callable, Optional

from frontend.netlist import Cell, Netlist

GATES = ("AND", "OR", "NAND", "NOR", "XOR", "XNOR")
FIXED = {"NOT": 1, "BUF": 1, "ANDNOT": 2, "ORNOT": 2, "MUX": 3, "NMUX": 3, "AOI3": 3, "OAI3": 3, "AOI4": 4, "OAI4": 4}


def all_vectors(inputs: int) -> tuple[list[int], int]:
    """The inputs' values under all vectors, and `ones`."""
    count = 1 << inputs
    return [sum((vector >> at & 1) << vector for vector in range(count)) for at in range(inputs)], (1 << count) - 1


def cell_value(kind: str, pins: list[int], ones: int) -> int:
    """A cell's value by its kind."""
    a, b, c, d = (pins + [0] * 4)[:4]
    plain: dict[str, Callable[[], int]] = {
        "CONST0": lambda: 0, "CONST1": lambda: ones, "BUF": lambda: a, "NOT": lambda: ones ^ a,
        "AND": lambda: reduce(int.__and__, pins), "NAND": lambda: ones ^ reduce(int.__and__, pins),
        "OR": lambda: reduce(int.__or__, pins), "NOR": lambda: ones ^ reduce(int.__or__, pins),
        "XOR": lambda: reduce(int.__xor__, pins), "XNOR": lambda: ones ^ reduce(int.__xor__, pins),
        "ANDNOT": lambda: a & ~b, "ORNOT": lambda: a | ones ^ b,
        "MUX": lambda: (c & b) | (~c & a), "NMUX": lambda: ones ^ ((c & b) | (~c & a)),
        "AOI3": lambda: ones ^ (a & b | c), "OAI3": lambda: ones ^ ((a | b) & c),
        "AOI4": lambda: ones ^ (a & b | c & d), "OAI4": lambda: ones ^ ((a | b) & (c | d)),
    }
    return plain[kind]() & ones


def steps_value(cell: Cell, pins: list[int], ones: int) -> int:
    """The value of a cell that has its gates with it."""
    made: list[int] = []
    for step in cell.steps:
        made.append(cell_value(step.function, [pins[each] if each >= 0 else made[~each] for each in step.sources], ones))
    return made[-1]


def netlist_outputs(netlist: Netlist, given: list[int], ones: int, stuck: Optional[tuple[str, int]] = None,
                    pin: Optional[tuple[str, int]] = None) -> list[int]:
    """The outputs' values; `stuck` is a net and its value, `pin` the name of a cell and the number of its pin, stuck at that value."""
    values: dict[str, int] = {}
    value = ones * stuck[1] if stuck else 0
    cells = {cell.output: cell for cell in netlist.cells}
    for (net, _), bits in zip(netlist.inputs, given):
        values[net] = value if stuck and stuck[0] == net else bits

    def net_value(net: str) -> int:
        if net not in values:
            cell = cells[net]
            pins = [net_value(each) for each in cell.inputs]
            if pin and stuck and pin[0] == cell.name:
                pins[pin[1]] = value
            found = steps_value(cell, pins, ones) if cell.steps else cell_value(cell.kind, pins, ones)
            values[net] = value if stuck and stuck[0] == net else found
        return values[net]

    return [net_value(net) for net, _ in netlist.outputs]


def gate_values(words: list[int], given: list[int], ones: int, fault: Optional[int] = None) -> list[int]:
    """The values of a gate list's lines, with a fault in or none."""
    leads = sum(word >> 29 == 3 for word in words)
    site, held = (-1, 0) if fault is None else (fault // 2, ones * (fault % 2))
    values: list[int] = []
    at = lead = 0
    while at < len(words):
        word = words[at]
        at += 1
        if word >> 29 == 0:
            value = given[len(values)]
        else:
            pins = []
            for each in words[at:at + (word & 0xFFFF)]:
                pins.append(held if lead == site else values[each & 0xFFFF])
                lead += 1
            at += word & 0xFFFF
            kind = ("AND", "OR", "NAND", "NOR", "NOT", "BUF")[word >> 26 & 7]
            value = cell_value(kind, pins, ones)
        values.append(held if len(values) + leads == site else value)
    return values


def random_netlist(rng: random.Random, most_inputs: int = 6, most_cells: int = 25) -> Netlist:
    """A netlist of all kinds of cells, in any order of lines, whose outputs may be anything."""
    inputs = [f"i{at}" for at in range(rng.randint(1, most_inputs))]
    nets = list(inputs)
    cells = []
    for at in range(rng.randint(1, most_cells)):
        kind = rng.choice(GATES * 2 + tuple(FIXED) + (("CONST0", "CONST1") if rng.random() < 0.3 else ()))
        count = 0 if kind.startswith("CONST") else FIXED.get(kind) or rng.choice((1, 2, 2, 2, 3, 4, 5))
        recent = nets if rng.random() < 0.5 else nets[-5:]
        pins = tuple(rng.choice(recent) for _ in range(count))
        named = rng.random() < 0.5
        cells.append(Cell(f"U{at}", kind, f"n{at}", pins, tuple("ABCDEF"[:count]) if named else ("",) * count, at + 1))
        nets.append(f"n{at}")
    outputs = [(rng.choice(nets), 99) for _ in range(rng.randint(1, 4))]
    rng.shuffle(cells)
    return Netlist("random", tuple((net, 1) for net in inputs), tuple(outputs), tuple(cells))
