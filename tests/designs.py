"""Netlists to try the front end on: designs written here, as a maker would draw them, and random ones; and their texts.

Nothing of frontend/ is used, and nothing of another's netlist: the adder, the multiplier, the slice of an ALU and the corrector of single
errors (of the structure of c499, and with its XORs drawn as four NANDs, of c1355) are drawn from what they do.
"""
import json
import random
from typing import Dict, List, NamedTuple, Optional, Sequence, Tuple

Nets = List[str]


class Drawn(NamedTuple):
    """A gate: the net that it drives, its function, and the nets on its pins."""
    output: str
    function: str
    nets: Tuple[str, ...]


class Draft:
    """A netlist that is being drawn."""

    def __init__(self, name: str, stem: str = "n") -> None:
        self.name = name
        self.stem = stem
        self.inputs: Nets = []
        self.outputs: Nets = []
        self.gates: List[Drawn] = []

    def input(self, name: str, bits: int = 0) -> Nets:
        nets = [f"{name}{i}" for i in range(bits)] if bits else [name]
        self.inputs += nets
        return nets

    def gate(self, function: str, *nets: str, name: str = "") -> str:
        name = name or f"{self.stem}{len(self.gates)}"
        self.gates.append(Drawn(name, function, nets))
        return name


# ---- drawn by hand ----

def c17() -> Draft:
    """The smallest of the ISCAS-85 circuits: six NAND gates."""
    draft = Draft("c17")
    draft.inputs = ["N1", "N2", "N3", "N6", "N7"]
    draft.outputs = ["N22", "N23"]
    for output, a, b in [("N10", "N1", "N3"), ("N11", "N3", "N6"), ("N16", "N2", "N11"), ("N19", "N11", "N7"), ("N22", "N10", "N16"),
                         ("N23", "N16", "N19")]:
        draft.gate("NAND", a, b, name=output)
    return draft


def full_adder(draft: Draft, a: str, b: str, c: str) -> Tuple[str, str]:
    half = draft.gate("XOR", a, b)
    carry = draft.gate("OR", draft.gate("AND", a, b), draft.gate("AND", half, c))
    return draft.gate("XOR", half, c), carry


def add(draft: Draft, nets: Sequence[str]) -> Tuple[Nets, str]:
    """The sum of two or three nets, and the carry."""
    if len(nets) == 2:
        return [draft.gate("XOR", *nets)], draft.gate("AND", *nets)
    total, carry = full_adder(draft, *nets)
    return [total], carry


def adder(bits: int = 8) -> Draft:
    """A ripple adder with carry in and out."""
    draft = Draft("adder")
    a, b = draft.input("a", bits), draft.input("b", bits)
    carry = draft.input("cin")[0]
    for i in range(bits):
        total, carry = full_adder(draft, a[i], b[i], carry)
        draft.outputs.append(draft.gate("BUF", total, name=f"s{i}"))
    draft.outputs.append(draft.gate("BUF", carry, name="cout"))
    return draft


def parity_of(draft: Draft, nets: Sequence[str], width: int) -> str:
    """A tree of XORs of up to so many pins each."""
    nets = list(nets)
    while len(nets) > 1:
        group, nets = nets[:width], nets[width:]
        nets.append(draft.gate("XOR", *group))
    return nets[0]


def parity_tree() -> Draft:
    """Odd and even parity of 24 inputs, by XORs and XNORs of two to five pins."""
    draft = Draft("parity")
    nets = draft.input("d", 24)
    by_width = [parity_of(draft, nets[6 * k:6 * k + 6], k + 2) for k in range(4)]
    draft.outputs = [draft.gate("XOR", *by_width, name="odd"), draft.gate("XNOR", *by_width, name="even"),
                     draft.gate("XNOR", by_width[0], by_width[3], name="ends"), draft.gate("XNOR", *nets[9:14], name="middle")]
    return draft


def multiplier(bits: int = 4) -> Draft:
    """An array multiplier."""
    draft = Draft("multiplier")
    a, b = draft.input("a", bits), draft.input("b", bits)
    row = [draft.gate("AND", a[0], each) for each in b]
    for i in range(1, bits):
        draft.outputs.append(row.pop(0))
        partial = [draft.gate("AND", a[i], each) for each in b]
        carry = ""
        for k in range(bits):
            addends = [net for net in ((row + [""])[k], partial[k], carry) if net]
            row[k:k + 1], carry = add(draft, addends)
        row.append(carry)
    draft.outputs += row
    return draft


def alu(bits: int = 4) -> Draft:
    """Slices of an ALU: and, or, xor, sum by two selecting inputs, each slice chosen among by NANDs; zero and parity of the result."""
    draft = Draft("alu")
    a, b = draft.input("a", bits), draft.input("b", bits)
    carry, s0, s1 = draft.input("cin") + draft.input("s0") + draft.input("s1")
    n0, n1 = draft.gate("NOT", s0), draft.gate("NOT", s1)
    result = []
    for i in range(bits):
        total, after = full_adder(draft, a[i], b[i], carry)
        chosen = [draft.gate("NAND", value, *select) for value, select in [
            (draft.gate("AND", a[i], b[i]), (n1, n0)), (draft.gate("OR", a[i], b[i]), (n1, s0)),
            (draft.gate("XOR", a[i], b[i]), (s1, n0)), (total, (s1, s0))]]
        result.append(draft.gate("NAND", *chosen, name=f"f{i}"))
        carry = after
    draft.outputs = result + [carry, draft.gate("NOR", *result, name="zero"), draft.gate("XNOR", *result, name="parity")]
    return draft


def corrector(data: int = 32, width: int = 2, name: str = "corrector") -> Draft:
    """Corrects a single wrong bit of a word by its check bits, where it is enabled, as c499 does; XORs of up to `width` pins."""
    draft = Draft(name)
    codes = [code for code in range(1, 2 * data) if code & (code - 1)][:data]
    checks = max(codes).bit_length()
    word, check = draft.input("d", data), draft.input("c", checks)
    enable = draft.input("en")[0]
    syndrome = []
    for k in range(checks):
        odd = parity_of(draft, [check[k]] + [word[i] for i in range(data) if codes[i] >> k & 1], width)
        syndrome.append(draft.gate("AND", odd, enable))
    absent = [draft.gate("NOT", net) for net in syndrome]
    for i in range(data):
        wrong = draft.gate("AND", *(syndrome[k] if codes[i] >> k & 1 else absent[k] for k in range(checks)))
        draft.outputs.append(draft.gate("XOR", word[i], wrong, name=f"o{i}"))
    return draft


def without_xors(draft: Draft, name: str) -> Draft:
    """The same with each XOR of two pins drawn as four NANDs."""
    made = Draft(name, stem="g")
    made.inputs, made.outputs = draft.inputs, draft.outputs
    for gate in draft.gates:
        if gate.function != "XOR":
            made.gates.append(gate)
            continue
        a, b = gate.nets
        both = made.gate("NAND", a, b)
        made.gate("NAND", made.gate("NAND", a, both), made.gate("NAND", both, b), name=gate.output)
    return made


def chain(gates: int) -> Draft:
    """Inverters in a row: as deep as a netlist can be."""
    draft = Draft("chain")
    net = draft.input("a")[0]
    for _ in range(gates):
        net = draft.gate("NOT", net)
    draft.outputs = [net]
    return draft


def drawn() -> List[Draft]:
    return [c17(), adder(), parity_tree(), multiplier(), alu(), corrector(), without_xors(corrector(), "corrector-nand"),
            corrector(16, 5, "corrector-wide"), chain(1023)]


# ---- random ----

MANY = ("AND", "OR", "NAND", "NOR", "XOR", "XNOR")
MARKS = ("n{}", "N{}", "{}", "net[{}]", "a.b.{}", "$abc${}", "_{}_", "\\u{}", "U{}/Y", "{}'", "x:{}", "-{}", "INPUT{}", "xor{}")


def scattered(dice: random.Random, number: int, constants: Sequence[str] = ()) -> Draft:
    """Gates of all functions with up to five pins; a net may be on several pins of one, outputs may be inputs or named twice."""
    draft = Draft(f"random{number}")
    names = [dice.choice(MARKS).format(i) for i in range(80)]
    dice.shuffle(names)
    names = list(dict.fromkeys(names))
    draft.inputs = [names.pop() for _ in range(dice.randint(1, 20))]
    nets = list(draft.inputs)
    for _ in range(dice.randint(1, 40)):
        if constants and dice.random() < 0.05:
            nets.append(draft.gate(dice.choice(constants), name=names.pop()))
            continue
        function = dice.choice(MANY + ("NOT", "BUF"))
        pins = 1 if function in ("NOT", "BUF") else dice.choice((1, 2, 2, 2, 3, 4, 5))
        near = nets[-12:] if dice.random() < 0.7 else nets
        nets.append(draft.gate(function, *(dice.choice(near) for _ in range(pins)), name=names.pop()))
    read = {net for gate in draft.gates for net in gate.nets}
    draft.outputs = [dice.choice(nets) for _ in range(dice.randint(1, 3))]
    draft.outputs += [net for net in nets if net not in read and dice.random() < 0.8]
    dice.shuffle(draft.outputs)
    return draft


# ---- as texts ----

BENCH = {"CONST0": "GND", "CONST1": "VDD"}


def bench(draft: Draft, dice: Optional[random.Random] = None) -> str:
    """A text in .bench; with dice in any order of lines, any case and any spacing."""
    lines = [f"INPUT({net})" for net in draft.inputs]
    rest = [f"OUTPUT({net})" for net in draft.outputs]
    gates = [f"{gate.output} = {BENCH.get(gate.function, gate.function)}({', '.join(gate.nets)})" for gate in draft.gates]
    if dice is None:
        return "\n".join([f"# {draft.name}", *lines, *rest, "", *gates]) + "\n"
    lines, rest, gates = ([loosely(dice, line) for line in part] for part in (lines, rest, gates))
    dice.shuffle(gates)
    where = dice.randint(0, len(gates))
    lines = dice.choice([lines + rest + gates, gates[:where] + lines + gates[where:] + rest, rest + gates + lines])
    return dice.choice(["\n", "\r\n"]).join(lines) + dice.choice(["", "\n"])


def loosely(dice: random.Random, line: str) -> str:
    """The same statement, in another spacing and in another case of its word."""
    head, rest = line.split("(") if " = " not in line else (line.split(" = ")[1].split("(")[0], line.split("(", 1)[1])
    target = line.split(" = ")[0] if " = " in line else ""
    head = dice.choice([head, head.lower(), head.capitalize(), {"BUF": "BUFF", "NOT": "inv"}.get(head, head)])
    blank = dice.choice(["", " ", "\t", "  "])
    rest = rest.replace(", ", dice.choice([",", ", ", " ,\t", ",\n  "]))
    text = f"{target}{blank}={blank}{head}" if target else head
    if rest == ")" and dice.random() < 0.5:
        return text  # a constant may go without brackets
    return f"{blank}{text}{blank}({blank}{rest[:-1]}{blank}){blank}{dice.choice(['', '', '# ' + head, '#('])}"


YOSYS = {"AND": "$_AND_", "OR": "$_OR_", "NAND": "$_NAND_", "NOR": "$_NOR_", "XOR": "$_XOR_", "XNOR": "$_XNOR_", "NOT": "$_NOT_", "BUF": "$_BUF_"}


def in_pairs(draft: Draft, stem: str = "$pair$") -> Draft:
    """The same with gates of at most two pins, as Yosys has them."""
    made = Draft(draft.name, stem)
    made.inputs, made.outputs = draft.inputs, draft.outputs
    plain = {"NAND": "AND", "NOR": "OR", "XNOR": "XOR"}
    for gate in draft.gates:
        nets, function = list(gate.nets), gate.function
        while len(nets) > 2:
            nets[:2] = [made.gate(plain.get(function, function), *nets[:2])]
        if len(nets) == 1 and function in MANY:
            function = "NOT" if function in plain else "BUF"
        made.gate(function, *nets, name=gate.output)
    return made


def yosys_json(draft: Draft) -> str:
    """A text as Yosys's write_json writes it, of a draft with gates of at most two pins."""
    bits: Dict[str, object] = {net: number for number, net in enumerate([*draft.inputs, *(gate.output for gate in draft.gates)], 2)}
    bits.update({gate.output: gate.function[-1] for gate in draft.gates if gate.function[:5] == "CONST"})
    ports = {net: {"direction": "input", "bits": [bits[net]]} for net in draft.inputs}
    for net in dict.fromkeys(draft.outputs):
        name = net if net not in ports else f"{net}_out"
        ports[name] = {"direction": "output", "bits": [bits[net]]}
    cells = {f"${number}": {
        "hide_name": 1, "type": YOSYS[gate.function], "parameters": {}, "attributes": {"src": f"{draft.name}.v:{number + 1}"},
        "port_directions": {**{pin: "input" for pin, _ in zip("AB", gate.nets)}, "Y": "output"},
        "connections": {**{pin: [bits[net]] for pin, net in zip("AB", gate.nets)}, "Y": [bits[gate.output]]},
    } for number, gate in enumerate(draft.gates) if gate.nets}
    names = {net: {"hide_name": 0, "bits": [bit], "attributes": {}} for net, bit in bits.items()}
    module = {"attributes": {"top": f"{1:032b}"}, "ports": ports, "cells": cells, "netnames": names}
    return json.dumps({"creator": "designs.py", "modules": {draft.name: module}}, indent=2) + "\n"
