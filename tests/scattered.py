"""Random texts in the two forms that have more than designs.py draws: Yosys's JSON with all its cells, and BLIF with any covers."""
import json
import random
from typing import Any, Dict, List

from netcells import CELLS


def cells_json(dice: random.Random, number: int) -> str:
    """Ports of several bits, cells of every type, constants on pins and ports, and names that Yosys made up beside others."""
    ports: Dict[str, Any] = {}
    names: Dict[str, Any] = {}
    bits: List[Any] = []
    for port in range(dice.randint(1, 6)):
        nets = [len(bits) + 2 + at for at in range(dice.choice((1, 1, 2, 4)))]
        ports[f"in{port}"] = {"direction": "input", "bits": nets, **layout(dice)}
        bits += nets
    cells: Dict[str, Any] = {}
    bit = len(bits) + 2 + dice.choice((0, 5))
    for _ in range(dice.randint(1, 30)):
        cell = dice.choice(list(CELLS))
        pins = {pin: [dice.choice(("0", "1") if dice.random() < 0.04 else bits[-15:])] for pin in CELLS[cell][0]}
        made_up = dice.random() < 0.6
        name = f"$abc$7$auto$blifparse.cc:396:parse_blif${bit}" if made_up else f"u{bit}"
        order = list(pins) + ["Y"]
        dice.shuffle(order)
        cells[name] = {"hide_name": int(made_up), "type": cell, "parameters": {}, "attributes": {},
                       "connections": {pin: {**pins, "Y": [bit]}[pin] for pin in order}}
        bits.append(bit)
        if dice.random() < 0.8:
            shown = dice.random() < 0.5
            names[f"n{bit}" if shown else f"$abc$7$new_n{bit}_"] = {"hide_name": int(not shown), "bits": [bit], "attributes": {}}
        bit += dice.choice((1, 1, 1, 3))
    read = {str(net[0]) for cell in cells.values() for pin, net in cell["connections"].items() if pin != "Y"}
    loose = [net for net in bits if str(net) not in read and dice.random() < 0.9]
    seen = loose + [dice.choice(bits + ["0", "1"]) for _ in range(2)] + [bits[-1]]
    while seen:
        width = dice.choice((1, 1, 2, 5))
        ports[f"out{len(seen)}"] = {"direction": "output", "bits": seen[:width], **layout(dice)}
        seen = seen[width:]
    module = {"attributes": {"top": 1} if dice.random() < 0.5 else {}, "ports": ports, "cells": cells, "netnames": names}
    modules = {f"random{number}": module}
    if module["attributes"]:
        modules["other"] = {"attributes": {}, "ports": {}, "cells": {}, "netnames": {}}
    return json.dumps({"creator": "scattered.py", "modules": modules}, indent=dice.choice((None, 1, 2))) + "\n"


def layout(dice: random.Random) -> Dict[str, int]:
    """How the bits of a port are numbered."""
    forms: List[Dict[str, int]] = [{}, {}, {"offset": 3}, {"upto": 1}, {"offset": 1, "upto": 1}]
    return dice.choice(forms)


def cover(dice: random.Random, pins: int) -> List[str]:
    """Rows for 1 or rows for 0: a gate's, or any."""
    form = dice.random()
    value = dice.choice("01")
    if pins == 0:
        return ["1", "0"][:dice.randrange(3)][-1:]
    if form < 0.2:
        rows = [dice.choice("01") * pins]
    elif form < 0.4:
        figure = dice.choice("01")
        rows = ["-" * at + figure + "-" * (pins - at - 1) for at in range(pins)]
    elif form < 0.6:
        odd = dice.getrandbits(1)
        rows = [f"{row:0{pins}b}" for row in range(1 << pins) if bin(row).count("1") % 2 == odd]
    else:
        rows = ["".join(dice.choice("01--") for _ in range(pins)) for _ in range(dice.randint(0, 5))]
    dice.shuffle(rows)
    return [f"{row} {value}" for row in rows]


def covers_blif(dice: random.Random, number: int) -> str:
    """A model of .names with covers of all kinds, some lines broken."""
    inputs = [f"i{at}" for at in range(dice.randint(1, 12))]
    nets = list(inputs)
    body: List[str] = []
    for at in range(dice.randint(1, 25)):
        pins = [dice.choice(nets[-10:]) for _ in range(dice.choice((0, 1, 2, 2, 3, 4, 5)))]
        if pins and dice.random() < 0.15:
            kind = dice.choice(("NAND", "nor", "XOR", "xnor", "AND", "or")) if len(pins) > 1 else dice.choice(("inv1", "BUF", "NOT"))
            size = dice.choice(("", str(len(pins)))) if len(pins) > 1 else ""
            body.append(f".gate {kind}{size} " + " ".join(f"{pin}={net}" for pin, net in zip("ABCDE", pins)) + f" O=n{at}")
        else:
            rows = cover(dice, len(pins))
            body.append("\n".join([f".names {' '.join([*pins, f'n{at}'])}", *rows]))
        nets.append(f"n{at}")
    outputs = [net for net in nets if dice.random() < 0.3] + [nets[-1]]
    dice.shuffle(body)
    gap = dice.choice((" ", " \\\n "))
    head = [f"# {number}", f".model random{number}", f".inputs {gap.join(inputs)}", f".outputs {gap.join(outputs)}"]
    return "\n".join([*head, *body, ".end"]) + "\n"
