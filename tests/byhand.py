"""Texts that are no netlists, or odd ones, by hand: each form's own ways to be wrong, and what could upset a reader."""
import json
from typing import Any, Dict, Iterator, List, Tuple

import designs

# ---- .bench: each line after the ports a, b and y, a slash for a line's end ----

PORTS = b"INPUT(a)\nINPUT(b)\nOUTPUT(y)\n"
GATES = """
y = AND(a, b)
y = AND(a,, b)
y = AND(a, b,)
y = AND(,a)
y = AND(a b)
y = AND(a; b)
y = AND[a, b]
y == AND(a, b)
y AND(a, b)
= AND(a, b)
y = (a, b)
y = AND(a, b
y = AND(a, b))
y = AND((a, b)
y = AND()
y = AND
y = NOT(a, b)
y = BUFF()
y = XOR(a)
y = AND(a, / # more / / b)
y = AND / (a, b)
y = AND(a, b) z = OR(a, b)
y = DFF(a)
y = LATCH(a, b)
y = MUX(a, b, a)
y = LUT 0x8 ( a, b )
y = NAND2(a, b)
y = AND(a, y)
y = BUF(y)
y = AND(a, z) / z = OR(b, y)
y = BUF(a) / z = NOT(w) / w = NOT(z)
y = AND(a, c)
y = AND(a, b) / y = OR(a, b)
y = AND(a, b) / a = OR(a, b)
y = AND(a, b) / INPUT(a)
y = AND(a, b) / OUTPUT(z)
y = AND(a, b) INPUT(c)
y = AND(a, b) / INPUT(c, d)
y = AND(a, b) / INPUT()
y = vdd()
y = gnd
y = VDD(a)
y = XNOR(a, a, a, b) / OUTPUT(y) / OUTPUT(b) / OUTPUT(b)
"""


def row(count: int, form: bytes, between: bytes = b"") -> bytes:
    """So many of a kind, numbered."""
    return between.join(form % number for number in range(count))


def bench() -> List[bytes]:
    inputs = row(1023, b"INPUT(i%d)\n")
    loop = b"".join(b"n%d = NOT(n%d)\n" % (at, at + 1) for at in range(3000))
    return [PORTS + line.replace(" / ", "\n").encode() + b"\n" for line in GATES.strip().split("\n")] + [
        b"", b"\n", b"# nothing\n", b"\xef\xbb\xbf", b"\xff\xfe\x00", b"INPUT(a)\n", b"OUTPUT(y)\n", b"OUTPUT(y)\ny = VDD\n",
        b"INPUT(a)\nOUTPUT(a)\n", PORTS, PORTS + b"y = AND(a, b)", PORTS + b"y = AND(a, b)\n\xff\xfe", PORTS + b"y = AND(a, b) # \xff\xfe\x00\n",
        b"\xef\xbb\xbf" + PORTS + b"y = AND(a, b)\n",
        b"INPUT(a)\rOUTPUT(y)\ry = NOT(a)\r", b"INPUT(a)\x0cOUTPUT(y)\ny = NOT(a)\n", b"input\t( a )\noutput( y )\ny=not\t(\ta\t)",
        PORTS + b"y = AND(a, a\x00)\n", PORTS + b"\xc3 = AND(a, b)\ny = BUF(\xc3)\n",
        "INPUT(\u00e9)\nOUTPUT(\u3042)\n\u3042 = NOT(\u00e9)\n".encode(), "INPUT(a\u202e)\nOUTPUT(y)\ny = NOT(a\u202e)\n".encode(),
        PORTS + b"y = AND(a, b)\n" + b"#" * 300000, PORTS + b"x" * 300000 + b" = AND(a, b)\n",
        PORTS + b"y = AND(" + b"a, " * 4095 + b"b)\n", PORTS + b"y = AND(" + b"a, " * 4096 + b"b)\n", PORTS + b"y = XOR(" + b"a, " * 900 + b"b)\n",
        PORTS + b"(" * 100000, PORTS + b"y = AND(a,\n" * 200000, inputs + b"OUTPUT(i5)\n", inputs + b"INPUT(j)\nOUTPUT(i5)\n",
        inputs + b"OUTPUT(y)\ny = OR(" + row(1023, b"i%d", b", ") + b")\n",
        *(designs.bench(designs.chain(count)).encode() for count in (1023, 1024, 50000)),
        b"INPUT(a)\nOUTPUT(n0)\n" + loop + b"n3000 = BUF(n0)\n",
    ]


# ---- Yosys's JSON: a module of one cell, with parts put in ----

def a_module() -> Dict[str, Any]:
    return {
        "attributes": {"top": "1"},
        "ports": {"a": {"direction": "input", "bits": [2]}, "b": {"direction": "input", "bits": [3]}, "y": {"direction": "output", "bits": [4]}},
        "cells": {"u": {"hide_name": 0, "type": "$_AND_", "parameters": {}, "attributes": {}, "connections": {"A": [2], "B": [3], "Y": [4]}}},
        "netnames": {"y": {"hide_name": 0, "bits": [4], "attributes": {}}},
    }


def changed(*changes: Tuple[str, Any]) -> bytes:
    """The text of the module with parts put in by their place, as cells.u.type."""
    module = a_module()
    for place, value in changes:
        *keys, last = place.split(".")
        part = module
        for key in keys:
            part = part[key]
        part[last] = value
    return of_modules(m=module)


def of_modules(**modules: Any) -> bytes:
    return json.dumps({"modules": modules}, indent=1).encode()


PARTS: List[Any] = [None, True, 3, -3, 1.5, 1e300, "x", "z", "", "2", [], {}]
BITS: List[Any] = [*PARTS, [[2]], [2, 3], ["0"], ["1"], ["x"], [True], [None], [2.0], [-7], [10 ** 40], ["\ud800"]]
TYPES = ["$_DFF_P_", "$_DLATCH_N_", "$_SR_PP_", "$add", "$_TBUF_", "sub", "m", "$_XOR_", "$_NOT_", "$_MUX_", "NAND", "NOR2", "inv"]


# What is put before a part so that a name is there twice, of which a reader takes one without a word.
TWICE = [
    (b'"u": {', b'"u": {"type": "$_OR_", "connections": {"A": [2], "B": [3], "Y": [4]}},'), (b'"A": [', b'"A": [3],'),
    (b'"type"', b'"type": "$_OR_",'), (b'"b": {', b'"b": {"direction": "input", "bits": [9]},'), (b'"cells": {', b'"cells": {},'),
    (b'"top"', b'"top": "0",'),
    (b'"direction"', b'"direction": "output",'), (b'"bits"', b'"bits": [9],'), (b'"m": {', b'"m": {},'), (b'"modules": {', b'"modules": {},'),
    (b'"parameters": {', b'"parameters": {},'), (b'"hide_name"', b'"hide_name": 1,'),
]


def odd_parts() -> Iterator[bytes]:
    """Each part of the module in the place of a value that it cannot have, and of some that it can."""
    for place in ("cells.u.connections.A", "ports.a.bits", "ports.y.bits", "netnames.y.bits"):
        yield from (changed((place, value)) for value in BITS)
    for place in ("cells.u", "cells.u.type", "cells.u.connections", "cells.u.port_directions", "ports.a", "ports.a.direction", "attributes.top",
                  "netnames.y"):
        yield from (changed((place, value)) for value in PARTS)
    yield from (changed(("cells.u.type", value)) for value in TYPES)
    yield from (changed(("ports.a.direction", value)) for value in ("inout", "output", "INPUT"))
    yield from (changed((place, value)) for place in ("ports", "cells", "netnames", "attributes") for value in PARTS)
    for key in ("offset", "upto"):
        yield from (changed(("ports.a.bits", [2, 5]), (f"ports.a.{key}", value)) for value in (1, -4, 1.5, "x", None, 10 ** 30))


def yosys() -> List[bytes]:
    whole = changed()
    plain: Dict[str, Any] = {**a_module(), "attributes": {}}
    return [
        b"", b"null", b"[]", b"{}", b"3", b'"modules"', b'{"modules": []}', b'{"modules": {}}', b'{"modules": {"m": 3}}', b'{"modules": {"m": {}}}',
        b"{", b'{"modules": {"m": {"ports": {}, "cells": {}}}}', b"[" * 100000, b'{"a":' * 100000, b"[" * 100000 + b"]" * 100000,
        b'{"a": ' + b"9" * 100000 + b"}", b'{"modules": NaN}', b'{"modules": {"m": {"ports": {}, "cells": {}, "ports": {}}}}',
        whole[:-20], whole + b"}", b"\xef\xbb\xbf" + whole, whole.replace(b"$_AND_", b"$_A\xffND_"), whole.replace(b'"u"', b'"\\u0000"'),
        whole.replace(b'"u"', b'"\\ud800"'), whole.replace(b'"m"', b'"\\ud800"'), whole.replace(b"\n", b"\r\n"), whole.replace(b"\n", b""),
        whole.decode().encode("utf-16"), *odd_parts(), *(whole.replace(one, two + b"\n" + one, 1) for one, two in TWICE),
        changed(("cells.v", a_module()["cells"]["u"])), changed(("cells.u.connections.B", [4])), changed(("cells.u.connections.Y", ["0"])),
        changed(("cells.u.connections.C", [3])), changed(("cells.u.connections.A", ["1"])),
        changed(("ports.z", {"direction": "output", "bits": ["0"]})),
        changed(("ports.z", {"direction": "output", "bits": [2, 4, 4]})), changed(("cells.u.port_directions", {"A": "output"})),
        changed(("ports.y[0]", {"direction": "output", "bits": [2]}), ("ports.y", {"direction": "output", "bits": [4, 3]})),
        changed(("cells.q", {"type": "$scopeinfo", "connections": {}})), changed(("netnames." + "a" * 2000, {"bits": [4]})),
        changed(("netnames.", {"bits": [4]})), changed(("ports." + "a" * 2000, {"direction": "input", "bits": [9]})),
        of_modules(m=a_module(), n=a_module()), of_modules(m=plain, n=a_module()), of_modules(m=plain, n=plain),
        of_modules(m=plain, n={"attributes": {"blackbox": 1}, "ports": {}, "cells": {}}),
    ]


# ---- BLIF: each line after a model's head, with .end and without it ----

MODEL = b".model m\n.inputs a b\n.outputs y\n"
COVERS = """
.names a b y / 11 1
.names a b y / 11 1 / 00 0
.names a b y / 1 1
.names a b y / 111 1
.names a b y / 1x 1
.names a b y / 11 2
.names a b y / 11
.names a b y / 1 1 1
.names a b y / -- 1
.names a b y / -- 0
.names a b y / 1- 1 / -- 1
.names a b y / 0- 1 / 1- 1
.names a a y / 10 1
.names y
.names y / 1
.names y / 0
.names y / -
.names y / 1 1
.names y y / 1 1
.names a c y / 11 1
.names
11 1
.latch a y re clk 0
.latch a y ah clk 0
.latch
.subckt sub x=a y=y
.gate NAND2 A=a B=b O=y
.gate NAND3 A=a B=b O=y
.gate NAND2 A=a A=b O=y
.gate NAND2 A=a B= O=y
.gate NAND2 A=a Y=b O=y
.gate NAND2 O=y
.gate XOR a=a O=y
.gate dff D=a Q=y
.gate inv1 A=a O=y
.gate one O=y
.gate zero Q=y
.gate aoi21 A=a B=b C=a O=y
.names a b y / 11 1 / .names a b y / 00 1
.names a b y / 11 1 / .end / .names a z / 1 1
.names a b y / 11 1 / .end / .model n / .inputs q / .end
.exdc / .names a y / 1 1
.names a b \\ / y / 1\\ / 1 1
.names a b y\\
\\ / \\
.area 3 / .names a b y / 11 1
.unknown
.barbuf a y
.inputs a / .names a b y / 11 1
.outputs y a / .names a b y / 11 1
"""


def blif() -> Iterator[bytes]:
    lines = [line.replace(" / ", "\n").encode() for line in COVERS.strip().split("\n")]
    wide = b".names " + b"a " * 1500 + b"y\n" + b"1" * 1500 + b" 1\n"
    lines += [b".names a b y\n11 1 # \xff", b".names a b y\xff\n11 1", b".names a b y\r\n11 1\r",
              b".names " + b"a " * 5000 + b"y\n" + b"1" * 5000 + b" 1", wide + b"0" * 1500 + b" 1", b".names a b y\n" + b"11 1\n" * 5000]
    for line in lines:
        yield MODEL + line
        yield MODEL + line + b"\n.end\n"
    yield from (b"", b".model m\n", MODEL, b".inputs a\n.outputs y\n.names a y\n0 1\n.end", b"\xef\xbb\xbf" + MODEL + b".names a b y\n11 1\n.end\n",
                b"\0" * 1000)


def texts() -> Iterator[Tuple[str, bytes]]:
    for form, found in (("bench", bench()), ("json", yosys()), ("blif", blif())):
        yield from ((form, data) for data in found)
