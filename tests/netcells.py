"""Cells of netlists by their truth functions: Yosys's gates, and cells of libraries by their names, as docs/NETLISTS.md has them."""
import re
from typing import Dict, Sequence, Tuple

from netsim import TRUTHS, Truth, conjunction, disjunction, opposite, parity


def picks(pins: Sequence[int], ones: int) -> int:
    """A multiplexer: A where S is 0, B where it is 1."""
    a, b, s = pins
    return a & ~s | b & s


def and_not(pins: Sequence[int], ones: int) -> int:
    return pins[0] & (ones ^ pins[1])


def or_not(pins: Sequence[int], ones: int) -> int:
    return pins[0] | (ones ^ pins[1])


def aoi3(pins: Sequence[int], ones: int) -> int:
    a, b, c = pins
    return ones ^ (a & b | c)


def oai3(pins: Sequence[int], ones: int) -> int:
    a, b, c = pins
    return ones ^ ((a | b) & c)


def aoi4(pins: Sequence[int], ones: int) -> int:
    a, b, c, d = pins
    return ones ^ (a & b | c & d)


def oai4(pins: Sequence[int], ones: int) -> int:
    a, b, c, d = pins
    return ones ^ ((a | b) & (c | d))


CELLS: Dict[str, Tuple[str, Truth]] = {
    "$_BUF_": ("A", parity), "$_NOT_": ("A", opposite(parity)),
    "$_AND_": ("AB", conjunction), "$_NAND_": ("AB", opposite(conjunction)), "$_ANDNOT_": ("AB", and_not),
    "$_OR_": ("AB", disjunction), "$_NOR_": ("AB", opposite(disjunction)), "$_ORNOT_": ("AB", or_not),
    "$_XOR_": ("AB", parity), "$_XNOR_": ("AB", opposite(parity)),
    "$_MUX_": ("ABS", picks), "$_NMUX_": ("ABS", opposite(picks)),
    "$_AOI3_": ("ABC", aoi3), "$_OAI3_": ("ABC", oai3), "$_AOI4_": ("ABCD", aoi4), "$_OAI4_": ("ABCD", oai4),
}


# ---- libraries ----

LIBRARY = re.compile(r"(AND|OR|NAND|NOR|XOR|XNOR)([2-9]?)(?:_?X[0-9]+)?|(INV|NOT|BUFF?)(?:_?X?[0-9]+)?", re.IGNORECASE)
OUT_PIN = re.compile("O|Y|Z|ZN|Q|X|F|OUT", re.IGNORECASE)
IN_PIN = re.compile("[A-EG-K][0-9]?|IN?[0-9]*", re.IGNORECASE)


def library_cell(kind: str, pins: Sequence[str]) -> Tuple[str, Truth]:
    """The output pin and the function of a cell whose inputs are all alike; or a KeyError."""
    outputs = [pin for pin in pins if OUT_PIN.fullmatch(pin)]
    inputs = [pin for pin in pins if IN_PIN.fullmatch(pin)]
    found = LIBRARY.fullmatch(kind)
    if not found or len(outputs) != 1 or len(inputs) != len(pins) - 1:
        raise KeyError(kind)
    if len(inputs) != 1 if found[3] else len(inputs) < 2 or found[2] not in ("", str(len(inputs))):
        raise KeyError(kind)
    word = (found[3] or found[1]).upper()
    return outputs[0], TRUTHS[{"INV": "NOT", "BUFF": "BUF"}.get(word, word)]
