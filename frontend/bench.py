"""Netlists in the .bench form of the ISCAS-85 and ISCAS-89 circuits: INPUT(a), OUTPUT(y), y = NAND(a, b)."""

from __future__ import annotations

import re

from frontend.netlist import Cell, Netlist, read_lines, refusal, shown, unknown_cell
from frontend.recipes import form_error

TYPE_CHECKING = False
if TYPE_CHECKING:
    from collections.abc import Iterator

_NAME = r"[^\s(),=#]+"
_PORT = re.compile(rf"(INPUT|OUTPUT)\s*\(\s*({_NAME})\s*\)", re.I)
_GATE = re.compile(rf"({_NAME})\s*=\s*({_NAME})\s*\(([^()=]*)\)")
_CONSTANT = re.compile(rf"({_NAME})\s*=\s*({_NAME})(?:\s*\(\s*\))?")
_TABLE = re.compile(rf"({_NAME})\s*=\s*LUT\b.*", re.I)
_KINDS = {each: each for each in ("AND", "OR", "NAND", "NOR", "NOT", "BUF", "XOR", "XNOR")} | {"BUFF": "BUF", "INV": "NOT"}
_CONSTANTS = {"GND": "CONST0", "VDD": "CONST1"}
_FORMS = "no INPUT(a), OUTPUT(a) or a = GATE(b, ..)"
# A statement that goes on over so many lines is one that lacks its bracket.
_MOST_LINES = 100


def read_bench(path: str) -> Netlist:
    """The netlist in a .bench file."""
    inputs: list[tuple[str, int]] = []
    outputs: list[tuple[str, int]] = []
    cells: list[Cell] = []
    for line, text in _statements(path):
        port = _PORT.fullmatch(text)
        if port:
            (inputs if port[1].upper() == "INPUT" else outputs).append((port[2], line))
        else:
            cells.append(_cell(path, line, text))
    return Netlist(path, tuple(inputs), tuple(outputs), tuple(cells))


def _statements(path: str) -> Iterator[tuple[int, str]]:
    """Each statement with the line where it starts. It goes on where a bracket is open."""
    parts: list[str] = []
    first = 0
    for line, text in enumerate(read_lines(path), 1):
        text = text.partition("#")[0].strip()
        if not text:
            continue
        first = first if parts else line
        parts.append(text)
        if "(" in text and ")" not in text or parts[1:] and ")" not in text:
            if len(parts) < _MOST_LINES:
                continue
        yield first, " ".join(parts)
        parts = []
    if parts:
        raise refusal(path, first, f"a bracket that is not closed: {shown(' '.join(parts))}")


def _cell(path: str, line: int, text: str) -> Cell:
    """A gate. It has the name of its net."""
    gate = _GATE.fullmatch(text)
    if gate and gate[3].strip():
        return _gate(path, line, gate[1], gate[2], [each.strip() for each in gate[3].split(",")])
    constant = _CONSTANT.fullmatch(text)
    table = _TABLE.fullmatch(text)
    if table:
        raise refusal(path, line, f"{shown(table[1])}: a lookup table, and no gate; ABC writes gates by write_bench -l")
    if not constant:
        raise refusal(path, line, f"{_FORMS}: {shown(text)}")
    name, kind = constant[1], constant[2].upper()
    if kind in _CONSTANTS:
        return Cell(name, _CONSTANTS[kind], name, (), (), line)
    why = f"{kind} without an input" if kind in _KINDS else unknown_cell(constant[2])
    raise refusal(path, line, f"{shown(name)}: {why}")


def _gate(path: str, line: int, name: str, word: str, inputs: list[str]) -> Cell:
    kind = _KINDS.get(word.upper())
    if kind is None:
        raise refusal(path, line, f"{shown(name)}: {unknown_cell(word)}")
    for each in inputs:
        if not re.fullmatch(_NAME, each):
            why = f"no name between two commas of {kind}" if not each else f"not one name: {shown(each)}"
            raise refusal(path, line, f"{shown(name)}: {why}")
    if wrong := form_error(kind, len(inputs)):
        raise refusal(path, line, f"{shown(name)}: {wrong}")
    return Cell(name, kind, name, tuple(inputs), ("",) * len(inputs), line)
