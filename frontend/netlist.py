"""The common form of a netlist, which the readers make and frontend.lower turns into a gate list, and how a netlist is refused."""

from __future__ import annotations

import re
from dataclasses import dataclass

from frontend.errors import Told
from frontend.files import read_file

TYPE_CHECKING = False
if TYPE_CHECKING:
    from collections.abc import Iterable, Sequence
    from typing import Optional

    from frontend.design import Design

# The limits of a gate list.
MOST_LINES = 1024
MOST_LEADS = 4096
# A netlist within these limits is far smaller, also as JSON with long names.
MOST_BYTES = 32 * 1024 * 1024
MOST_NAME = 1000
SHOWN_NAME = 40
SHOWN_TEXT = 200


@dataclass(frozen=True)
class Step:
    """One gate of those that a cell is made of. A source is a pin of the cell, from 0, or ~s for the earlier step s."""
    function: str
    sources: tuple[int, ...]


@dataclass(frozen=True)
class Cell:
    """A cell that drives one net. What it is made of follows from its kind (frontend.recipes), but where the steps are given."""
    name: str
    kind: str
    output: str
    inputs: tuple[str, ...]
    pins: tuple[str, ...]  # '' where a pin has no name
    line: int
    steps: tuple[Step, ...] = ()
    file: str = ""  # the line's file, where it is not the netlist's own


@dataclass(frozen=True)
class Netlist:
    """Nets have names. An output has its net's name, but where other names are given."""
    file: str
    inputs: tuple[tuple[str, int], ...]  # net and line
    outputs: tuple[tuple[str, int], ...]
    cells: tuple[Cell, ...]
    output_names: tuple[str, ...] = ()
    notes: tuple[str, ...] = ()

    def named_outputs(self) -> list[tuple[str, str, int]]:
        """Each output's name, net and line."""
        names = self.output_names or [net for net, _ in self.outputs]
        return [(name, net, line) for name, (net, line) in zip(names, self.outputs)]


class NetlistError(Told):
    """A netlist of which no card is made: one line, as `c17.bench:12: N22: a loop ..`."""


def lower(netlist: Netlist) -> Design:
    """The netlist as a gate list, with names."""
    from frontend.lower import lower as run
    return run(netlist)


# ---- how it is told ----


def printable(text: str) -> str:
    """The text without what would disturb a terminal or a line."""
    return text if text.isprintable() else "".join(each if each.isprintable() else "?" for each in text)


def shown(text: str, most: int = SHOWN_NAME) -> str:
    """A name or a piece of a file for a message."""
    return printable(text if len(text) <= most else text[:most] + "..")


def listed(names: Sequence[str], most: int = 5) -> str:
    """Some names for a message."""
    return ", ".join(shown(each) for each in names[:most]) + (", .." if len(names) > most else "")


def refusal(file: str, line: int, text: str) -> NetlistError:
    """The error for a place of a file; line 0 is the whole file."""
    place = f"{printable(file)}:{line}" if line else printable(file)
    return NetlistError(f"{place}: {shown(text, SHOWN_TEXT)}")


def cell_refusal(netlist: Netlist, cell: Cell, text: str) -> NetlistError:
    """The error for a cell, by name and line."""
    return refusal(cell.file or netlist.file, cell.line, f"{shown(cell.name)}: {text}")


# What holds a value, or drives a net at times only, by the names that formats and libraries give it.
_STATEFUL = (
    (re.compile(r"\$?_?(s|a|al|sd|r|t|jk)?d?ff|\$?_?dff|fd[cprs]e?$|\$_ff_", re.I), "a flip-flop; cards are combinational"),
    (re.compile(r"\$?_?(a?d|sr)?_?latch|\$?_sr_|\$sr$|ld[cp]?e?$", re.I), "a latch; cards are combinational"),
    (re.compile(r"\$mem|\$?ram|\$?rom", re.I), "a memory; cards are combinational"),
    (re.compile(r"\$_tbuf_|\$tribuf|tbuf|tribuf|bufif|notif", re.I), "a tristate driver; cards have none"),
)


def unknown_cell(kind: str) -> str:
    """What is told of a cell that is no gate."""
    for pattern, text in _STATEFUL:
        if pattern.match(kind):
            return text
    return f"{shown(kind) or 'a cell without a type'}: no gate that is known"


# ---- cells of common names, as libraries have them ----

_GATE_NAME = re.compile(r"(AND|OR|NAND|NOR|XOR|XNOR)([2-9]?)(?:_?X[0-9]+)?", re.I)
_SINGLE_NAME = re.compile(r"(INV|NOT|BUFF?)(?:_?X?[0-9]+)?", re.I)
_OUTPUT_PIN = re.compile(r"O|Y|Z|ZN|Q|X|F|OUT", re.I)
_INPUT_PIN = re.compile(r"[A-EG-K][0-9]?|IN?[0-9]*", re.I)
SINGLE = {"INV": "NOT", "NOT": "NOT", "BUF": "BUF", "BUFF": "BUF"}


def common_gate(kind: str, pins: Iterable[str]) -> Optional[tuple[str, str]]:
    """The gate and the output pin of a library cell like NAND2, or None: only of cells whose inputs are all alike."""
    names = list(pins)
    outputs = [pin for pin in names if _OUTPUT_PIN.fullmatch(pin)]
    inputs = [pin for pin in names if _INPUT_PIN.fullmatch(pin)]
    if len(outputs) != 1 or len(inputs) != len(names) - 1:
        return None
    single = _SINGLE_NAME.fullmatch(kind)
    if single and len(inputs) == 1:
        return SINGLE[single[1].upper()], outputs[0]
    gate = _GATE_NAME.fullmatch(kind)
    if gate and len(inputs) >= 2 and gate[2] in ("", str(len(inputs))):
        return gate[1].upper(), outputs[0]
    return None


# ---- files ----


def read_netlist_bytes(path: str) -> bytes:
    """A netlist's bytes, without a byte order mark."""
    data = read_file(path, MOST_BYTES)
    return data[3:] if data.startswith(b"\xef\xbb\xbf") else data


def read_lines(path: str) -> list[str]:
    """A text's lines, however they end. Bytes that are no UTF-8 are let pass, for comments: no name may have them."""
    text = read_netlist_bytes(path).decode("utf-8", "surrogateescape")
    return text.replace("\r\n", "\n").replace("\r", "\n").split("\n")
