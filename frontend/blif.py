"""Netlists in BLIF: one model of .names and .gate."""

from __future__ import annotations

from frontend.netlist import Cell, Netlist, NetlistError, common_gate, read_lines, refusal, shown, unknown_cell
from frontend.recipes import cover_cell

TYPE_CHECKING = False
if TYPE_CHECKING:
    from collections.abc import Iterator

# What says nothing of the logic.
_SKIPPED = {".attr", ".param", ".cname", ".area", ".delay", ".wire_load_slope", ".wire", ".input_arrival", ".output_required",
            ".default_input_arrival", ".default_output_required", ".input_drive", ".default_input_drive", ".output_load",
            ".default_output_load", ".max_input_load", ".default_max_input_load"}
# One net by two names, as ABC and Yosys write it.
_WIRES = (".barbuf", ".conn")
_REFUSED = {
    ".subckt": "an instance of another model; flatten the design first",
    ".mlatch": "a latch; cards are combinational",
    ".exdc": "don't cares of the outside",
    ".search": "another file",
}
_CONSTANT_GATES = {"zero": "CONST0", "one": "CONST1"}


def read_blif(path: str) -> Netlist:
    """The netlist in a BLIF file."""
    reader = _Reader(path)
    line = 1
    for line, words in _statements(path):
        reader.take(line, words)
    if not reader.ended:  # else a file that was cut inside a cover would be another netlist
        raise refusal(path, line, "the file ends without .end")
    return Netlist(path, tuple(reader.inputs), tuple(reader.outputs), tuple(reader.cells))


def _statements(path: str) -> Iterator[tuple[int, list[str]]]:
    """Each statement's words with the line where it starts. A line that ends in a backslash goes on."""
    words: list[str] = []
    first = 0
    for line, text in enumerate(read_lines(path), 1):
        text = text.partition("#")[0].rstrip()
        first = first or line
        words += text.rstrip("\\").split()
        if text.endswith("\\"):
            continue
        if words:
            yield first, words
        words, first = [], 0
    if words:
        yield first, words


class _Reader:
    """A model under way."""

    def __init__(self, path: str) -> None:
        self.path = path
        self.inputs: list[tuple[str, int]] = []
        self.outputs: list[tuple[str, int]] = []
        self.cells: list[Cell] = []
        self.models = 0
        self.ended = False
        self.cover: list[tuple[int, list[str]]] = []  # of the .names at hand its line and nets, and then those of the rows

    def wrong(self, line: int, text: str) -> NetlistError:
        return refusal(self.path, line, text)

    def take(self, line: int, words: list[str]) -> None:
        """Takes in a statement."""
        word = words[0]
        if not word.startswith("."):
            if not self.cover:
                raise self.wrong(line, f"no statement of BLIF: {shown(' '.join(words))}")
            self.cover.append((line, words))
            return
        self.end_cover()
        if word == ".model":
            self.models += 1
            if self.models > 1:
                raise self.wrong(line, "a second model; flatten the design first")
        elif self.ended:
            raise self.wrong(line, f"{shown(word)} after .end")
        elif word == ".end":
            self.ended = True
        elif word in (".inputs", ".outputs"):
            (self.inputs if word == ".inputs" else self.outputs).extend((net, line) for net in words[1:])
        elif word == ".names" and len(words) > 1:
            self.cover = [(line, words[1:])]
        elif word in _WIRES and len(words) == 3:
            self.cells.append(Cell(words[2], "BUF", words[2], (words[1],), ("",), line))
        elif word == ".gate" and len(words) > 2:
            self.cells.append(self.gate(line, words[1], words[2:]))
        elif word not in _SKIPPED:
            raise self.refused(line, words)

    def refused(self, line: int, words: list[str]) -> NetlistError:
        if words[0] == ".latch":
            level = len(words) > 3 and words[3] in ("ah", "al", "as")
            kind = "a latch" if level else "a flip-flop"
            return self.wrong(line, f"{shown(words[min(2, len(words) - 1)])}: {kind}; cards are combinational")
        why = _REFUSED.get(words[0], "no statement that is known, or one that is cut")
        return self.wrong(line, f"{shown(' '.join(words))}: {why}")

    def gate(self, line: int, kind: str, words: list[str]) -> Cell:
        """A gate of a library, by its name. It has the name of its net."""
        pins: dict[str, str] = {}
        for word in words:
            pin, is_there, net = word.partition("=")
            if not pin or not is_there or not net or pin in pins:
                raise self.wrong(line, f"{shown(kind)}: no pin=net, or the pin is there: {shown(word)}")
            pins[pin] = net
        if len(pins) == 1 and kind.lower() in _CONSTANT_GATES:
            net = words[0].partition("=")[2]
            return Cell(net, _CONSTANT_GATES[kind.lower()], net, (), (), line)
        found = common_gate(kind, pins)
        if not found:
            raise self.wrong(line, f"{shown(words[-1].partition('=')[2])}: {unknown_cell(kind)}")
        output = pins.pop(found[1])
        return Cell(output, found[0], output, tuple(pins.values()), tuple(pins), line)

    def end_cover(self) -> None:
        """Makes a cell of the .names at hand. A pin that no row reads is none."""
        if not self.cover:
            return
        (line, nets), rows = self.cover[0], self.cover[1:]
        self.cover = []
        *inputs, output = nets
        figures = [self.row(at, words, len(inputs), output) for at, words in rows]
        if len({value for _, value in figures}) > 1:
            raise self.wrong(line, f"{shown(output)}: a cover with rows for 0 and rows for 1")
        on = not figures or figures[0][1] == "1"
        columns = [at for at in range(len(inputs)) if any(row[at] != "-" for row, _ in figures)]
        kind, steps = cover_cell(["".join(row[at] for at in columns) for row, _ in figures], on)
        used = () if kind.startswith("CONST") else tuple(inputs[at] for at in columns)
        self.cells.append(Cell(output, kind, output, used, ("",) * len(used), line, steps))

    def row(self, line: int, words: list[str], inputs: int, output: str) -> tuple[str, str]:
        """A row's figures for the inputs, and for the output."""
        row, value = ("", words[0]) if inputs == 0 and len(words) == 1 else (words[0], words[-1])
        if len(words) != 1 + (inputs > 0) or len(row) != inputs or row.strip("01-") or value not in ("0", "1"):
            raise self.wrong(line, f"{shown(output)}: no row of {inputs} figures 0, 1 or - and of a 0 or 1: {shown(' '.join(words))}")
        return row, value
