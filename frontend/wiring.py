"""Which cell drives which net: names, drivers and loops of a netlist, looked at before any of it is turned into gates."""

from __future__ import annotations

from frontend.netlist import MOST_LEADS, MOST_NAME, Cell, Netlist, NetlistError, cell_refusal, refusal, shown
from frontend.recipes import form_error

SHOWN_LOOP = 6


def pin_name(cell: Cell, at: int) -> str:
    """`CELL/PIN`; a pin without a name goes by its net, and the net's second pin of the cell by `CELL/NET(2)`."""
    if at < len(cell.pins) and cell.pins[at]:
        return f"{cell.name}/{cell.pins[at]}"
    net = cell.inputs[at]
    before = cell.inputs[:at].count(net)
    return f"{cell.name}/{net}({before + 1})" if before else f"{cell.name}/{net}"


def find_drivers(netlist: Netlist) -> dict[str, Cell]:
    """Each net's cell; inputs have none. Refuses whatever is not driven by exactly one cell or input."""
    if not netlist.inputs:
        raise refusal(netlist.file, 1, "no input; a card has at least one")
    if not netlist.outputs:
        raise refusal(netlist.file, 1, "no output; a card has at least one")
    inputs = _check_inputs(netlist)
    drivers: dict[str, Cell] = {}
    names: dict[str, Cell] = {}
    for cell in netlist.cells:
        _check_cell(netlist, cell)
        if before := _driven_before(cell, inputs, drivers):
            net = "" if cell.name == cell.output else f"{shown(cell.output)} is "
            raise cell_refusal(netlist, cell, f"{net}driven twice: {before}")
        if cell.name in names:
            raise cell_refusal(netlist, cell, f"the name is used twice{_at(names[cell.name].line)}")
        drivers[cell.output] = names[cell.name] = cell
    _check_driven(netlist, inputs, drivers)
    return drivers


def _driven_before(cell: Cell, inputs: dict[str, int], drivers: dict[str, Cell]) -> str:
    """What drives the cell's net already, or ''."""
    if cell.output in inputs:
        return f"it is an input{_at(inputs[cell.output])}"
    other = drivers.get(cell.output)
    return f"by {shown(other.name)}{_at(other.line)}" if other else ""


def _at(line: int) -> str:
    """The other place of what is there twice."""
    return f", line {line}" if line else ""


def _check_name(file: str, line: int, name: str) -> None:
    if not name or len(name) > MOST_NAME or not name.isprintable():
        why = "an empty name" if not name else "a name with characters that cannot be shown"
        if len(name) > MOST_NAME:
            why = f"a name of {len(name):,} characters; {MOST_NAME:,} are the most"
        raise refusal(file, line, f"{why}: {shown(name)}" if name else why)


def _check_inputs(netlist: Netlist) -> dict[str, int]:
    inputs: dict[str, int] = {}
    for net, line in netlist.inputs:
        _check_name(netlist.file, line, net)
        if net in inputs:
            raise refusal(netlist.file, line, f"{shown(net)}: an input twice{_at(inputs[net])}")
        inputs[net] = line
    return inputs


def _check_cell(netlist: Netlist, cell: Cell) -> None:
    file = cell.file or netlist.file
    for name in (cell.name, cell.output, *cell.inputs, *filter(None, cell.pins)):
        _check_name(file, cell.line, name)
    if wrong := form_error(cell.kind, len(cell.inputs)):
        raise cell_refusal(netlist, cell, wrong)
    if len(cell.inputs) > MOST_LEADS:
        raise cell_refusal(netlist, cell, f"{len(cell.inputs):,} leads; a card has at most {MOST_LEADS:,}")


def _check_driven(netlist: Netlist, inputs: dict[str, int], drivers: dict[str, Cell]) -> None:
    for cell in netlist.cells:
        for net in cell.inputs:
            if net not in drivers and net not in inputs:
                raise cell_refusal(netlist, cell, f"it reads {shown(net)}, which nothing drives")
    outputs: dict[str, str] = {}
    for name, net, line in netlist.named_outputs():
        _check_name(netlist.file, line, name)
        if net not in drivers and net not in inputs:
            raise refusal(netlist.file, line, f"{shown(name)}: an output that nothing drives")
        if outputs.setdefault(name, net) != net:
            raise refusal(netlist.file, line, f"{shown(name)}: the name of two outputs")


# ---- order ----


class _Walk:
    """Cells in the order in which a walk from the outputs leaves them: each after those that it reads. It keeps its own stack, since
    netlists are deep."""

    def __init__(self, netlist: Netlist, drivers: dict[str, Cell]) -> None:
        self.netlist = netlist
        self.drivers = drivers
        self.order: list[Cell] = []
        self.seen: set[str] = set()
        self.done: set[str] = set()
        self.stack: list[tuple[Cell, int]] = []  # a cell and its next pin

    def take(self, net: str) -> None:
        """Takes in the cells that a net depends on, and which are not yet there."""
        self._enter(net)
        while self.stack:
            cell, at = self.stack.pop()
            if at < len(cell.inputs):
                self.stack.append((cell, at + 1))
                self._enter(cell.inputs[at])
            else:
                self.done.add(cell.output)
                self.order.append(cell)

    def _enter(self, net: str) -> None:
        if net not in self.drivers or net in self.done:
            return
        if net in self.seen:
            raise self._loop(net)
        self.seen.add(net)
        self.stack.append((self.drivers[net], 0))

    def _loop(self, net: str) -> NetlistError:
        """The loop from the cell that is read again, which is on the stack, to the one that reads it."""
        nets = [cell.output for cell, _ in self.stack]
        loop = nets[nets.index(net):] + [net]
        count = f"{len(loop) - 1:,} cell{'s' if len(loop) > 2 else ''}"
        text = " <- ".join(shown(each, 20) for each in loop[:SHOWN_LOOP]) + (" <- .." if len(loop) > SHOWN_LOOP else "")
        return cell_refusal(self.netlist, self.drivers[net], f"a loop of {count}, and cards are combinational: {text}")


def depth_first(netlist: Netlist, drivers: dict[str, Cell]) -> tuple[list[Cell], list[Cell]]:
    """The cells that outputs depend on, each after those that it reads, depth-first from the outputs; and the others."""
    walk = _Walk(netlist, drivers)
    for net, _ in netlist.outputs:
        walk.take(net)
    kept = len(walk.order)
    for cell in netlist.cells:
        walk.take(cell.output)
    return walk.order[:kept], walk.order[kept:]
