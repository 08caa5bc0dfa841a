"""A netlist as a gate list with names.

The lines are the inputs and then the cells, depth-first from the outputs. A cell that is no gate is made of gates (frontend.recipes), and
what these add is marked as inside the cell: it has faults on the card, and they are none of the netlist's. A net is read by as many leads
as it has pins, so that a net with one pin is a line with one lead, whose faults the card counts a single time.
"""

from __future__ import annotations

from collections import Counter

from frontend.design import Design, Site
from frontend.netlist import MOST_LEADS, MOST_LINES, Cell, Netlist, listed, refusal, shown
from frontend.recipes import CONSTANTS, FUNCTIONS, steps_of
from frontend.wiring import depth_first, find_drivers, pin_name

TYPE_CHECKING = False
if TYPE_CHECKING:
    from collections.abc import Sequence

HIDDEN, OBSERVABLE, LEAD = 0x20000000, 0x40000000, 0x60000000
CONSTANT = "constant"


def lower(netlist: Netlist) -> Design:
    """The gate list, or a NetlistError."""
    kept, left_out = depth_first(netlist, find_drivers(netlist))
    _check_size(netlist, kept)
    maker = _Maker(netlist, kept)
    maker.put_inputs()
    for cell in kept:
        maker.put_cell(cell)
    maker.put_input_outputs()
    maker.check_limits()
    maker.note_left_out(left_out)
    inputs = [net for net, _ in netlist.inputs]
    return Design(netlist.file, maker.words, True, inputs, maker.outputs(), maker.leads, maker.lines, maker.notes)


def _check_size(netlist: Netlist, kept: list[Cell]) -> None:
    """What is too large even before cells are made of gates, so that the work stays small."""
    if len(netlist.inputs) >= MOST_LINES:
        line = netlist.inputs[MOST_LINES - 1][1]
        raise refusal(netlist.file, line, f"inputs: {len(netlist.inputs):,}; {_limits()}")
    lines, leads = len(netlist.inputs), 0
    for cell in kept:
        lines, leads = lines + 1, leads + len(cell.inputs)
        if lines > MOST_LINES or leads > MOST_LEADS:
            pins = sum(len(each.inputs) for each in kept)
            text = f"inputs: {len(netlist.inputs):,}, gates: {len(kept):,}, leads: {pins:,}; {_limits()}"
            raise refusal(cell.file or netlist.file, cell.line, text)


def _limits() -> str:
    return f"a card has at most {MOST_LINES:,} lines, of inputs and gates, and {MOST_LEADS:,} leads"


class _Maker:
    """A gate list under way."""

    def __init__(self, netlist: Netlist, kept: list[Cell]) -> None:
        self.netlist = netlist
        self.words: list[int] = []
        self.lines: list[Site] = []
        self.leads: list[Site] = []
        self.notes = list(netlist.notes)
        self.number: dict[str, int] = {}  # of a net its line
        self.observed = {net for net, _ in netlist.outputs}
        self.input_outputs: dict[str, int] = {}  # of an input that is an output the line that is observable
        self.constant_input = 0  # constants are made of this input and
        self.constant_not = -1  # the line of its NOT
        self.over = ("", 0)  # the place where a limit is passed
        self.readers: dict[str, list[str]] = {}
        for cell in kept:
            for at, net in enumerate(cell.inputs):
                self.readers.setdefault(net, []).append(pin_name(cell, at))

    # ---- parts ----

    def put_gate(self, function: str, sources: Sequence[int], site: Site, leads: Sequence[Site], observable: bool = False) -> int:
        """Adds a gate; its line."""
        self.words.append((OBSERVABLE if observable else HIDDEN) | FUNCTIONS.index(function) << 26 | len(sources))
        self.words += [LEAD | source for source in sources]
        self.lines.append(site)
        self.leads += leads
        if (len(self.lines) > MOST_LINES or len(self.leads) > MOST_LEADS) and not self.over[0]:
            self.over = (site.file or self.netlist.file, site.line)
        return len(self.lines) - 1

    def put_inputs(self) -> None:
        """An input that nothing reads has faults that nothing can catch: they stay out, as those of gates that nothing reads do."""
        unread = []
        for net, line in self.netlist.inputs:
            alone = net not in self.readers and net not in self.observed
            self.number[net] = len(self.lines)
            self.words.append(0)
            self.lines.append(Site(net, line, "an unread input" if alone else ""))
            if alone:
                unread.append(net)
        if unread:
            self.notes.append(f"inputs that no output depends on, their faults left out: {len(unread):,}: {listed(unread)}")

    def put_cell(self, cell: Cell) -> None:
        """Adds the gates of a cell."""
        if cell.kind in CONSTANTS:
            self._put_constant(cell)
            return
        steps = cell.steps or steps_of(cell.kind, len(cell.inputs))
        uses = Counter(source for step in steps for source in step.sources)
        pins = [self._put_pin(cell, at, uses[at]) for at in range(len(cell.inputs))]
        made: list[int] = []
        for at, step in enumerate(steps, 1):
            leads = [self._lead(cell, pins, at, each, source) for each, source in enumerate(step.sources, 1)]
            sources = [pins[source][0] if source >= 0 else made[~source] for source in step.sources]
            if at < len(steps):
                made.append(self.put_gate(step.function, sources, self._inner(cell, f".{at}"), leads))
                continue
            site = Site(cell.output, cell.line, "", cell.file)
            self.number[cell.output] = self.put_gate(step.function, sources, site, leads, cell.output in self.observed)

    def _put_pin(self, cell: Cell, at: int, uses: int) -> tuple[int, Site]:
        """The line that stands for a pin, and the site of a lead on it. A pin that is read once is that lead, else it is a BUF line."""
        line, name = self.number[cell.inputs[at]], pin_name(cell, at)
        own = Site(name, cell.line, "", cell.file)
        if uses <= 1:
            return line, own
        lead = Site(name, cell.line, _inside(cell), cell.file)
        return self.put_gate("BUF", [line], own, [lead]), self._inner(cell, "")

    def _lead(self, cell: Cell, pins: Sequence[tuple[int, Site]], step: int, at: int, source: int) -> Site:
        if source >= 0 and not pins[source][1].inside:
            return pins[source][1]
        return self._inner(cell, f".{step}/{at}")

    def _inner(self, cell: Cell, what: str) -> Site:
        return Site(cell.name + what, cell.line, _inside(cell), cell.file)

    # ---- what is no cell of gates ----

    def _put_constant(self, cell: Cell) -> None:
        """0 is the AND of an input and its NOT, 1 the OR."""
        if self.constant_not < 0:
            self._choose_constant_input()
        sources = [self.constant_input, self.constant_not]
        leads = [Site(f"{cell.name}/{at}", cell.line, CONSTANT, cell.file) for at in (1, 2)]
        site = Site(cell.output, cell.line, CONSTANT, cell.file)
        function = "AND" if cell.kind == "CONST0" else "OR"
        self.number[cell.output] = self.put_gate(function, sources, site, leads, cell.output in self.observed)

    def _choose_constant_input(self) -> None:
        """An input that is not read exactly once, since then its faults count as before. Where each is, the first one's faults are
        left out: they are those of the pin that reads it."""
        counts = [len(self.readers.get(net, ())) + (net in self.observed) for net, _ in self.netlist.inputs]
        chosen = next((at for at, count in enumerate(counts) if count == 0), None)
        if chosen is None:
            chosen = next((at for at, count in enumerate(counts) if count > 1), 0)
        net = self.netlist.inputs[chosen][0]
        if counts[chosen] == 1:
            self.lines[chosen].inside = f"the net of {self.readers[net][0]}" if net in self.readers else f"output {net}"
        self.constant_input = chosen
        self.constant_not = self.put_gate("NOT", [chosen], Site(f"{CONSTANT}.1", 0, CONSTANT), [Site(f"{CONSTANT}.1/1", 0, CONSTANT)])
        self.notes.append(f"constants are made of input {shown(net)} and its NOT; their faults are left out")

    def put_input_outputs(self) -> None:
        """An output that is an input is a BUF line. It stands for the net where nothing else reads it, else the input does."""
        inputs = {net for net, _ in self.netlist.inputs}
        for name, net, line in self.netlist.named_outputs():
            if net not in inputs or net in self.input_outputs:
                continue
            inside = f"output {name}"
            site = Site(name, line, inside if net in self.readers else "")
            lead = Site(name, line, inside)
            self.input_outputs[net] = self.put_gate("BUF", [self.number[net]], site, [lead], True)
            self.notes.append(f"output {shown(name)} is an input: a BUF line of its own")

    # ---- the end ----

    def outputs(self) -> list[tuple[str, int]]:
        """Each output's name and line. One that is named twice is there once."""
        names: dict[str, int] = {}
        lines: dict[int, str] = {}
        for name, net, _ in self.netlist.named_outputs():
            line = self.input_outputs.get(net, self.number[net])
            if name in names:
                self.notes.append(f"output {shown(name)} is named twice: one line")
            elif lines.setdefault(line, name) != name:
                self.notes.append(f"outputs {shown(lines[line])} and {shown(name)} are one line")
            names.setdefault(name, line)
        return list(names.items())

    def check_limits(self) -> None:
        if self.over[0]:
            inside = sum(bool(site.inside) for site in self.lines)
            text = f"lines: {len(self.lines):,}, {inside:,} of them inside cells like XOR, leads: {len(self.leads):,}; {_limits()}"
            raise refusal(*self.over, text)

    def note_left_out(self, cells: list[Cell]) -> None:
        gates = [cell.name for cell in cells if cell.kind not in CONSTANTS]
        if gates:
            self.notes.append(f"gates that no output depends on, left out: {len(gates):,}: {listed(gates)}")


def _inside(cell: Cell) -> str:
    return f"{cell.kind} {cell.name}"
