"""Netlists by themselves: their values, with a stuck fault in or with none, and which stuck faults vectors catch.

A simulation of the tests' own, which shares nothing with frontend/ and knows no gate list and no card. A cell is worked out by its
truth function, an XOR too, as it stands in the netlist; what a fault does is found by putting it in at its pin or its net and
working out the whole netlist again. Vectors are worked out side by side: bit t of a value is the value under vector t.

Here are the common form, the simulation and the reader of .bench; netread.py has the other readers.
"""
import re
from typing import Callable, Dict, List, NamedTuple, Optional, Sequence, Tuple

Truth = Callable[[Sequence[int], int], int]  # of the values on a cell's pins, and of the number that has every bit set


class Bad(Exception):
    """A text that is no netlist, with the line that shows it; 0 where it is no one line's."""

    def __init__(self, line: int, why: str) -> None:
        super().__init__(f"{line}: {why}")
        self.line = line


class Gate(NamedTuple):
    """A cell: the net that it drives, and the nets on its pins."""
    name: str
    output: str
    nets: Tuple[str, ...]
    pins: Tuple[str, ...]  # the pins' names; in .bench that of the net, and of a second pin on it NET(2)
    truth: Truth
    line: int


class Net(NamedTuple):
    """A netlist whose nets all have one driver, and that has no loop; the gates in an order in which each comes after its drivers."""
    inputs: Tuple[str, ...]
    outputs: Tuple[str, ...]
    gates: Tuple[Gate, ...]


class Site(NamedTuple):
    """Where a fault is: on a net for all its readers, or on one pin of a gate, for this gate alone."""
    net: str
    gate: int = -1
    pin: int = -1


# ---- truth functions ----

def conjunction(pins: Sequence[int], ones: int) -> int:
    for value in pins:
        ones &= value
    return ones


def disjunction(pins: Sequence[int], ones: int) -> int:
    value = 0
    for pin in pins:
        value |= pin
    return value


def parity(pins: Sequence[int], ones: int) -> int:
    value = 0
    for pin in pins:
        value ^= pin
    return value


def opposite(truth: Truth) -> Truth:
    return lambda pins, ones: ones ^ truth(pins, ones)


def zero(pins: Sequence[int], ones: int) -> int:
    return 0


def one(pins: Sequence[int], ones: int) -> int:
    return ones


TRUTHS: Dict[str, Truth] = {
    "AND": conjunction, "NAND": opposite(conjunction), "OR": disjunction, "NOR": opposite(disjunction),
    "XOR": parity, "XNOR": opposite(parity), "BUF": parity, "NOT": opposite(parity), "CONST0": zero, "CONST1": one,
}


# ---- the common form ----

def order(inputs: Sequence[str], gates: Sequence[Gate]) -> List[Gate]:
    """The gates, each after those that drive it; those of a loop never come to their turn."""
    readers: Dict[str, List[int]] = {}
    for number, gate in enumerate(gates):
        for net in gate.nets:
            readers.setdefault(net, []).append(number)
    missing = [len(gate.nets) for gate in gates]
    ready = [gate.output for gate in gates if not gate.nets]
    placed = [gate for gate in gates if not gate.nets]
    ready.extend(inputs)
    while ready:
        for number in readers.get(ready.pop(), ()):
            missing[number] -= 1
            if missing[number] == 0:
                ready.append(gates[number].output)
                placed.append(gates[number])
    if len(placed) < len(gates):
        raise Bad(next(gate.line for number, gate in enumerate(gates) if missing[number] > 0), "a loop")
    return placed


def make(inputs: Sequence[Tuple[str, int]], outputs: Sequence[Tuple[str, int]], gates: Sequence[Gate]) -> Net:
    """The netlist of these parts, each with its line; or what is wrong with them."""
    driven = set()
    for net, line in [*inputs, *((gate.output, gate.line) for gate in gates)]:
        if net in driven:
            raise Bad(line, f"{net}: driven twice")
        driven.add(net)
    for net, line in [*((net, gate.line) for gate in gates for net in gate.nets), *outputs]:
        if net not in driven:
            raise Bad(line, f"{net}: driven by nothing")
    if not outputs:
        raise Bad(0, "no output")
    names = tuple(net for net, _ in inputs)
    return Net(names, tuple(dict.fromkeys(net for net, _ in outputs)), tuple(order(names, gates)))


# ---- the simulation ----

def work_out(net: Net, given: Sequence[int], ones: int) -> Dict[str, int]:
    """The values of all nets, with no fault in."""
    values = dict(zip(net.inputs, given))
    for gate in net.gates:
        values[gate.output] = gate.truth([values[name] for name in gate.nets], ones)
    return values


def work_out_stuck(net: Net, good: Dict[str, int], ones: int, site: Site, held: int) -> Dict[str, int]:
    """The values with a site held at 0 or at 1. The gates before it are as they were; all others are worked out again."""
    values = dict(good)
    stuck = ones if held else 0
    first = site.gate
    if first < 0:
        values[site.net] = stuck
        first = next((number for number, gate in enumerate(net.gates) if gate.output == site.net), -1) + 1
    for number in range(first, len(net.gates)):
        gate = net.gates[number]
        pins = [values[name] for name in gate.nets]
        if number == site.gate:
            pins[site.pin] = stuck
        values[gate.output] = gate.truth(pins, ones)
    return values


def sites(net: Net) -> List[Site]:
    """Every net, and every pin of every gate."""
    nets = [Site(name) for name in [*net.inputs, *(gate.output for gate in net.gates)]]
    pins = [Site(name, number, pin) for number, gate in enumerate(net.gates) for pin, name in enumerate(gate.nets)]
    return nets + pins


def site_name(net: Net, site: Site) -> str:
    """A net by its name, a pin as CELL/PIN."""
    if site.gate < 0:
        return site.net
    return f"{net.gates[site.gate].name}/{net.gates[site.gate].pins[site.pin]}"


def catches(net: Net, good: Dict[str, int], ones: int, site: Site, held: int) -> int:
    """The vectors under which an output has another value with the fault in than with none."""
    values = work_out_stuck(net, good, ones, site, held)
    caught = 0
    for name in net.outputs:
        caught |= values[name] ^ good[name]
    return caught


def first_and_tally(caught: int) -> Tuple[Optional[int], int]:
    """The first vector that catches a fault, and how many do."""
    if caught == 0:
        return None, 0
    return (caught & -caught).bit_length() - 1, bin(caught).count("1")


def given_values(net: Net, vectors: Sequence[Sequence[int]]) -> List[int]:
    """The values of the inputs, of vectors that are a bit for each input."""
    return [sum(vector[i] << t for t, vector in enumerate(vectors)) for i in range(len(net.inputs))]


# ---- .bench ----

TOKEN = re.compile(r"[(),=\n]|[^\s(),=#]+|#[^\n]*|\s")
BENCH = {**{word: word for word in TRUTHS if word[:5] != "CONST"}, "BUFF": "BUF", "INV": "NOT", "GND": "CONST0", "VDD": "CONST1"}
LEADS = {"CONST0": (0, 0), "CONST1": (0, 0), "NOT": (1, 1), "BUF": (1, 1)}


def statements(text: str) -> List[Tuple[int, List[str]]]:
    """The tokens of each statement, with the line where it begins. A line ends it, but where a bracket is open."""
    found: List[Tuple[int, List[str]]] = []
    tokens: List[str] = []
    line = first = 1
    depth = 0
    for token in TOKEN.findall(text.replace("\r\n", "\n").replace("\r", "\n") + "\n"):
        if token == "\n":
            line += 1
            if tokens and depth <= 0:
                found.append((first, tokens))
                tokens, depth = [], 0
        elif token[0] != "#" and not token.isspace():
            first = first if tokens else line
            depth += (token == "(") - (token == ")")
            tokens.append(token)
    if tokens:
        raise Bad(first, "a bracket that is not closed")
    return found


def between(line: int, tokens: Sequence[str]) -> List[str]:
    """The names in ( name , name .. ), or in ()."""
    names, marks = list(tokens[1:-1:2]), list(tokens[:1]) + list(tokens[2:-1:2]) + list(tokens[-1:])
    if tokens == ["(", ")"]:
        return []
    if len(tokens) % 2 == 0 or marks != ["("] + [","] * (len(names) - 1) + [")"] or any(name in "(),=" for name in names):
        raise Bad(line, "no names in brackets")
    return names


def bench_gate(line: int, tokens: Sequence[str]) -> Gate:
    output, function = tokens[0], BENCH.get(tokens[2].upper(), "") if len(tokens) > 2 else ""
    if len(tokens) < 3 or tokens[1] != "=" or output in "(),=" or not function:
        raise Bad(line, "no gate")
    nets = between(line, tokens[3:]) if len(tokens) > 3 or function[:5] != "CONST" else []
    least, most = LEADS.get(function, (1, len(nets)))
    if not least <= len(nets) <= most:
        raise Bad(line, f"{function}: {len(nets)} pins")
    pins = [net if net not in nets[:at] else f"{net}({nets[:at].count(net) + 1})" for at, net in enumerate(nets)]
    return Gate(output, output, tuple(nets), tuple(pins), TRUTHS[function], line)


def read_bench(text: str) -> Net:
    """A netlist in .bench: statements INPUT(net), OUTPUT(net), net = FUNCTION(net, ..), and net = VDD; # starts a comment."""
    ports: Dict[str, List[Tuple[str, int]]] = {"INPUT": [], "OUTPUT": []}
    gates = []
    for line, tokens in statements(text):
        word = tokens[0].upper()
        if word in ports and tokens[1:2] == ["("]:
            names = between(line, tokens[1:])
            if len(names) != 1:
                raise Bad(line, f"{word} of {len(names)} nets")
            ports[word].append((names[0], line))
        else:
            gates.append(bench_gate(line, tokens))
    if not ports["INPUT"]:
        raise Bad(0, "no input")
    return make(ports["INPUT"], ports["OUTPUT"], gates)
