"""A reader of the tests' own for BLIF, models of .names and .gate. What it gives is netsim's form; a .names is worked out by its rows."""
from typing import Dict, List, Sequence, Tuple

from netcells import library_cell
from netsim import TRUTHS, Bad, Gate, Net, Truth, make, one, zero

SKIPPED = (".attr", ".param", ".cname", ".area", ".delay", ".wire_load_slope", ".wire", ".input_arrival", ".output_required",
           ".default_input_arrival", ".default_output_required", ".input_drive", ".default_input_drive", ".output_load",
           ".default_output_load", ".max_input_load", ".default_max_input_load")


def covered(rows: Sequence[str], value: str) -> Truth:
    """The function that is `value` where the pins fit a row, and else the opposite."""
    def truth(pins: Sequence[int], ones: int) -> int:
        fits = 0
        for row in rows:
            term = ones
            for figure, pin in zip(row, pins):
                if figure != "-":
                    term &= pin if figure == "1" else ones ^ pin
            fits |= term
        return fits if value == "1" else ones ^ fits
    return truth


def pin_names(nets: Sequence[str]) -> Tuple[str, ...]:
    return tuple(net if net not in nets[:at] else f"{net}({nets[:at].count(net) + 1})" for at, net in enumerate(nets))


def blif_names(nets: Sequence[str], rows: Sequence[Tuple[int, List[str]]], line: int) -> Gate:
    """A .names with its rows. A pin that no row reads is none, nor is any of a cover with a row that reads nothing."""
    *inputs, output = nets
    parts = [(["", *words] if not inputs else words) for _, words in rows]
    for (at, _), words in zip(rows, parts):
        if len(words) != 2 or len(words[0]) != len(inputs) or set(words[0]) - set("01-") or words[1] not in ("0", "1"):
            raise Bad(at, f"{output}: a row")
    if len({words[1] for words in parts}) > 1:
        raise Bad(line, f"{output}: rows for 0 and for 1")
    figures = [words[0] for words in parts]
    value = parts[0][1] if parts else "1"
    read = [at for at in range(len(inputs)) if any(row[at] != "-" for row in figures)]
    if any(set(row) <= {"-"} for row in figures):
        read = []
    kept = [inputs[at] for at in read]
    truth = covered(["".join(row[at] for at in read) for row in figures], value)
    return Gate(output, output, tuple(kept), pin_names(kept), truth, line)


def blif_gate(words: Sequence[str], line: int) -> Gate:
    """A gate of a library whose inputs are all alike, by its name and those of its pins."""
    if any(not all(word.partition("=")) for word in words[1:]):
        raise Bad(line, "its pins")
    pins = [(word.split("=", 1)[0], word.split("=", 1)[1]) for word in words[1:]]
    if len(dict(pins)) < len(pins):
        raise Bad(line, "a pin twice")
    if len(pins) == 1 and words[0].lower() in ("zero", "one"):
        return Gate(pins[0][1], pins[0][1], (), (), zero if words[0].lower() == "zero" else one, line)
    try:
        output, truth = library_cell(words[0], [pin for pin, _ in pins])
    except KeyError:
        raise Bad(line, f"{words[0]}: no gate") from None
    inputs = [pin for pin in pins if pin[0] != output]
    net = dict(pins)[output]
    return Gate(net, net, tuple(pin[1] for pin in inputs), tuple(pin[0] for pin in inputs), truth, line)


def blif_statements(text: str) -> List[Tuple[int, List[str]]]:
    """The words of each statement, with the line where it begins: a backslash at a line's end goes on."""
    found: List[Tuple[int, List[str]]] = []
    words: List[str] = []
    open_line = 0
    for line, whole in enumerate(text.replace("\r\n", "\n").replace("\r", "\n").split("\n"), 1):
        whole = whole.split("#")[0].rstrip()
        open_line = open_line or line
        words += whole.rstrip("\\").split()
        if not whole.endswith("\\"):
            found += [(open_line, words)] if words else []
            words, open_line = [], 0
    return found + ([(open_line, words)] if words else [])


def read_blif(text: str) -> Net:
    """A model of .names and .gate."""
    ports: Dict[str, List[Tuple[str, int]]] = {".inputs": [], ".outputs": []}
    gates: List[Gate] = []
    models, ended = 0, False
    left = blif_statements(text)
    while left:
        line, words = left.pop(0)
        word = words[0]
        models += word == ".model"
        if models > 1 or ended and word != ".model":
            raise Bad(line, "a second model, or what follows the end")
        if word in ports:
            ports[word] += [(net, line) for net in words[1:]]
        elif word == ".names" and len(words) > 1:
            rows = []
            while left and left[0][1][0][0] != ".":
                rows.append(left.pop(0))
            gates.append(blif_names(words[1:], rows, line))
        elif word == ".gate" and len(words) > 2:
            gates.append(blif_gate(words[1:], line))
        elif word in (".barbuf", ".conn") and len(words) == 3:
            gates.append(Gate(words[2], words[2], (words[1],), (words[1],), TRUTHS["BUF"], line))
        elif word == ".end":
            ended = True
        elif word != ".model" and word not in SKIPPED:
            raise Bad(line, f"{word}: no statement")
    if not ended or not ports[".inputs"]:
        raise Bad(0, "no end, or no input")
    return make(ports[".inputs"], ports[".outputs"], gates)
