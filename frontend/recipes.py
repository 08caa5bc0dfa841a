"""What a cell is made of: gates that a gate list has.

A pin that one gate alone reads is a lead of that gate, and the pin's faults are the lead's. A pin that several read becomes a BUF line
of its own first (frontend.lower), whose faults are the pin's.
"""

from __future__ import annotations

from frontend.netlist import Step

TYPE_CHECKING = False
if TYPE_CHECKING:
    from collections.abc import Sequence

# The functions of a gate list, by number.
FUNCTIONS = ("AND", "OR", "NAND", "NOR", "NOT", "BUF")
_ALONE = {"AND": "BUF", "OR": "BUF", "XOR": "BUF", "BUF": "BUF", "NAND": "NOT", "NOR": "NOT", "XNOR": "NOT", "NOT": "NOT"}

# Cells that are several gates, with their pins in the order A, B, .. and the select pin of a multiplexer last.
_FIXED = {
    "ANDNOT": (Step("NOT", (1,)), Step("AND", (0, ~0))),
    "ORNOT": (Step("NOT", (1,)), Step("OR", (0, ~0))),
    "MUX": (Step("NOT", (2,)), Step("NAND", (0, ~0)), Step("NAND", (1, 2)), Step("NAND", (~1, ~2))),
    "NMUX": (Step("NOT", (2,)), Step("NAND", (0, ~0)), Step("NAND", (1, 2)), Step("AND", (~1, ~2))),
    "AOI3": (Step("AND", (0, 1)), Step("NOR", (~0, 2))),
    "OAI3": (Step("OR", (0, 1)), Step("NAND", (~0, 2))),
    "AOI4": (Step("AND", (0, 1)), Step("AND", (2, 3)), Step("NOR", (~0, ~1))),
    "OAI4": (Step("OR", (0, 1)), Step("OR", (2, 3)), Step("NAND", (~0, ~1))),
}
_PINS = {"ANDNOT": 2, "ORNOT": 2, "MUX": 3, "NMUX": 3, "AOI3": 3, "OAI3": 3, "AOI4": 4, "OAI4": 4, "NOT": 1, "BUF": 1}
CONSTANTS = ("CONST0", "CONST1")
# A cell that has its steps with it.
GIVEN = ".names"


def form_error(kind: str, count: int) -> str:
    """What is wrong with a cell of this kind and number of pins, or ''."""
    if kind in CONSTANTS:
        return "" if count == 0 else f"{kind} has no inputs"
    if kind not in _ALONE and kind not in _FIXED and kind != GIVEN:
        return f"{kind}: no gate that is known"
    wanted = _PINS.get(kind)
    if wanted is not None and count != wanted:
        return f"{kind} takes {wanted} input{'s' if wanted > 1 else ''}, and has {count:,}"
    return f"{kind} without an input" if count == 0 else ""


def steps_of(kind: str, count: int) -> tuple[Step, ...]:
    """The gates of a cell whose form is right; the last one drives its net."""
    if kind in _FIXED:
        return _FIXED[kind]
    if count == 1:
        return (Step(_ALONE[kind], (0,)),)
    if kind in ("XOR", "XNOR"):
        return _xor_steps(count, kind == "XNOR")
    return (Step(kind, tuple(range(count))),)


def _xor_steps(count: int, inverted: bool) -> tuple[Step, ...]:
    """Four NANDs for two pins, and four more for each further pin; in the place of the last NAND an AND inverts."""
    steps: list[Step] = []
    left = 0
    for pin in range(1, count):
        first = ~len(steps)
        last = "AND" if inverted and pin == count - 1 else "NAND"
        steps += [Step("NAND", (left, pin)), Step("NAND", (left, first)), Step("NAND", (pin, first)), Step(last, (first - 1, first - 2))]
        left = first - 3
    return tuple(steps)


# ---- covers of BLIF ----


def cover_cell(rows: Sequence[str], on: bool) -> tuple[str, tuple[Step, ...]]:
    """The kind of a cell by the rows of its cover, each of 0, 1 and -, and where it is no gate its steps.

    The rows tell where the value is 1, or 0 where `on` is false. Each column has a 0 or a 1 in some row.
    """
    rows = list(dict.fromkeys(rows))
    if not rows:
        return "CONST0", ()
    if any(not row.strip("-") for row in rows):
        return "CONST1" if on else "CONST0", ()
    kind = _gate_of(rows, on)
    return (kind, ()) if kind else (GIVEN, _cover_steps(rows, on))


def _gate_of(rows: Sequence[str], on: bool) -> str:
    """The gate that a cover is, or ''."""
    figures = set("".join(rows)) - {"-"}
    count = len(rows[0])
    if len(figures) == 1 and len(rows) == 1:
        return {"1": ("NAND", "AND"), "0": ("OR", "NOR")}[figures.pop()][on]
    if len(figures) == 1 and len(rows) == count and all(row.count("-") == count - 1 for row in rows):
        return {"1": ("NOR", "OR"), "0": ("AND", "NAND")}[figures.pop()][on]
    odd = {row.count("1") % 2 for row in rows}
    if 2 <= count <= 8 and len(rows) == 2 ** (count - 1) and len(odd) == 1 and not any("-" in row for row in rows):
        return "XOR" if (odd == {1}) == on else "XNOR"
    return ""


def _cover_steps(rows: Sequence[str], on: bool) -> tuple[Step, ...]:
    """A NOT for each pin that is read as 0, an AND for each row, and an OR of the rows; what is off is inverted last."""
    steps: list[Step] = []
    inverted: dict[int, int] = {}

    def put(function: str, sources: Sequence[int]) -> int:
        steps.append(Step(function, tuple(sources)))
        return ~(len(steps) - 1)

    for pin in range(len(rows[0])):
        if any(row[pin] == "0" for row in rows):
            inverted[pin] = put("NOT", (pin,))
    terms = [[inverted[pin] if each == "0" else pin for pin, each in enumerate(row) if each != "-"] for row in rows]
    if len(terms) == 1:
        put("AND" if on else "NAND", terms[0])
    else:
        put("OR" if on else "NOR", [term[0] if len(term) == 1 else put("AND", term) for term in terms])
    return tuple(steps)
