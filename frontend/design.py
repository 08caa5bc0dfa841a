"""A gate list or a card with names, which is what reports speak of, and the names file. docs/NETLISTS.md has its form."""

from __future__ import annotations

import re
from dataclasses import dataclass, field, replace

from frontend.netlist import MOST_NAME, printable, read_lines, refusal, shown

TYPE_CHECKING = False
if TYPE_CHECKING:
    from collections.abc import Sequence

COMMENT_LENGTH = 200


@dataclass
class Site:
    """Where faults are: a lead or a line (a node or a graph of the card)."""
    name: str  # of a line the net's, of a lead `CELL/PIN`; '' where there is none
    line: int = 0  # of the netlist, 0 where none
    inside: str = ""  # '' for what is the netlist's own, else what it is inside of, as `XOR U608`: it stays out of the netlist's coverage
    file: str = ""  # of that line, where it is not the design's


@dataclass
class Design:
    """The words of a gate list, or of a card, and what its parts are."""
    file: str
    words: list[int]
    is_gates: bool
    inputs: list[str]
    outputs: list[tuple[str, int]]  # name and line; several names may be of one line
    leads: list[Site]
    lines: list[Site]
    notes: list[str] = field(default_factory=list)
    owners: list[int] = field(init=False)  # of each lead the line whose gate it is of

    def __post_init__(self) -> None:
        self.owners = _owners(self.words)


def _owners(words: Sequence[int]) -> list[int]:
    owners = []
    line = -1
    for word in words:
        if word >> 29 < 3:
            line += 1
        elif word >> 29 == 3:
            owners.append(line)
    return owners


def bare_design(file: str, words: Sequence[int], is_gates: bool) -> Design:
    """The design of words that nobody gave names to. The words of an accepted gate list or card."""
    headers = [word for word in words if word >> 29 < 3]
    leads = sum(word >> 29 == 3 for word in words)
    inputs = sum(word >> 29 == 0 for word in headers)
    noun = "line" if is_gates else "graph"
    outputs = [(f"{noun}{at}", at) for at, word in enumerate(headers) if word >> 29 == 2]
    return Design(file, list(words), is_gates, [f"input{at}" for at in range(inputs)], outputs,
                  [Site("") for _ in range(leads)], [Site("") for _ in headers])


# ---- faults and comments ----


def fault_site(design: Design, fault: int) -> Site:
    """The site of a fault: leads come first."""
    at, leads = fault // 2, len(design.leads)
    return design.leads[at] if at < leads else design.lines[at - leads]


def fault_name(design: Design, fault: int) -> str:
    """`U608/A stuck-at-1, line 129, lead 173`: the line and the lead have the numbers of the gate list, or graph and node those of the card."""
    at, leads = fault // 2, len(design.leads)
    line_noun, lead_noun = ("line", "lead") if design.is_gates else ("graph", "node")
    site = fault_site(design, fault)
    if at < leads:
        numbers = [f"{line_noun} {design.owners[at]}", f"{lead_noun} {at}"]
    else:
        numbers = [f"{line_noun} {at - leads}"]
    name = site.name or numbers.pop()
    inside = [f"inside {site.inside}"] if site.inside else []
    return ", ".join([f"{name} stuck-at-{fault % 2}", *numbers, *inside])


def own_faults(design: Design) -> list[int]:
    """The faults of what is the netlist's own. A pin that several gates read, as of an XOR, is there by its BUF line."""
    return [2 * at + stuck for at, site in enumerate([*design.leads, *design.lines]) if not site.inside for stuck in (0, 1)]


def graph_comment(design: Design, graph: int) -> str:
    """What a comment says of graph g, which is line g; '' where it has no name."""
    return _comment(design.lines[graph])


def node_comment(design: Design, node: int) -> str:
    """What a comment says of node j, which is lead j."""
    return _comment(design.leads[node])


def _comment(site: Site) -> str:
    parts = [site.name] if site.name else []
    if site.inside:
        parts.append(f"inside {site.inside}")
    return shown(", ".join(parts), COMMENT_LENGTH)


_FUNCTIONS = ("AND", "OR", "NAND", "NOR", "NOT", "BUF")


def gates_text(design: Design) -> str:
    """The design's gate list as a text of words, with its names in comments."""
    lines: list[str] = []
    line = lead = 0
    for word in design.words:
        if word >> 29 == 3:
            what, name = f"  lead {lead} names line {word & 0xFFFF}", node_comment(design, lead)
            lead += 1
        else:
            kind = f"{_FUNCTIONS[word >> 26 & 7]}, {'hidden' if word >> 29 == 1 else 'observable'}" if word >> 29 else "input"
            what, name = f"line {line}, {kind}", graph_comment(design, line)
            line += 1
        lines.append(f"{word:08X}  # {what}{': ' if name else ''}{name}\n")
    return "".join(lines)


# ---- the names file ----

_HEAD = """\
# Names for {file}.
# input, line and lead with their number in the gate list (line and lead are also graph and node of its card), the name, @ and the
# line of the netlist, and `inside` where it is not the netlist's own; output with its line and name.
"""
_NOUNS = {"input": "line", "line": "line", "graph": "line", "lead": "lead", "node": "lead", "output": "output"}
_COMMENT = re.compile(r"(^|\s)#.*")
_ESCAPED = re.compile("%([0-9A-Fa-f]{1,6});")


def write_names(design: Design) -> str:
    """The text of a names file."""
    lines = [_HEAD.format(file=printable(design.file))]
    lines += [f"# {printable(note)}\n" for note in design.notes]
    nouns = ("line", "lead") if design.is_gates else ("graph", "node")
    for at, site in enumerate(design.lines):
        noun = "input" if at < len(design.inputs) else nouns[0]
        lines.append(_names_line(noun, at, site, design.inputs[at] if noun == "input" else site.name))
    lines += [_names_line(nouns[1], at, site, site.name) for at, site in enumerate(design.leads)]
    lines += [f"output {line} {_escape(name)}\n" for name, line in design.outputs]
    return "".join(lines)


def _names_line(noun: str, at: int, site: Site, name: str) -> str:
    place = f"{site.file}:{site.line}" if site.file else str(site.line)
    parts = [noun, str(at), _escape(name)] + ([f"@{_escape(place)}"] if site.line else [])
    if site.inside:
        parts += ["inside", *map(_escape, site.inside.split())]
    return " ".join(parts) + "\n"


def _escape(name: str) -> str:
    """A name as one word that is no comment: what would not do is written as %hexadecimal; and a missing name as -."""
    if name == "-":
        return "%2D;"
    out = "".join(f"%{ord(each):X};" if each in " %" or not each.isprintable() else each for each in name)
    return ("%23;" + out[1:] if out.startswith("#") else out) or "-"


def _unescape(word: str) -> str:
    def character(found: re.Match[str]) -> str:
        number = int(found[1], 16)
        return chr(number) if number < 0x110000 else "?"
    return "" if word == "-" else _ESCAPED.sub(character, word)


@dataclass
class Names:
    """What a names file says: of each line and lead a site, and the line of the file that says it."""
    file: str
    sites: dict[tuple[str, int], tuple[Site, int]] = field(default_factory=dict)  # by `line` or `lead` and number
    inputs: dict[int, int] = field(default_factory=dict)  # which are told to be inputs, and where
    outputs: list[tuple[str, int, int]] = field(default_factory=list)  # name, number and where


def read_names(path: str) -> Names:
    """A names file, whichever of the numbers it has names for."""
    names = Names(path)
    for at, text in enumerate(read_lines(path), 1):
        words = _COMMENT.sub("", text).split()
        if words:
            _take_names_line(names, at, words)
    return names


def _take_names_line(names: Names, at: int, words: list[str]) -> None:
    noun = _NOUNS.get(words[0])
    if noun is None or len(words) < 3 or not re.fullmatch("[0-9]{1,6}", words[1]):
        raise refusal(names.file, at, f"no input, line, lead or output with a number and a name: {shown(' '.join(words))}")
    number, name = int(words[1]), printable(_unescape(words[2]))
    if len(name) > MOST_NAME:
        raise refusal(names.file, at, f"a name of {len(name):,} characters; {MOST_NAME:,} are the most")
    site = Site(name)
    if left := _take_extras(site, words[3:]):
        raise refusal(names.file, at, f"neither @ and a line nor `inside`: {shown(left)}")
    if noun == "output":
        names.outputs.append((name, number, at))
        return
    if (noun, number) in names.sites:
        raise refusal(names.file, at, f"{noun} {number} has a name already, in line {names.sites[noun, number][1]}")
    names.sites[noun, number] = (site, at)
    if words[0] == "input":
        names.inputs[number] = at


def _take_extras(site: Site, words: list[str]) -> str:
    """Takes in @LINE and `inside WHAT`; gives a word that is neither, or ''."""
    if words and (place := re.fullmatch("@(?:(.*):)?([0-9]{1,9})", words[0])):
        site.file, site.line = printable(_unescape(place[1] or "-")), int(place[2])
        words = words[1:]
    if words[:1] == ["inside"] and len(words) > 1:
        site.inside = printable(" ".join(map(_unescape, words[1:])))
        return ""
    return words[0] if words else ""


def give_names(design: Design, names: Names) -> Design:
    """The design with the names of a file; what the file does not name stays as it is."""
    result = replace(design, inputs=list(design.inputs), leads=list(design.leads), lines=list(design.lines))
    rooms = {"line": result.lines, "lead": result.leads}
    for (noun, number), (site, at) in names.sites.items():
        if number >= len(rooms[noun]):
            raise refusal(names.file, at, f"{noun} {number}: {shown(design.file)} has {len(rooms[noun]):,}, from 0")
        rooms[noun][number] = site
        if noun == "line" and number < len(result.inputs) and site.name:
            result.inputs[number] = site.name
    for number, at in names.inputs.items():
        if number >= len(result.inputs):
            raise refusal(names.file, at, f"line {number} of {shown(design.file)} is no input")
    _check_inputs(result, names)
    result.outputs = _output_names(result, names)
    return result


def _check_inputs(design: Design, names: Names) -> None:
    """Vectors are told by the inputs' names."""
    seen: dict[str, int] = {}
    for number, name in enumerate(design.inputs):
        if seen.setdefault(name, number) != number:
            at = names.sites.get(("line", number), names.sites.get(("line", seen[name]), (None, 0)))[1]
            raise refusal(names.file, at, f"{shown(name)}: the name of inputs {seen[name]} and {number}")


def _output_names(design: Design, names: Names) -> list[tuple[str, int]]:
    """Outputs have the names that the file gives them, in its order; the others after them those of their lines."""
    observable = {number for _, number in design.outputs}
    given = [(name, number) for name, number, _ in names.outputs if name]
    for _, number, at in names.outputs:
        if number not in observable:
            raise refusal(names.file, at, f"line {number} of {shown(design.file)} is not observable")
    named = {number for _, number in given}
    return given + [(design.lines[number].name or name, number) for name, number in design.outputs if number not in named]
