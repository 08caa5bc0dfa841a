"""A netlist as the front end converts it, beside the netlist itself: every value, and every stuck pin and net.

The front end's part is a Design: the words of a gate list, with a name for each lead and line. The engine works it out and grades it; netsim
works out the netlist as it is written. Both must agree, place by place.
"""
import random
from collections import Counter
from dataclasses import dataclass, field
from typing import Any, Dict, List, Optional, Sequence, Tuple

from archive import Archive
from netsim import Net, Site, catches, first_and_tally, given_values, site_name, sites, work_out

Vectors = Sequence[Sequence[int]]
Grade = Sequence[Tuple[Optional[int], int]]  # of each fault of the card its first vector and its tally


class Differs(Exception):
    """What is not as it must be."""


@dataclass
class Counts:
    """What was compared."""
    netlists: int = 0
    values: int = 0
    faults: int = 0
    caught: int = 0
    by_name: Dict[str, Tuple[int, int, int, int]] = field(default_factory=dict)


def random_vectors(dice: random.Random, inputs: int, count: int) -> List[Tuple[int, ...]]:
    """With all values 0 and all 1 among them, and ones that are repeated."""
    made = [(0,) * inputs, (1,) * inputs] + [tuple(dice.getrandbits(1) for _ in range(inputs)) for _ in range(count - 2)]
    for _ in range(count // 20):
        made[dice.randrange(count)] = made[dice.randrange(count)]
    return made


def places(net: Net, names: Dict[str, str], design: Any) -> Dict[Site, List[int]]:
    """The numbers that each net and pin has among the leads and lines: of those that are the netlist's own, and of constants and inputs."""
    pins = {site_name(net, site): site for site in sites(net) if site.gate >= 0}
    nets = set(net.inputs) | {gate.output for gate in net.gates}
    found: Dict[Site, List[int]] = {}
    for number, place in enumerate([*design.leads, *design.lines]):
        line = number - len(design.leads)
        site = pins.get(place.name) or Site(names.get(place.name, place.name))
        if line >= 0 and (line < len(design.inputs) or place.inside == "constant") and place.name not in pins and site.net in nets:
            found.setdefault(site, []).append(number)
        elif not place.inside:
            if line < 0 and place.name not in pins or site.net not in nets:
                raise Differs(f"{place.name}: the netlist has no such pin or net")
            found.setdefault(site, []).append(number)
    return found


def check_ends(net: Net, names: Dict[str, str], design: Any) -> None:
    """The inputs in their order, and the outputs, which are all that is observable."""
    inputs = tuple(names.get(name, name) for name in design.inputs)
    if inputs != net.inputs:
        raise Differs(f"the inputs are {inputs}, and not {net.inputs}")
    outputs = list(dict.fromkeys(names.get(name, name) for name, _ in design.outputs))
    if outputs != list(net.outputs):
        raise Differs(f"the outputs are {outputs}, and not {net.outputs}")
    headers = [word for word in design.words if word >> 29 < 3]
    if {line for _, line in design.outputs} != {line for line, word in enumerate(headers) if word >> 29 == 2}:
        raise Differs("other lines are observable than the outputs")


def compare_values(names: Dict[str, str], design: Any, got: Sequence[int], good: Dict[str, int], where: Dict[Site, List[int]]) -> int:
    """The values of all nets that the gate list has, and of the outputs."""
    lines = [(site.net, number - len(design.leads)) for site, numbers in where.items() if site.gate < 0 for number in numbers]
    lines += [(names.get(name, name), line) for name, line in design.outputs]
    for name, line in lines:
        if got[line] != good[name]:
            vector, _ = first_and_tally(got[line] ^ good[name])
            raise Differs(f"{name}: its value under vector {vector}")
    return len(lines)


def reached(net: Net) -> Dict[str, bool]:
    """Of each net whether an output depends on it."""
    seen = dict.fromkeys(net.outputs, True)
    for gate in reversed(net.gates):
        if gate.output in seen:
            seen.update(dict.fromkeys(gate.nets, True))
    return seen


def compare(counts: Counts, archive: Archive, label: str, net: Net, names: Dict[str, str], design: Any, vectors: Vectors, stride: int = 1) -> None:
    """Values, and first vector and tally of every fault, or of those of one site in `stride`."""
    check_ends(net, names, design)
    where = places(net, names, design)
    card = archive.card(design.words)
    ones = (1 << len(vectors)) - 1
    good = work_out(net, given_values(net, vectors), ones)
    values = compare_values(names, design, archive.values(card, vectors), good, where)
    grade = archive.grade(card, vectors)
    caught = compare_faults(net, good, ones, grade, where, stride)
    if stride == 1:
        got, want = coverage(design, grade), own_coverage(net, caught)
        if got != want:
            raise Differs(f"of the netlist's own faults, counted once, {got} are caught and there, and not {want}")
    counts.netlists += 1
    counts.values += values * len(vectors)
    counts.faults += 2 * len(caught)
    counts.caught += sum(caught.values())
    counts.by_name[label] = (len(net.inputs), len(net.gates), 2 * len(caught), sum(caught.values()))


def compare_faults(net: Net, good: Dict[str, int], ones: int, grade: Grade, where: Dict[Site, List[int]], stride: int) -> Dict[Site, int]:
    """How many of the two faults of each site are caught, once all are found to be as they must be."""
    alive = reached(net)
    caught: Dict[Site, int] = {}
    for site in sites(net)[::stride]:
        if site not in where and (net.gates[site.gate].output if site.gate >= 0 else site.net) in alive:
            raise Differs(f"{site_name(net, site)}: the gate list does not have it")
        caught[site] = 0
        for held in (0, 1):
            want = first_and_tally(catches(net, good, ones, site, held))
            for got in [grade[2 * number + held] for number in where.get(site, ())] or [(None, 0)]:
                if got != want:
                    raise Differs(f"{site_name(net, site)} stuck at {held}: first vector and tally {got}, and not {want}")
            caught[site] += want[1] > 0
    return caught


# ---- the coverage ----

def coverage(design: Any, grade: Grade) -> Tuple[int, int]:
    """Of the faults that the front end calls the netlist's own and that count on the card, how many are caught, and how many there are."""
    headers = [word for word in design.words if word >> 29 < 3]
    readers = Counter(word & 0xFFFF for word in design.words if word >> 29 == 3)
    caught = total = 0
    for number, place in enumerate([*design.leads, *design.lines]):
        line = number - len(design.leads)
        if place.inside or line >= 0 and headers[line] >> 29 != 2 and readers[line] == 1:
            continue
        caught += sum(grade[2 * number + held][1] > 0 for held in (0, 1))
        total += 2
    return caught, total


def own_coverage(net: Net, caught: Dict[Site, int]) -> Tuple[int, int]:
    """The same of the netlist: every pin counts, and every net but one that is no output and has a single pin; constants do not, nor does what
    no output depends on."""
    alive = reached(net)
    gates = [gate for gate in net.gates if gate.output in alive]
    readers = Counter(name for gate in gates for name in gate.nets)
    constants = {gate.output for gate in gates if not gate.nets}
    counted = [site for site in caught if (net.gates[site.gate].output in alive if site.gate >= 0 else
               site.net in alive and site.net not in constants and (site.net in net.outputs or readers[site.net] != 1))]
    return sum(caught[site] for site in counted), 2 * len(counted)
