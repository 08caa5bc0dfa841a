"""What a grading says of a design: the numbers and lists that the report, the tables and the page show."""

from __future__ import annotations

from dataclasses import dataclass

from frontend.design import own_faults
from frontend.errors import Failed
from frontend.labels import Labels
from frontend.structure import constant_pairs, equivalent_faults, groups, reader_pairs

TYPE_CHECKING = False
if TYPE_CHECKING:
    from collections.abc import Iterator, Sequence
    from typing import Optional

    from frontend.design import Design
    from frontend.grading import Grading
    from frontend.structure import Structure


@dataclass(frozen=True)
class Share:
    """So many of so many."""

    caught: int
    total: int

    @property
    def hundredths(self) -> int:
        """Of a percent, rounded; a design has too few faults for a share below the whole to round to it."""
        return (20000 * self.caught + self.total) // (2 * self.total) if self.total else 0

    @property
    def percent(self) -> str:
        if not self.total:
            return "-"
        return f"{self.hundredths // 100}.{self.hundredths % 100:02} %"

    @property
    def counts(self) -> str:
        return f"{self.caught:,} of {self.total:,}"


@dataclass
class Summary:
    """A graded design. A group is the own faults that are equivalent to each other, the one that stands for them first."""

    design: Design
    grading: Grading
    labels: Labels
    source: str  # where the vectors are from
    own: list[int]  # the faults that the coverage is about
    stands: list[Optional[int]]  # by fault: the own fault that stands for it, itself or an equivalent one
    groups: list[list[int]]
    each: Share  # every own fault for itself
    uncollapsed: Share  # a line and its only lead counted once
    collapsed: Share  # equivalent faults counted once
    growth: list[tuple[int, int]]  # after so many vectors so many groups are caught: where the number grows
    uncaught: list[list[int]]
    firsts: list[int]  # vectors that are some own fault's first
    essential: list[int]  # those of them that catch a fault which no other vector catches
    unseen: set[int]  # own faults on which nothing observable depends: no vector catches them

    def caught_after(self, vectors: int) -> int:
        """How many groups the first so many vectors catch."""
        return max((caught for upto, caught in self.growth if upto <= vectors), default=0)

    @property
    def idle(self) -> list[int]:
        """Vectors that are nobody's first."""
        firsts = set(self.firsts)
        return [vector for vector in range(self.grading.vectors) if vector not in firsts]

    @property
    def inside(self) -> int:
        """How many faults are inside of what stands for a part of the netlist, and none of its own."""
        return self.grading.faults - len(self.own)


def same_line(design: Design, card: Structure) -> Iterator[tuple[int, int]]:
    """Pairs of faults that are of one line of the netlist: of a line and its only lead, and of a lead that is a line of its own, as an XOR's is,
    and of what leads to it."""
    yield from reader_pairs(card)
    for graph in range(card.inputs, card.graphs):
        nodes = card.nodes_of(graph)
        if len(nodes) == 1 and design.leads[nodes[0]].inside and not design.lines[graph].inside:
            yield from constant_pairs(card, graph)


def own_groups(own: Sequence[int], least: Sequence[int], counts: Sequence[bool]) -> list[list[int]]:
    """The own faults by group, and in each the ones that count in the grade first."""
    found: dict[int, list[int]] = {}
    for fault in sorted(own, key=lambda fault: (not counts[fault], fault)):
        found.setdefault(least[fault], []).append(fault)
    return sorted(found.values())


def share(found: list[list[int]], grading: Grading) -> Share:
    return Share(sum(1 for group in found if grading.tallies[group[0]]), len(found))


def check_groups(found: list[list[int]], grading: Grading, labels: Labels) -> None:
    """Equivalent faults have equal first vectors and tallies: each grading shows it anew."""
    for group in found:
        for fault in group[1:]:
            if (grading.marks[fault], grading.tallies[fault]) != (grading.marks[group[0]], grading.tallies[group[0]]):
                raise Failed(f"{labels.fault(fault)} and {labels.fault(group[0])} are taken for equivalent and graded differently")


def growth(found: list[list[int]], grading: Grading) -> list[tuple[int, int]]:
    firsts = sorted(mark for mark in (grading.marks[group[0]] for group in found) if mark is not None)
    last = {mark + 1: caught for caught, mark in enumerate(firsts, 1)}
    return list(last.items())


def seen_graphs(card: Structure) -> list[bool]:
    """By graph: whether it is observable, or something observable can depend on it."""
    seen = list(card.observable)
    for graph in reversed(range(card.graphs)):
        seen[graph] = seen[graph] or any(seen[card.owner[node]] for node in card.readers[graph])
    return seen


def unseen_faults(own: Sequence[int], card: Structure) -> set[int]:
    seen = seen_graphs(card)
    sites = [seen[card.owner[node]] for node in range(card.nodes)] + seen
    return {fault for fault in own if not sites[fault // 2]}


def summarize(design: Design, grading: Grading, source: str = "") -> Summary:
    """Everything that reports tell. `source` says where the vectors are from."""
    card = grading.structure
    if (len(design.leads), len(design.lines)) != (card.nodes, card.graphs):
        raise ValueError("the design is not that of the card")
    labels = Labels(design, card)
    own = sorted(own_faults(design))
    lines = groups(card.faults, same_line(design, card))
    least = groups(card.faults, equivalent_faults(card))
    found = own_groups(own, least, grading.counts_in_grade)
    check_groups(found, grading, labels)
    standing = {least[group[0]]: group[0] for group in found}
    firsts = {mark for mark in (grading.marks[fault] for fault in own) if mark is not None}
    essential = {mark for mark in (grading.marks[fault] for fault in own if grading.tallies[fault] == 1) if mark is not None}
    return Summary(
        design=design,
        grading=grading,
        labels=labels,
        source=source,
        own=own,
        stands=[standing.get(each) for each in least],
        groups=found,
        each=share([[fault] for fault in own], grading),
        uncollapsed=share(own_groups(own, lines, grading.counts_in_grade), grading),
        collapsed=share(found, grading),
        growth=growth(found, grading),
        uncaught=[group for group in found if not grading.tallies[group[0]]],
        firsts=sorted(firsts),
        essential=sorted(essential),
        unseen=unseen_faults(own, card),
    )
