"""What a card is made of, from its words, and which of its faults are the same.

The words are those of a card that the engine has accepted: nothing is checked here.
"""

from __future__ import annotations

from dataclasses import dataclass, field

TYPE_CHECKING = False
if TYPE_CHECKING:
    from collections.abc import Iterable, Iterator, Sequence
    from typing import Optional

INPUT, HIDDEN, OBSERVABLE, READ = 0, 1, 2, 3  # a word's kind, in its top three bits
EXIT_BITS = 14
INVERTED = 1 << 16


@dataclass
class Structure:
    """A card's graphs and nodes. Fault 2j or 2j + 1 is node j stuck at its 0-exit or 1-exit, and 2N + 2g or 2N + 2g + 1 is graph g held."""

    inputs: int = 0
    observable: list[bool] = field(default_factory=list)  # by graph
    first: list[int] = field(default_factory=list)  # by graph: its first node; the next graph's follow its own
    readers: list[list[int]] = field(default_factory=list)  # by graph: the nodes that read it
    owner: list[int] = field(default_factory=list)  # by node: the graph in which it stands
    reads: list[int] = field(default_factory=list)  # by node: the graph that it reads
    inverted: list[bool] = field(default_factory=list)  # by node
    exits: list[tuple[int, int]] = field(default_factory=list)  # by node, as the words have them

    @property
    def graphs(self) -> int:
        return len(self.observable)

    @property
    def nodes(self) -> int:
        return len(self.reads)

    @property
    def faults(self) -> int:
        return 2 * self.nodes + 2 * self.graphs

    def graph_fault(self, graph: int, value: int) -> int:
        return 2 * self.nodes + 2 * graph + value

    def nodes_of(self, graph: int) -> range:
        return range(self.first[graph], self.first[graph + 1] if graph + 1 < self.graphs else self.nodes)


def read_structure(card: Sequence[int]) -> Structure:
    """Takes an accepted card's words apart."""
    made = Structure()
    for word in card:
        kind = word >> 29
        if kind <= OBSERVABLE:
            made.inputs += kind == INPUT
            made.observable.append(kind == OBSERVABLE)
            made.first.append(made.nodes)
            made.readers.append([])
        elif kind == READ:
            graph = word & 0xFFFF
            made.readers[graph].append(made.nodes)
            made.owner.append(made.graphs - 1)
            made.reads.append(graph)
            made.inverted.append(bool(word & INVERTED))
        else:
            made.exits.append((word >> EXIT_BITS & (1 << EXIT_BITS) - 1, word & (1 << EXIT_BITS) - 1))
    return made


def only_reader(card: Structure, graph: int) -> Optional[int]:
    """The node whose faults count in the place of the graph's: where the graph is not observable and one node alone reads it."""
    readers = card.readers[graph]
    return readers[0] if len(readers) == 1 and not card.observable[graph] else None


def paired_faults(card: Structure) -> list[Optional[int]]:
    """By fault: the reader's fault with which one that does not count is paired, crossed at an inverted read; None where the fault counts."""
    pairs: list[Optional[int]] = [None] * card.faults
    for graph in range(card.graphs):
        reader = only_reader(card, graph)
        if reader is not None:
            for value in (0, 1):
                pairs[card.graph_fault(graph, value)] = 2 * reader + (value ^ card.inverted[reader])
    return pairs


def constant_faults(card: Structure, graph: int) -> Iterator[tuple[int, int]]:
    """The faults of a graph's nodes with which the graph is a constant whatever it reads, each with that constant.

    A node stuck at one exit never takes the other. Where every path from the entrance to the constant 1 uses that other exit, the graph is 0,
    and the other way round. Paths are counted, so a graph of n nodes takes n steps. Of a gate these are its leads stuck at the controlling
    value, and both faults of a gate's only lead.
    """
    nodes = card.nodes_of(graph)
    exits = [card.exits[node] for node in nodes]
    onward = [(1, 0), (0, 1)] + [(0, 0)] * len(exits)  # by exit: how many paths go on to the constants 0 and 1
    for node in reversed(range(len(exits))):
        zero, one = (onward[at] for at in exits[node])
        onward[node + 2] = (zero[0] + one[0], zero[1] + one[1])
    arriving = [0, 0, 1] + [0] * len(exits)  # by exit: how many paths come to it
    for node, both in enumerate(exits):
        for value in (0, 1):
            for constant in (0, 1):
                lost = 1 - constant
                if arriving[node + 2] * onward[both[1 - value]][lost] == onward[2][lost]:
                    yield 2 * nodes[node] + value, constant
        for at in both:
            arriving[at] += arriving[node + 2]


def reader_pairs(card: Structure) -> Iterator[tuple[int, int]]:
    """Pairs of faults that no vector tells apart: a graph's and its only reader's."""
    for fault, other in enumerate(paired_faults(card)):
        if other is not None:
            yield fault, other


def constant_pairs(card: Structure, graph: int) -> Iterator[tuple[int, int]]:
    """And a node's and its graph's, where the node's makes the graph a constant."""
    for fault, constant in constant_faults(card, graph):
        yield fault, card.graph_fault(graph, constant)


def equivalent_faults(card: Structure) -> Iterator[tuple[int, int]]:
    """All such pairs."""
    yield from reader_pairs(card)
    for graph in range(card.inputs, card.graphs):
        yield from constant_pairs(card, graph)


def groups(faults: int, pairs: Iterable[tuple[int, int]]) -> list[int]:
    """Puts what pairs join into groups. By fault: the least fault of its group."""
    least = list(range(faults))

    def find(fault: int) -> int:
        while least[fault] != fault:
            least[fault] = least[least[fault]]
            fault = least[fault]
        return fault

    for one, other in pairs:
        low, high = sorted((find(one), find(other)))
        least[high] = low
    return [find(fault) for fault in range(faults)]
