"""Cards as texts of words, with comments that tell what each graph and node is: joined cards, and cards of gate lists."""

from __future__ import annotations

TYPE_CHECKING = False
if TYPE_CHECKING:
    from collections.abc import Callable, Iterable, Sequence

FREE_WIRE = 0xFFFFFFFF
FUNCTIONS = ("AND", "OR", "NAND", "NOR", "NOT", "BUF")


def joined_text(card: Sequence[int], origins: Sequence[tuple[str, int]], vectors: Iterable[int],
                graph_names: Sequence[str] = (), node_names: Sequence[str] = ()) -> str:
    """A joined card and its vectors; each graph with the one of A or B that it was, and with names where there are any."""

    def graph_is(graph: int) -> str:
        part, number = origins[graph]
        return f"graph {number} of {part}{_named(graph_names, graph)}"

    def node_is(node: int) -> str:
        name = _named(node_names, node)
        return f"node {node}{name}, reads" if name else f"node {node} reads"

    return _text(card, vectors, graph_is, node_is)


def joined_graphs(a: Sequence[int], b: Sequence[int], wires: Sequence[int]) -> list[tuple[str, int]]:
    """What the joined card's graphs were, in their order: A's inputs, B's free ones, A's outputs, B's outputs."""
    a_inputs, a_graphs = _inputs_and_graphs(a)
    b_inputs, b_graphs = _inputs_and_graphs(b)
    free = [graph for graph in range(b_inputs) if wires[graph] == FREE_WIRE]
    parts = (("A", range(a_inputs)), ("B", free), ("A", range(a_inputs, a_graphs)), ("B", range(b_inputs, b_graphs)))
    return [(part, graph) for part, graphs in parts for graph in graphs]


def _inputs_and_graphs(card: Sequence[int]) -> tuple[int, int]:
    """Of a card that was accepted: an input's word is zero, and the kinds below 3 begin a graph."""
    return sum(word == 0 for word in card), sum(word >> 29 < 3 for word in card)


def gates_text(card: Sequence[int], gates: Sequence[int], vectors: Iterable[int],
               line_names: Sequence[str] = (), lead_names: Sequence[str] = ()) -> str:
    """The card of a gate list and its vectors; each graph with its line and each node with its lead, and with names where there are any."""
    headers = [word for word in gates if word >> 29 < 3]

    def graph_is(graph: int) -> str:
        word = headers[graph]
        return f"line {graph}, {FUNCTIONS[word >> 26 & 7] if word >> 29 else 'input'}{_named(line_names, graph)}"

    def node_is(node: int) -> str:
        return f"node {node} is lead {node}{_named(lead_names, node)}, reads"

    return _text(card, vectors, graph_is, node_is)


def _named(names: Sequence[str], at: int) -> str:
    """A name as a comment has it."""
    return f", {names[at]}" if at < len(names) and names[at] else ""


def _text(card: Sequence[int], vectors: Iterable[int], graph_is: Callable[[int], str], node_is: Callable[[int], str]) -> str:
    """A card that was accepted, with a comment for each graph and each read, and its vectors."""
    lines: list[str] = []
    graph = node = 0
    for word in card:
        kind = word >> 29
        if kind < 3:
            lines.append(f"{word:08X}  # graph {graph}: {graph_is(graph)}")
            graph += 1
        elif kind == 3:
            lines.append(f"{word:08X}  #   {node_is(node)} graph {word & 0xFFFF}")
            node += 1
        else:
            lines.append(f"{word:08X}")
    lines.append("vectors")
    lines += [f"{word:08X}" for word in vectors]
    return "\n".join(lines) + "\n"
