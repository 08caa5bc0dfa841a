"""What a refusal says: the rule in words, and where it is broken."""

from __future__ import annotations

TYPE_CHECKING = False
if TYPE_CHECKING:
    from collections.abc import Sequence
    from typing import Optional

    from frontend.words import Text

# The rules, in the words of docs/FORMAT.md. Of some it is the part that fits the place, where that is known.
RULES = {
    1: "the card has more than 9,216 words",
    2: "a word where the header of a 1,025th graph is due",
    3: "the header's node count is 0, or takes the nodes over 4,096",
    4: "a kind that is not due there, an input after an output, or the words end inside a graph",
    5: "a bit that must be zero is set",
    6: "the graph read is not below its own",
    7: "an exit goes to a node that is not later, or not in the graph",
    8: "the header's graph has a local node that no exit names",
    9: "no observable graph",
    10: "the kind or a bit of a vector word is wrong",
    11: "a graph or fault number is too high",
    12: "a lent buffer is too short",
    13: "card A has no graph of this number, and a free input is FFFFFFFF",
    14: "the joined card has more than 1,024 graphs or 4,096 nodes",
}
PARTS = {
    (4, "word"): "a kind that is not due there, or an input after an output",
    (4, "end"): "the words end inside a graph",
    (10, "first"): "the number of vector words is no multiple of a vector's, or the kind or a bit of this one is wrong",
}

# Those of a gate list, where they differ.
GATE_RULES = {
    **RULES,
    1: "the gate list has more than 9,216 words",
    2: "a word where the header of a 1,025th line is due",
    3: "the header's lead count takes the leads over 4,096",
    4: "the words end inside a gate",
    9: "no observable gate",
    15: "a function 6 or 7, no lead, or NOT or BUF without exactly one",
    16: "the lead names no earlier line",
}
GATE_PARTS = {
    (4, "word"): "a kind that is not due there, or an input after a gate",
    (10, "first"): PARTS[10, "first"],
}


class Subject:
    """What a refusal is about: a text of words, by whose lines places are told, or bytes."""

    def __init__(self, name: str, text: Optional[Text] = None, gates: bool = False, hint: str = "") -> None:
        self.name = name
        self.text = text
        self.gates = gates
        self.hint = hint

    def refused(self, number: int, at: int) -> str:
        """The rule of this number, broken at a position."""
        if number == 1:
            return f"{self.name}: {self.rule(1)}{self.hint}"
        if number == 10:
            return f"{self.vector_place(at)}: {self.rule(10, '' if at else 'first')}"
        if number in (11, 12):
            return f"{self.name}: {self.rule(number)}"
        return f"{self.card_place(at)}: {self.rule(number, self._kind(at))}"

    def long(self) -> str:
        """More vector words than are graded."""
        return f"{self.vector_place(16384)}: there are more than 16,384 vector words"

    def rule(self, number: int, where: str = "") -> str:
        """A rule in words, where it is known by the part that fits the place."""
        rules, parts = (GATE_RULES, GATE_PARTS) if self.gates else (RULES, PARTS)
        return parts.get((number, where)) or rules.get(number) or f"rule {number} is broken"

    def card_place(self, at: int, noun: str = "word") -> str:
        """Where a word of the card stands."""
        if self.text is None:
            return f"{self.name}: {noun} {at}"
        return _place(self.name, self.text.card, self.text.card_lines, noun, at)

    def vector_place(self, at: int) -> str:
        """Where a word of the vectors stands."""
        if self.text is None:
            return f"{self.name}: vector word {at}"
        return _place(self.name, self.text.vectors, self.text.vector_lines, "vector word", at)

    def _kind(self, at: int) -> str:
        """Whether there is a word at a position of the card: of bytes it is not known."""
        if self.text is None:
            return ""
        return "word" if at < len(self.text.card) else "end"


def _place(name: str, words: Sequence[int], lines: Sequence[int], noun: str, at: int) -> str:
    """By the word's line; past the end by the last one."""
    if at < len(words):
        return f"{name}:{lines[at]}: {noun} {at}, {words[at]:08X}"
    if words:
        return f"{name}:{lines[-1]}: after {noun} {len(words) - 1}, {words[-1]:08X}"
    return f"{name}: no {noun}"


def pair_refused(a: Text, b: Text, wires: Text, number: int, at: int, a_is_refused: bool) -> str:
    """The refusal of two cards and their wires. Positions in card B count on after A's words."""
    if number == 13:
        return _wires_refused(b, wires, at)
    if number == 14:
        return f"{a.name}, {b.name}: {RULES[14]}"
    if a_is_refused:
        return Subject(a.name, a).refused(number, at)
    return Subject(b.name, b).refused(number, at - len(a.card))


def _wires_refused(b: Text, wires: Text, at: int) -> str:
    """The number of wire words comes before each of them; past 9,216 they are not counted. The inputs of a card are its words that are zero."""
    count, inputs = len(wires.card), b.card.count(0)
    if count == inputs:
        return f"{Subject(wires.name, wires).card_place(at, 'wire word')}: {RULES[13]}"
    counted = str(count) if count <= 9216 else "over 9,216"
    return f"{wires.name}: wire words: {counted}, inputs of {b.name}: {inputs}; there must be a word for each"
