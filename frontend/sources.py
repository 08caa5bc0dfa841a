"""The texts that are graded: what is read of them, and the cards that are made of gate lists and of two cards."""

from __future__ import annotations

from frontend.engine import library, position, refusal
from frontend.errors import Refused
from frontend.refusals import Subject, pair_refused
from frontend.words import MOST_VECTORS, Text, read_text

TYPE_CHECKING = False
if TYPE_CHECKING:
    from collections.abc import Sequence


class Pair:
    """Card B on card A: the three texts, of which the wires' has the vectors, and the joined card."""

    def __init__(self, a: Text, b: Text, wires: Text, card: list[int]) -> None:
        self.a = a
        self.b = b
        self.wires = wires
        self.card = card

    def origins(self) -> list[tuple[str, int]]:
        """Of each graph of the joined card the part and the number that it was."""
        from frontend.cards import joined_graphs
        return joined_graphs(self.a.card, self.b.card, self.wires.card)


def refused(answer: int, words: str) -> Refused:
    """The refusal of a call."""
    return Refused(f"refused {refusal(answer)} {position(answer)}", words)


def read_pair(names: Sequence[str], most_vectors: int = MOST_VECTORS) -> Pair:
    """Three texts, and the card that the first two make by the wires of the third."""
    a, b, wires = read_text(names[0]), read_text(names[1]), read_text(names[2], most_vectors=most_vectors)
    answer, card = library().join(a.card, b.card, wires.card)
    if refusal(answer):
        a_is_refused = refusal(library().check(a.card)[0]) != 0
        raise refused(answer, pair_refused(a, b, wires, refusal(answer), position(answer), a_is_refused))
    return Pair(a, b, wires, card)


def card_of_gates(gates: Text) -> list[int]:
    """The card of a gate list."""
    answer, card = library().from_gates(gates.card)
    if refusal(answer):
        raise refused(answer, Subject(gates.name, gates, gates=True).refused(refusal(answer), position(answer)))
    return card


def check_card(text: Text) -> None:
    """A text's card has to be accepted before it is looked at."""
    answer, _ = library().check(text.card)
    if refusal(answer):
        raise refused(answer, Subject(text.name, text).refused(refusal(answer), position(answer)))
