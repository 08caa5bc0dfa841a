"""What a refusal says."""

from __future__ import annotations

import os
import re
import unittest

from frontend.engine import root
from frontend.refusals import GATE_RULES, RULES, Subject, pair_refused
from frontend.words import Text


def text_of(name: str, card: list[int], vectors: list[int]) -> Text:
    """A text with an empty line before each word."""
    text = Text(name)
    text.card, text.card_lines = card, [2 * at + 2 for at in range(len(card))]
    text.vectors, text.vector_lines = vectors, [2 * (len(card) + at) + 3 for at in range(len(vectors))]
    return text


class Places(unittest.TestCase):
    def setUp(self) -> None:
        self.text = Subject("t", text_of("t", [0, 0x40000001], [0xA0000000]))
        self.bytes = Subject("b", hint="; hint")

    def test_by_line(self) -> None:
        self.assertEqual(self.text.card_place(1), "t:4: word 1, 40000001")
        self.assertEqual(self.text.card_place(2), "t:4: after word 1, 40000001")
        self.assertEqual(self.text.vector_place(0), "t:7: vector word 0, A0000000")
        self.assertEqual(Subject("t", text_of("t", [], [])).card_place(0), "t: no word")

    def test_by_number(self) -> None:
        self.assertEqual((self.bytes.card_place(3), self.bytes.vector_place(4)), ("b: word 3", "b: vector word 4"))

    def test_the_part_that_fits(self) -> None:
        self.assertTrue(self.text.refused(4, 1).endswith("a kind that is not due there, or an input after an output"))
        self.assertTrue(self.text.refused(4, 2).endswith("the words end inside a graph"))
        self.assertTrue(self.bytes.refused(4, 2).endswith("an input after an output, or the words end inside a graph"))
        self.assertIn("no multiple", self.text.refused(10, 0))
        self.assertNotIn("no multiple", self.text.refused(10, 1))

    def test_of_the_whole(self) -> None:
        self.assertEqual(self.bytes.refused(1, 0), "b: the card has more than 9,216 words; hint")
        self.assertEqual(self.text.refused(12, 0), "t: a lent buffer is too short")
        self.assertEqual(self.text.refused(99, 0), "t:2: word 0, 00000000: rule 99 is broken")
        self.assertEqual(self.bytes.long(), "b: vector word 16384: there are more than 16,384 vector words")

    def test_gates(self) -> None:
        gates = Subject("g", text_of("g", [0, 0x40000001], []), gates=True)
        self.assertEqual(gates.refused(4, 2), "g:4: after word 1, 40000001: the words end inside a gate")
        self.assertEqual(gates.refused(16, 1), "g:4: word 1, 40000001: the lead names no earlier line")
        self.assertEqual(gates.refused(5, 1), "g:4: word 1, 40000001: a bit that must be zero is set")


class Pairs(unittest.TestCase):
    def test_parts(self) -> None:
        a, b = text_of("A", [0, 1], []), text_of("B", [0, 0, 5], [])
        self.assertTrue(pair_refused(a, b, text_of("W", [], []), 5, 1, True).startswith("A:4: word 1, 00000001: "))
        self.assertTrue(pair_refused(a, b, text_of("W", [], []), 5, 4, False).startswith("B:6: word 2, 00000005: "))
        self.assertEqual(pair_refused(a, b, text_of("W", [9], []), 13, 0, False), "W: wire words: 1, inputs of B: 2; there must be a word for each")
        self.assertTrue(pair_refused(a, b, text_of("W", [0, 9], []), 13, 1, False).startswith("W:4: wire word 1, 00000009: card A has no graph"))
        self.assertIn("over 9,216", pair_refused(a, b, text_of("W", [0] * 9217, []), 13, 0, False))
        self.assertTrue(pair_refused(a, b, text_of("W", [], []), 14, 0, False).startswith("A, B: the joined card has more than"))


class Documents(unittest.TestCase):
    def test_every_rule_has_words(self) -> None:
        """The header's table of refusals: 17 is about lists of faults, which no text has."""
        with open(os.path.join(root(), "include", "cardhost.h"), encoding="utf-8") as file:
            numbers = {int(number) for number in re.findall(r"^ \* +([0-9]+)   \S", file.read(), re.M)}
        self.assertEqual(numbers, set(range(1, 18)))
        self.assertEqual(set(RULES) | set(GATE_RULES) | {17}, numbers)
