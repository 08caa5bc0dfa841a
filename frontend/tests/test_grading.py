"""Tests of frontend.grading and frontend.structure: parts, the faults that count, and equivalent ones."""

from __future__ import annotations

import glob
import os
import unittest
from typing import Any
from unittest import mock

from frontend import grading
from frontend.errors import Failed
from frontend.grading import Refused, grade_all
from frontend.structure import equivalent_faults, groups, paired_faults, read_structure
from frontend.tests.brute import ROOT, Brute, card_of_gates, random_card, random_gates, real_library, seen
from frontend.vectors import all_vectors, pack, random_vectors, width
from frontend.words import read_text

S = [0x00000000, 0x20000001, 0x60000000, 0x80000001, 0x40000002, 0x60000001, 0x80000003, 0x60000000, 0x80000001]


def in_small_parts(sizes: tuple[int, int, int] = (3, 2, 5)) -> Any:
    first, least, most = sizes
    return mock.patch.multiple(grading, FIRST_PART=first, LEAST_PART=least, MOST_PART=most)


def inputs_of(card: list[int]) -> int:
    return read_structure(card).inputs


class Parts(unittest.TestCase):
    def check(self, card: list[int], words: list[int], library: Any) -> None:
        """A grading in parts has the columns of one call."""
        answer, marks, tallies = library.grade(card, words)
        with in_small_parts():
            found = grade_all(card, words, width(inputs_of(card)), None, library)
        self.assertEqual(found.vectors, len(words) // width(inputs_of(card)))
        self.assertEqual(found.marked, answer)
        self.assertEqual(found.tallies, tallies)
        self.assertEqual([0xC0000000 if mark is None else 0xE0000000 + mark for mark in found.marks], marks)

    def test_parts_are_the_whole(self) -> None:
        for seed in range(25):
            self.check(random_card(seed), pack(random_vectors(seed, 4, seed).bits, 4), Brute())

    def test_engine(self) -> None:
        library = real_library()
        if library is None:
            self.skipTest("the archive is not built")
        for seed in range(40):
            inputs = 1 + 3 * (seed % 14)
            card = random_card(seed, inputs, 12)
            self.check(card, pack(random_vectors(30 + seed, inputs, seed).bits, inputs), library)
        for seed in range(10):
            card = random_card(seed)
            words = pack(random_vectors(20, 4, seed).bits, 4)
            self.assertEqual(library.grade(card, words), Brute().grade(card, words))

    def test_examples(self) -> None:
        """The last line of each example's text has the marked count and the total."""
        library = real_library()
        if library is None:
            self.skipTest("the archive is not built")
        for path in sorted(glob.glob(os.path.join(ROOT, "examples", "*.words"))):
            text = read_text(path)
            self.check(text.card, text.vectors, library)
            found = grade_all(text.card, text.vectors, width(inputs_of(text.card)), None, library)
            with open(path[: -len("words")] + "out", encoding="ascii") as file:
                self.assertEqual(f"grade {found.marked} {found.total}", file.read().splitlines()[-1])

    def test_long_list(self) -> None:
        """Longer than one call takes."""
        library = real_library()
        if library is None:
            self.skipTest("the archive is not built")
        found = grade_all(S, [0xA0000000] * 70000 + [0xA0000001], 1, None, library)
        self.assertEqual((found.vectors, found.marks[0], found.tallies[0], found.tallies[7]), (70001, 70000, 1, 70000))

    def test_no_vectors(self) -> None:
        found = grade_all(S, [], 1, None, Brute())
        self.assertEqual((found.vectors, found.marked, found.total, found.marks), (0, 0, 10, [None] * 12))
        self.assertEqual((found.inputs, found.graphs, found.nodes, found.observable, found.faults), (1, 3, 3, 1, 12))

    def test_progress(self) -> None:
        told: list[tuple[int, int]] = []
        with in_small_parts():
            grade_all(S, [0xA0000000] * 20, 1, lambda done, total: told.append((done, total)), Brute())
        self.assertEqual(told, [(3, 20), (8, 20), (13, 20), (18, 20), (20, 20)])

    def test_parts_by_time(self) -> None:
        """Parts grow while they are quick and shrink where they are slow."""
        now = [0.0]
        sizes = []
        for start, end in grading.parts(2000, lambda: now[0]):
            sizes.append(end - start)
            now[0] += 0.1 if start < 700 else 2.0
        self.assertEqual(sizes, [256, 512, 1024, 208])
        sizes = []
        for start, end in grading.parts(700, lambda: now[0]):
            sizes.append(end - start)
            now[0] += 2.0
        self.assertEqual(sizes, [256, 128, 64, 64, 64, 64, 60])


class Refusals(unittest.TestCase):
    def refused(self, card: list[int], words: list[int], wide: int = 1) -> tuple[int, int]:
        with in_small_parts(), self.assertRaises(Refused) as caught:
            grade_all(card, words, wide, None, Brute())
        return caught.exception.refusal, caught.exception.position

    def test_card_first(self) -> None:
        self.assertEqual(self.refused([], [0x60000000]), (9, 0))

    def test_vector_in_a_later_part(self) -> None:
        self.assertEqual(self.refused(S, [0xA0000000] * 11 + [0x60000000]), (10, 11))

    def test_number_of_words(self) -> None:
        card = [0] * 17 + [0x40000001, 0x60000000, 0x80000001]
        self.assertEqual(self.refused(card, [0xA0000000] * 3, 2), (10, 0))

    def test_wrong_width(self) -> None:
        with self.assertRaises(ValueError):
            grade_all(S, [], 2, None, Brute())

    def test_engine_that_counts_otherwise(self) -> None:
        class Other(Brute):
            def answer(self, card: Any, tallies: list[int]) -> int:
                return sum(1 for tally in tallies if tally)

        with self.assertRaises(Failed):
            grade_all(S, [0xA0000001], 1, None, Other())


class Counting(unittest.TestCase):
    def test_card_s(self) -> None:
        found = grade_all(S, [0xA0000000, 0xA0000001], 1, None, Brute())
        self.assertEqual((found.marked, found.total), (7, 10))
        self.assertEqual([fault for fault, counts in enumerate(found.counts_in_grade) if not counts], [8, 9])
        self.assertEqual(found.paired[8:10], [2, 3])

    def test_pairs_have_equal_columns(self) -> None:
        crossed = 0
        for seed in range(30):
            card = random_card(seed)
            found = grade_all(card, pack(all_vectors(4).bits, 4), 1, None, Brute())
            for fault, other in enumerate(found.paired):
                if other is not None:
                    self.assertEqual((found.marks[fault], found.tallies[fault]), (found.marks[other], found.tallies[other]))
                    crossed += fault % 2 != other % 2
        self.assertGreater(crossed, 10)

    def test_crossed_at_an_inverted_read(self) -> None:
        card = read_structure([0, 0x40000001, 0x60010000, 0x80000001])
        self.assertEqual(paired_faults(card), [None, None, 1, 0, None, None])


class Equivalent(unittest.TestCase):
    def test_no_vector_tells_them_apart(self) -> None:
        joined = 0
        for seed in range(40):
            card = read_structure(random_card(seed))
            for fault, least in enumerate(groups(card.faults, equivalent_faults(card))):
                joined += fault != least
                for vector in range(1 << card.inputs):
                    self.assertEqual(seen(card, vector, fault), seen(card, vector, least), (seed, fault, least))
        self.assertGreater(joined, 200)

    def test_gates(self) -> None:
        """Of gates they are those of the field's rule: the controlling value of AND, OR, NAND and NOR, and both of a single lead."""
        for seed in range(60):
            words = random_gates(seed)
            card = read_structure(card_of_gates(words))
            expected = {(fault, other) for fault, other in enumerate(paired_faults(card)) if other is not None}
            headers = [word for word in words if word >> 29 < 3]
            for node in range(card.nodes):
                header = headers[card.owner[node]]
                function, leads = header >> 26 & 7, header & 0xFFFF
                deciding, inverts = int(function in (1, 3)), function in (2, 3, 4)
                for value in (0, 1) if leads == 1 else (deciding,):
                    expected.add((2 * node + value, card.graph_fault(card.owner[node], value ^ inverts)))
            self.assertEqual(set(equivalent_faults(card)), expected, seed)

    def test_engine_makes_the_same_card(self) -> None:
        library = real_library()
        if library is None:
            self.skipTest("the archive is not built")
        for seed in range(40):
            card = card_of_gates(random_gates(seed))
            self.assertEqual(library.from_gates(random_gates(seed)), (len(card), card))

    def test_large_graph(self) -> None:
        """Paths of 4,000 nodes are counted, and not walked."""
        words = [0, 0x40000FA0]
        for node in range(4000):
            words += [0x60000000, 0x80000000 + (min(node + 3, 4001) << 14) + min(node + 4, 4001) if node < 3999 else 0x80000001]
        card = read_structure(words)
        pairs = [(7998, card.graph_fault(1, 0)), (7999, card.graph_fault(1, 1))]  # the last node alone decides
        self.assertEqual(list(equivalent_faults(card)), pairs)


if __name__ == "__main__":
    unittest.main()
