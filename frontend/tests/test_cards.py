"""Cards as texts, and what is joined and turned into cards."""

from __future__ import annotations

from frontend.cards import gates_text, joined_graphs, joined_text
from frontend.engine import library
from frontend.errors import Refused
from frontend.sources import card_of_gates, check_card, read_pair
from frontend.tests.helpers import FilesCase, example, example_text, needs_engine
from frontend.words import read_text


@needs_engine
class Cards(FilesCase):
    def test_a_card_is_what_its_text_says(self) -> None:
        gates = example_text("c17.gates")
        card = card_of_gates(gates)
        text = gates_text(card, gates.card, gates.vectors)
        again = read_text(self.file(text.encode()))
        self.assertEqual((again.card, again.vectors), (card, gates.vectors))
        self.assertEqual(again.card_comments[:6:5], ["graph 0: line 0, input", "graph 5: line 5, NAND"])
        self.assertEqual(again.card_comments[8], "node 1 is lead 1, reads graph 2")

    def test_names_in_comments(self) -> None:
        gates = example_text("c17.gates")
        card = card_of_gates(gates)
        text = gates_text(card, gates.card, [], ["", "a"], ["A/1"])
        self.assertIn("00000000  # graph 0: line 0, input\n00000000  # graph 1: line 1, input, a\n", text)
        self.assertIn("#   node 0 is lead 0, A/1, reads graph 0\n", text)
        self.assertEqual(read_text(self.file(text.encode())).card, card)

    def test_a_pair(self) -> None:
        adder, ripple = example("fulladder.words"), example("ripple.wires")
        pair = read_pair([adder, adder, ripple])
        text = joined_text(pair.card, pair.origins(), pair.wires.vectors)
        again = read_text(self.file(text.encode()))
        self.assertEqual((again.card, again.vectors), (pair.card, pair.wires.vectors))
        named = joined_text(pair.card, pair.origins(), [], ["sum"], ["", "x"])
        self.assertIn("# graph 0: graph 0 of A, sum\n", named)
        self.assertIn("#   node 1, x, reads graph ", named)

    def test_each_graph_is_where_it_was(self) -> None:
        """Values of the joined card beside those of its parts."""
        adder, ripple = example("fulladder.words"), example("ripple.wires")
        pair = read_pair([adder, adder, ripple])
        origins = pair.origins()
        for number in range(32):
            values = library().good_values(pair.card, [0xA0000000 + number])[1]
            by_origin = dict(zip(origins, values))
            a_inputs = [by_origin["A", graph] for graph in range(3)]
            a_values = library().good_values(pair.a.card, [0xA0000000 + sum(bit << i for i, bit in enumerate(a_inputs))])[1]
            b_inputs = [by_origin["B", graph] if wire == 0xFFFFFFFF else a_values[wire] for graph, wire in enumerate(pair.wires.card)]
            b_values = library().good_values(pair.b.card, [0xA0000000 + sum(bit << i for i, bit in enumerate(b_inputs))])[1]
            for (part, graph), value in by_origin.items():
                self.assertEqual(value, (a_values if part == "A" else b_values)[graph])
        self.assertEqual(len(origins), library().check(pair.card)[1][1])

    def test_wired_inputs_are_gone(self) -> None:
        card = [0, 0, 0x40000001, 0x60000000, 0x80000001]
        self.assertEqual(joined_graphs(card, card, [2, 0xFFFFFFFF]), [("A", 0), ("A", 1), ("B", 1), ("A", 2), ("B", 2)])

    def test_refusals(self) -> None:
        bad = self.file(b"00000000\n40000001\n60000000\n80000002\n", "bad")
        s = example("s.words")
        with self.assertRaises(Refused) as caught:
            read_pair([s, bad, s])
        self.assertEqual(caught.exception.line, "refused 7 12")
        self.assertTrue(caught.exception.words.startswith(f"{bad}:4: word 3, 80000002: "))
        with self.assertRaises(Refused) as caught:
            card_of_gates(read_text(bad))
        self.assertEqual(caught.exception.line, "refused 4 3")
        with self.assertRaises(Refused) as caught:
            check_card(read_text(bad))
        self.assertEqual(caught.exception.line, "refused 7 3")
