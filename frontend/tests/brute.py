"""A grader by the definitions, slow and plain, and cards to grade: what the tests compare with."""

from __future__ import annotations

import atexit
import os
import random
import shutil
import subprocess
import tempfile
from typing import Any, Optional

from frontend import build
from frontend.structure import Structure, read_structure

ROOT = os.path.dirname(os.path.dirname(os.path.dirname(os.path.abspath(__file__))))
UNMARKED, FIRST_MARK = 0xC0000000, 0xE0000000


def values(card: Structure, vector: int, fault: Optional[int]) -> list[int]:
    """Every graph's value under a vector, whose bit i is input i, with a fault in or none."""
    found: list[int] = []
    for graph in range(card.graphs):
        at = 2
        value = vector >> graph & 1
        if graph >= card.inputs:
            while at >= 2:
                node = card.first[graph] + at - 2
                decision = found[card.reads[node]] ^ card.inverted[node]
                at = card.exits[node][fault % 2 if fault is not None and fault // 2 == node else decision]
            value = at
        if fault is not None and fault // 2 == card.nodes + graph:
            value = fault % 2
        found.append(value)
    return found


def seen(card: Structure, vector: int, fault: Optional[int]) -> list[int]:
    return [value for value, shown in zip(values(card, vector, fault), card.observable) if shown]


class Brute:
    """Stands for the library: a card's grading, of cards up to 16 inputs. Words that start with FFFF are refused."""

    def __init__(self) -> None:
        self.calls: list[int] = []

    def grade(self, words: list[int], vectors: list[int]) -> tuple[int, list[int], list[int]]:
        self.calls.append(len(vectors))
        for position, word in enumerate(vectors):
            if word >> 29 != 5:
                return 10 << 32 | position, [], []
        if not words:
            return 9 << 32, [], []
        card = read_structure(words)
        marks, tallies = [UNMARKED] * card.faults, [0] * card.faults
        for number, word in enumerate(vectors):
            good = seen(card, word & 0xFFFF, None)
            for fault in range(card.faults):
                if seen(card, word & 0xFFFF, fault) != good:
                    marks[fault] = FIRST_MARK + number if not tallies[fault] else marks[fault]
                    tallies[fault] += 1
        return self.answer(card, tallies), marks, tallies

    def answer(self, card: Structure, tallies: list[int]) -> int:
        """The marked count, leads left out as examples/host.c does it."""
        left_out = [len(card.readers[graph]) == 1 and not card.observable[graph] for graph in range(card.graphs)]
        counted = tallies[: 2 * card.nodes] + [
            tally for graph in range(card.graphs) if not left_out[graph] for tally in tallies[2 * (card.nodes + graph) :][:2]]
        return sum(1 for tally in counted if tally)


def random_card(seed: int, inputs: int = 4, outputs: int = 5, inverted: bool = True) -> list[int]:
    """An accepted card: each node but the entrance is named by the node before it."""
    choose = random.Random(seed)
    words = [0] * inputs
    for graph in range(inputs, inputs + outputs):
        nodes = choose.randint(1, 4)
        words.append((0x40000000 if graph == inputs + outputs - 1 or choose.random() < 0.3 else 0x20000000) + nodes)
        for node in range(nodes):
            exits = [choose.choice([0, 1, *range(node + 3, nodes + 2)]) for _ in (0, 1)]
            if node + 1 < nodes:
                exits[choose.randint(0, 1)] = node + 3
            words.append(0x60000000 + choose.randrange(graph) + (0x10000 if inverted and choose.random() < 0.3 else 0))
            words.append(0x80000000 + (exits[0] << 14) + exits[1])
    return words


def random_gates(seed: int, inputs: int = 4, gates: int = 7) -> list[int]:
    """A gate list."""
    choose = random.Random(seed)
    words = [0] * inputs
    for line in range(inputs, inputs + gates):
        function = choose.randrange(6)
        leads = 1 if function > 3 else choose.randint(1, 4)
        words.append((0x40000000 if line == inputs + gates - 1 or choose.random() < 0.2 else 0x20000000) + (function << 26) + leads)
        words += [0x60000000 + choose.randrange(line) for _ in range(leads)]
    return words


def card_of_gates(gates: list[int]) -> list[int]:
    """The card of a gate list, by the table of docs/FORMAT.md."""
    card: list[int] = []
    at = 0
    while at < len(gates):
        if gates[at] == 0:
            card.append(0)
            at += 1
            continue
        function, leads = gates[at] >> 26 & 7, gates[at] & 0xFFFF
        card.append(gates[at] & 0xE000FFFF)
        low, high = (1, 0) if function in (2, 3, 4) else (0, 1)  # the last lead's exits: the gate's value at 0 and at 1
        for lead in range(leads):
            on = lead + 3
            zero, one = (low, high) if lead == leads - 1 else (on, high) if function in (1, 3) else (low, on)
            card += [gates[at + 1 + lead], 0x80000000 + (zero << 14) + one]
        at += 1 + leads
    return card


_made: list[Any] = []


def real_library() -> Any:
    """The archive's calls, or None where it is not built: a test never builds it."""
    archive = os.environ.get("CARDHOST_LIB") or os.path.join(ROOT, build.ARCHIVE.file)
    if not _made and os.path.exists(archive) and shutil.which("gcc"):
        from frontend.engine import Library

        folder = tempfile.mkdtemp()
        atexit.register(shutil.rmtree, folder)
        library = os.path.join(folder, "cardhost.so")
        whole = ["-Wl,--whole-archive", archive, "-Wl,--no-whole-archive"]
        subprocess.run(["gcc", "-shared", "-o", library, *whole], check=True)
        _made.append(Library(library))
    return _made[0] if _made else None
