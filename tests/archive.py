"""The archive called from Python, by ctypes and a shared library that gcc makes of it; and what the tests of netlists ask of it.

Of the tests' own: nothing of frontend/ is used here, so that what the front end makes is graded without it.
"""
import ctypes
import os
import subprocess
import sys
from typing import List, Optional, Sequence, Tuple

INPUTS_A_WORD = 16


class Refused(Exception):
    """A refusal, with its number and position."""


def as_bytes(words: Sequence[int]) -> bytes:
    return b"".join(word.to_bytes(4, "big") for word in words)


def as_words(lent: bytes) -> List[int]:
    return [int.from_bytes(lent[at:at + 4], "big") for at in range(0, len(lent), 4)]


def pack(vectors: Sequence[Sequence[int]]) -> bytes:
    """Vectors that are a bit for each input, as the words of a list."""
    words = []
    for vector in vectors:
        for at in range(0, len(vector), INPUTS_A_WORD):
            words.append(0xA0000000 | sum(bit << i for i, bit in enumerate(vector[at:at + INPUTS_A_WORD])))
    return as_bytes(words)


class Archive:
    """The calls that are wanted here."""

    def __init__(self, archive: str, folder: str) -> None:
        path = os.path.join(folder, f"netlists-{os.getpid()}.so")
        subprocess.run(["gcc", "-shared", "-o", path, "-Wl,--whole-archive", archive, "-Wl,--no-whole-archive"], check=True)
        self.calls = ctypes.CDLL(path)
        os.unlink(path)

    def call(self, name: str, lent: Sequence[bytes], room: Sequence[int]) -> Tuple[int, List[bytes]]:
        """A call's number, with its buffers of so many words."""
        function = getattr(self.calls, name)
        function.restype = ctypes.c_uint64
        buffers = [ctypes.create_string_buffer(4 * words) for words in room]
        parts: List[object] = []
        for part in lent:
            parts += [part, ctypes.c_size_t(len(part))]
        for buffer in buffers:
            parts += [buffer, ctypes.c_size_t(len(buffer))]
        answer = function(*parts)
        if answer >> 32:
            raise Refused(f"{name}: refused {answer >> 32} {answer & 0xFFFFFFFF}")
        return answer, [buffer.raw for buffer in buffers]

    def card(self, gates: Sequence[int]) -> bytes:
        """The card of a gate list."""
        count, made = self.call("card_from_gates", [as_bytes(gates)], [9216])
        return made[0][:4 * count]

    def numbers(self, card: bytes) -> List[int]:
        """The numbers of inputs, graphs, nodes, observable graphs and faults."""
        return as_words(self.call("card_check", [card], [5])[1][0])

    def values(self, card: bytes, vectors: Sequence[Sequence[int]]) -> List[int]:
        """A number for each graph, whose bit t is its value under vector t."""
        graphs = self.numbers(card)[1]
        columns = [self.call("card_good_values", [card, pack([vector])], [graphs])[1][0][3::4] for vector in vectors]
        return [int("".join("01"[column[g]] for column in reversed(columns)), 2) for g in range(graphs)]

    def grade(self, card: bytes, vectors: Sequence[Sequence[int]]) -> List[Tuple[Optional[int], int]]:
        """For each fault the first vector that catches it, or None, and how many do."""
        faults = self.numbers(card)[4]
        marks, tallies = self.call("card_grade", [card, pack(vectors)], [faults, faults])[1]
        return [(None if mark == 0xC0000000 else mark - 0xE0000000, tally) for mark, tally in zip(as_words(marks), as_words(tallies))]


def named(argument: str) -> Archive:
    """The archive of this name, through a shared library in target/tests."""
    folder = os.path.join(os.path.dirname(os.path.dirname(os.path.abspath(__file__))), "target", "tests")
    os.makedirs(folder, exist_ok=True)
    if not os.path.exists(argument):
        sys.exit(f"{argument}: no such archive")
    return Archive(argument, folder)
