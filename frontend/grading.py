"""A grading of any length, through the engine's call in parts of whole vectors.

A part's first vectors are numbered from 0, so each is moved by the vectors before it. Over all parts a fault's first vector is the least, and
its tallies add up.
"""

from __future__ import annotations

import os
import time
from dataclasses import dataclass

from frontend import files
from frontend.errors import Failed
from frontend.structure import Structure, paired_faults, read_structure
from frontend.vectors import width as vector_width

TYPE_CHECKING = False
if TYPE_CHECKING:
    from collections.abc import Callable, Iterator, Sequence
    from typing import Any, Optional

    Progress = Callable[[int, int], None]  # is told how many vectors are graded, and how many there are

FIRST_PART = 256
LEAST_PART = 64
MOST_PART = 32768  # a call takes 65,535 vectors
SOON, LATE = 0.4, 1.6  # seconds of a part: below the first the next one is larger, above the second it is smaller
VECTOR_FORM = 10  # the refusal of vector words, whose position counts in them
UNMARKED = 0xC0000000
FIRST_MARK = 0xE0000000


class Refused(Exception):
    """The engine refused the card or the vectors: the refusal's number and position, in the whole list where it is about vectors."""

    def __init__(self, refusal: int, position: int) -> None:
        super().__init__(f"refused {refusal} {position}")
        self.refusal = refusal
        self.position = position


@dataclass
class Grading:
    """What a list of vectors does on a card, fault by fault."""

    card: list[int]
    structure: Structure
    vectors: int
    marks: list[Optional[int]]  # by fault: the first vector that catches it
    tallies: list[int]  # by fault: how many vectors catch it
    counts_in_grade: list[bool]  # by fault
    paired: list[Optional[int]]  # by fault that does not count: the one that counts in its place

    @property
    def marked(self) -> int:
        """How many of the faults that count are caught."""
        return count_marked(self.tallies, self.counts_in_grade)

    @property
    def total(self) -> int:
        """How many faults count."""
        return sum(self.counts_in_grade)

    @property
    def inputs(self) -> int:
        return self.structure.inputs

    @property
    def graphs(self) -> int:
        return self.structure.graphs

    @property
    def nodes(self) -> int:
        return self.structure.nodes

    @property
    def observable(self) -> int:
        return sum(self.structure.observable)

    @property
    def faults(self) -> int:
        return self.structure.faults


def count_marked(tallies: Sequence[int], counts: Sequence[bool]) -> int:
    return sum(1 for tally, counted in zip(tallies, counts) if counted and tally)


def parts(vectors: int, clock: Callable[[], float]) -> Iterator[tuple[int, int]]:
    """Each part's first vector and the one after its last. A part takes about a second, so that progress shows and an interrupt is heard."""
    start, size = 0, FIRST_PART
    while start < vectors:
        end = min(start + size, vectors)
        before = clock()
        yield start, end
        took = clock() - before
        start = end
        if took < SOON:
            size = min(2 * size, MOST_PART)
        elif took > LATE:
            size = max(size // 2, LEAST_PART)


def take_part(grading: Grading, start: int, marks: Sequence[int], tallies: Sequence[int]) -> None:
    """Adds a part's columns, whose vectors are numbered from `start` on."""
    for fault, tally in enumerate(tallies):
        if tally:
            grading.tallies[fault] += tally
            if grading.marks[fault] is None:  # parts come in order: the least is the first that is there
                grading.marks[fault] = start + marks[fault] - FIRST_MARK


def check_part(grading: Grading, answer: int, marks: Sequence[int], tallies: Sequence[int]) -> None:
    """The engine's own count of each part shows whether it agrees with what is worked out here."""
    right = len(marks) == len(tallies) == grading.faults and count_marked(tallies, grading.counts_in_grade) == answer
    if not right or any((mark == UNMARKED) != (tally == 0) for mark, tally in zip(marks, tallies)):
        raise Failed("the grading does not agree with the engine's count")


def call(library: Any, card: list[int], words: Sequence[int], start: int) -> tuple[int, list[int], list[int]]:
    """The engine's grading of a part that starts at a word of the list."""
    answer, marks, tallies = library.grade(card, words)
    if answer >> 32:
        refusal, position = answer >> 32, answer & 0xFFFFFFFF
        raise Refused(refusal, position + start if refusal == VECTOR_FORM else position)
    return answer, marks, tallies


def grade_all(
    card: Sequence[int], vector_words: Sequence[int], width: int, progress: Optional[Progress] = None, library: Any = None
) -> Grading:
    """Grades a list of any length, of vectors of so many words each. Refused tells what the engine refuses, the card first."""
    if library is None:
        from frontend.engine import library as the_library  # ctypes is loaded only where it is needed

        library = the_library()
    card = list(card)
    call(library, card, [], 0)  # a card that is not accepted has no structure
    grading = empty_grading(card)
    if width != vector_width(grading.inputs):
        raise ValueError(f"vectors of {width} words for {grading.inputs} inputs")
    if len(vector_words) % width:
        raise Refused(VECTOR_FORM, 0)
    grading.vectors = len(vector_words) // width
    for start, end in parts(grading.vectors, time.monotonic):
        answer, marks, tallies = call(library, card, vector_words[start * width : end * width], start * width)
        check_part(grading, answer, marks, tallies)
        take_part(grading, start, marks, tallies)
        if progress:
            progress(end, grading.vectors)
    return grading


def empty_grading(card: list[int]) -> Grading:
    """The grading of an accepted card before its first vector."""
    structure = read_structure(card)
    paired = paired_faults(structure)
    return Grading(
        card=card,
        structure=structure,
        vectors=0,
        marks=[None] * structure.faults,
        tallies=[0] * structure.faults,
        counts_in_grade=[other is None for other in paired],
        paired=paired,
    )


def show(text: str) -> None:
    """Where a terminal does not take it, the grading goes on."""
    try:
        files.write_all(2, text.encode())
    except OSError:
        pass


def terminal_progress() -> Optional[Progress]:
    """Progress on standard error where that is a terminal; a list that is graded at once shows none."""
    if not os.isatty(2):
        return None
    began = time.monotonic()
    told = False

    def tell(done: int, total: int) -> None:
        nonlocal told
        if done < total and time.monotonic() - began > SOON:
            told = True
            show(f"\rcardgrade: {done:,} of {total:,} vectors graded ({100 * done // total} %)\x1b[K")
        elif told:
            show("\r\x1b[K")

    return tell
