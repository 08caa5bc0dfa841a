"""Vectors: files of 0 and 1, random lists, the list of all, and the words that the engine takes.

A file has a vector a line, in the order of the inputs, as ABC reads and writes patterns. Blanks between the bits are allowed, and # starts a
comment. A first line that names the inputs, separated by blanks, gives the order of the columns.
"""

from __future__ import annotations

import os
from dataclasses import dataclass

from frontend import files
from frontend.errors import Failed, Told

TYPE_CHECKING = False
if TYPE_CHECKING:
    from collections.abc import Iterable, Iterator, Sequence
    from typing import BinaryIO, Optional

INPUTS_A_WORD = 16
VECTOR_WORD = 0xA0000000
LONGEST_LINE = 1 << 20  # a header of 1,024 long names fits; an endless line must not be kept
MOST_EXHAUSTIVE = 16
SEEDS = 1 << 64
SHOWN = 40

AS_DIGITS = bytes.maketrans(b"\0\1", b"01")  # a vector's bytes, 0 and 1, to digits, and back
AS_BITS = bytes.maketrans(b"01", b"\0\1")


@dataclass
class VectorList:
    """A list of vectors. Each is a row of values 0 and 1 in the order of the inputs; as bytes, since a list may be long."""

    bits: list[bytes]
    source: str  # where it is from, in words


def width(inputs: int) -> int:
    """How many words a vector has."""
    return -(-inputs // INPUTS_A_WORD)


def pack(bits: Iterable[Sequence[int]], inputs: int) -> list[int]:
    """The words of a list of vectors. This function and `width` alone know the form: bit i of word j is input 16 * j + i."""
    words: list[int] = []
    places = range(0, inputs, INPUTS_A_WORD)
    mask = (1 << INPUTS_A_WORD) - 1
    for vector in bits:
        if len(vector) != inputs:
            raise ValueError(f"a vector of {len(vector)} bits for {inputs} inputs")
        value = int(bytes(vector)[::-1].translate(AS_DIGITS), 2)
        words.extend(VECTOR_WORD | value >> place & mask for place in places)
    return words


# ---- lists that are made ----


def splitmix64(seed: int) -> Iterator[int]:
    """The numbers of SplitMix64 (Steele, Lea and Flood, 2014), of 64 bits each. It is written out here, so that a seed gives the same list in
    every version of Python."""
    state = seed
    while True:
        state = state + 0x9E3779B97F4A7C15 & SEEDS - 1
        mixed = state
        mixed = (mixed ^ mixed >> 30) * 0xBF58476D1CE4E5B9 & SEEDS - 1
        mixed = (mixed ^ mixed >> 27) * 0x94D049BB133111EB & SEEDS - 1
        yield mixed ^ mixed >> 31


def from_number(number: int, inputs: int) -> bytes:
    """The vector whose input i is bit i of a number."""
    return format(number, f"0{inputs}b").encode()[::-1][:inputs].translate(AS_BITS)


def random_vectors(count: int, inputs: int, seed: int = 1) -> VectorList:
    """A random list. Each vector takes as many numbers as its inputs need, 64 inputs a number: input 64 * k + i is bit i of the k-th. A vector
    may come twice."""
    if count < 0:
        raise Failed(f"--random {count}: a number of vectors is not below 0")
    if not 0 <= seed < SEEDS:
        raise Failed(f"--seed {seed}: a seed is from 0 to {SEEDS - 1}")
    numbers = splitmix64(seed)
    places = range(0, inputs, 64)
    bits = [from_number(sum(next(numbers) << place for place in places), inputs) for _ in range(count)]
    return VectorList(bits, f"random, seed {seed} (SplitMix64)")


def all_vectors(inputs: int) -> VectorList:
    """Every vector once: input i of vector v is bit i of v."""
    if inputs > MOST_EXHAUSTIVE:
        raise Failed(f"--exhaustive takes up to {MOST_EXHAUSTIVE} inputs, and there are {inputs:,}; --random takes any number")
    return VectorList([from_number(number, inputs) for number in range(1 << inputs)], "all that there are")


# ---- files ----


def shown(text: bytes) -> str:
    """A piece of a file as it may stand in a message: on one line, and not long."""
    plain = "".join(char if char.isprintable() else "?" for char in text.decode("utf-8", "replace"))
    return plain if len(plain) <= SHOWN else plain[:SHOWN] + ".."


def opened(path: str) -> BinaryIO:
    """A file to read, or standard input."""
    if path == "-":
        if 0 in files.closed:
            raise Failed("standard input is closed")
        return os.fdopen(0, "rb", closefd=False)
    files.check_file(path)
    return os.fdopen(files.open_file(path), "rb")


def numbered_lines(file: BinaryIO, name: str) -> Iterator[tuple[str, bytes]]:
    """The lines of a file, each with its place, `FILE:LINE`."""
    number = 0
    while True:
        try:
            line = file.readline(LONGEST_LINE)
        except OSError as error:
            raise Failed(f"{name}: it could not be read to its end: {error.strerror}") from None
        if not line:
            return
        number += 1
        if len(line) == LONGEST_LINE:
            raise Told(f"{name}:{number}: a line of {LONGEST_LINE:,} bytes or more")
        yield f"{name}:{number}", line[3:] if number == 1 and line.startswith(b"\xef\xbb\xbf") else line


def header_names(line: bytes) -> list[bytes]:
    """The words of a line up to a comment. A name may have a # in it, so a comment starts at a word of its own."""
    names = line.split()
    for at, name in enumerate(names):
        if name.startswith(b"#"):
            return names[:at]
    return names


def is_header(line: bytes, inputs: Sequence[bytes]) -> bool:
    """Whether a first line names the inputs. Names may be of 0 and 1 alone (`10`); a line that can be a vector is one."""
    names = header_names(line)
    digits = b"".join(line.split(b"#")[0].split())
    if digits.strip(b"01"):
        return True
    return len(digits) != len(inputs) and sorted(names) == sorted(inputs)


def columns(place: str, line: bytes, inputs: Sequence[bytes]) -> list[int]:
    """For each input the column that a header gives it."""
    names = header_names(line)
    known = set(inputs)
    if not known.intersection(names):
        strange = next(name for name in names if name.strip(b"01"))
        raise Told(f"{place}: {shown(strange)}: neither bits, 0 and 1, nor the name of an input")
    seen: set[bytes] = set()
    for name in names:
        if name not in known:
            raise Told(f"{place}: {shown(name)}: no input has this name")
        if name in seen:
            raise Told(f"{place}: {shown(name)}: this input is named twice")
        seen.add(name)
    for name in inputs:
        if name not in seen:
            raise Told(f"{place}: the header names {len(names):,} of {len(inputs):,} inputs, and not {shown(name)}")
    return [names.index(name) for name in inputs]


def one_vector(place: str, line: bytes, inputs: int) -> bytes:
    """The bits of a line, or nothing where it has none."""
    digits = b"".join(line.split(b"#")[0].split())
    other = digits.strip(b"01")
    if other:
        raise Told(f"{place}: {shown(other[:1] if other[0] < 128 else other)}: a vector has 0 and 1 alone")
    if digits and len(digits) != inputs:
        raise Told(f"{place}: bits: {len(digits):,}, inputs: {inputs:,}; there must be a bit for each")
    return digits.translate(AS_BITS)


def read_vectors(path: str, inputs: Sequence[str]) -> VectorList:
    """The vectors of a file, in the order of the inputs whichever that of the columns is."""
    name = "standard input" if path == "-" else path
    names = [each.encode("utf-8", "surrogateescape") for each in inputs]
    bits: list[bytes] = []
    order: Optional[list[int]] = None
    first = True
    with opened(path) as file:
        for place, line in numbered_lines(file, name):
            if first and header_names(line):
                first = False
                if is_header(line, names):
                    order = columns(place, line, names)
                    continue
            vector = one_vector(place, line, len(names))
            if vector:
                bits.append(bytes(vector[at] for at in order) if order else vector)
    return VectorList(bits, name)
