"""Texts of words: a word a line, of eight hexadecimal digits; # starts a comment; the line `vectors` ends the card.

Blank lines are skipped. Lines may end in CR and LF, the text may begin with a byte order mark, and a line has less than 4,096 bytes.
"""

from __future__ import annotations

import os
import struct

from frontend.errors import Told
from frontend.files import open_file, read_pieces

TYPE_CHECKING = False
if TYPE_CHECKING:
    from collections.abc import Iterable, Iterator, Sequence

LINE_BYTES = 4096
SHOWN_BYTES = 40
BYTE_ORDER_MARK = b"\xef\xbb\xbf"
DIGITS = b"0123456789ABCDEFabcdef"

# One more than is graded, so that what is too long is told so; the rest of it is not read.
MOST_CARD = 9217
MOST_VECTORS = 16385


class Text:
    """The words of a text, and where they stand: by index the line's number, and of the card's words the line's comment."""

    def __init__(self, name: str) -> None:
        self.name = name
        self.card: list[int] = []
        self.vectors: list[int] = []
        self.card_lines: list[int] = []
        self.vector_lines: list[int] = []
        self.card_comments: list[str] = []


def read_text(path: str, most_card: int = MOST_CARD, most_vectors: int = MOST_VECTORS) -> Text:
    """The text in a file, of which no more is read than so many words."""
    text = Text(path)
    past = False  # the line `vectors`
    for number, line in enumerate(_lines(path), 1):
        code, _, comment = line.removesuffix(b"\r").partition(b"#")
        code = code.strip(b" \t")
        if not code:
            continue
        if code == b"vectors" and not past:
            past = True
            continue
        if len(code) != 8 or code.strip(DIGITS):
            raise Told(f"{path}:{number}: not a word: {shown(line)}")
        word = int(code, 16)
        if past:
            text.vectors.append(word)
            text.vector_lines.append(number)
        else:
            text.card.append(word)
            text.card_lines.append(number)
            text.card_comments.append(comment.strip().decode("utf-8", "surrogateescape"))
        if len(text.card) >= most_card or len(text.vectors) >= most_vectors:
            break
    return text


def _lines(path: str) -> Iterator[bytes]:
    """The lines of a text, without their ends."""
    fd = open_file(path)
    number = 0
    rest = b""
    try:
        for piece in read_pieces(fd):
            *whole, rest = (rest + piece).split(b"\n")
            for line in whole:
                number += 1
                yield _checked(path, number, line)
            _checked(path, number + 1, rest)
        if rest:
            yield _checked(path, number + 1, rest)
    except OSError:
        raise Told(f"{path}: the text could not be read to its end") from None
    finally:
        os.close(fd)


def _checked(path: str, number: int, line: bytes) -> bytes:
    """A line that is not too long, without the mark that a text may begin with."""
    if len(line) >= LINE_BYTES:
        raise Told(f"{path}:{number}: a line of 4,096 bytes or more: {shown(line)}")
    if number == 1 and line.startswith(BYTE_ORDER_MARK):
        return line[len(BYTE_ORDER_MARK):]
    return line


def shown(line: bytes) -> str:
    """A line's start, as any terminal can show it."""
    start = "".join(chr(byte) if 32 <= byte < 127 else "?" for byte in line[:SHOWN_BYTES])
    return start + ".." if len(line) > SHOWN_BYTES else start


def as_bytes(words: Iterable[int]) -> bytes:
    """Each word as four bytes, highest first."""
    listed = list(words)
    return struct.pack(f">{len(listed)}I", *listed)


def from_bytes(data: bytes) -> list[int]:
    """The words of so many bytes."""
    return list(struct.unpack(f">{len(data) // 4}I", data))


def program_input(card: Sequence[int], vectors: Iterable[int]) -> bytes:
    """What the program reads: the card's word count, the card and the vectors."""
    return as_bytes([len(card)]) + as_bytes(card) + as_bytes(vectors)
