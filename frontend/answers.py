"""What is written of what the program said, and of cards that were made; and what standard error says of it in words."""

from __future__ import annotations

import os
import stat

from frontend import files
from frontend.engine import run_program
from frontend.errors import Failed, Refused
from frontend.words import program_input

TYPE_CHECKING = False
if TYPE_CHECKING:
    from collections.abc import Sequence
    from typing import Optional

    from frontend.refusals import Subject
    from frontend.words import Text

MOST_VECTORS = 16384
WORDS_HINT = "; a text of words is named FILE.words"


def grade(card: Sequence[int], vectors: Sequence[int], name: str, text: Optional[Text]) -> None:
    """Grades a card, and writes the grading. Places are told by a text's lines where there is one."""
    finish(run_program(program_input(card, vectors)), name, text)


def finish(said: bytes, name: str, text: Optional[Text] = None, file: Optional[str] = None) -> None:
    """Writes the program's text. A grading without its last line is none, and any other line is a refusal: of a text or of a file's bytes."""
    if said.startswith(b"card ") and said.endswith(b"\n") and said[:-1].rpartition(b"\n")[2].startswith(b"grade "):
        files.write_text(said)
        return
    from frontend.refusals import Subject
    words = _explain(said, Subject(name, text, hint="" if text else WORDS_HINT), file)
    if words is None:
        raise Failed(f"{name}: no whole grading came of it")
    raise Refused(said[:-1].decode("ascii"), words)


def print_card(text: str, vectors: Sequence[int], name: str, source: Optional[Text]) -> None:
    """Writes a card that was made. More vectors than are graded are refused as they are there."""
    if len(vectors) > MOST_VECTORS:
        from frontend.refusals import Subject
        raise Refused("long", Subject(name, source).long())
    files.write_text(text.encode("utf-8", "surrogateescape"))


def _explain(said: bytes, subject: Subject, file: Optional[str]) -> Optional[str]:
    """What is wrong, where the program said so."""
    if said == b"short\n":
        return f"{subject.name}: {_short(file)}"
    if said == b"long\n":
        return subject.long()
    fields = said.split()
    if len(fields) != 3 or said != b"refused %s %s\n" % (fields[1], fields[2]) or not (fields[1] + fields[2]).isdigit():
        return None
    return subject.refused(int(fields[1]), int(fields[2]))


def _short(file: Optional[str]) -> str:
    """An input that ends too early. Of a file the count can be read again."""
    first, size = _count_and_size(file) if file is not None else (b"", 0)
    if len(first) < 4:
        return "it ends before the card that its word count asks for does, or inside a word"
    return (f"its word count asks for a card of {int.from_bytes(first, 'big')} words, and its {size} bytes end before the card does, or inside"
            " a word")


def _count_and_size(file: str) -> tuple[bytes, int]:
    """A plain file's first four bytes, and how many it has; nothing of what cannot be read twice."""
    try:
        fd = os.open(file, os.O_RDONLY | os.O_NONBLOCK)
        try:
            status = os.fstat(fd)
            return (os.read(fd, 4), status.st_size) if stat.S_ISREG(status.st_mode) else (b"", 0)
        finally:
            os.close(fd)
    except OSError:
        return b"", 0
