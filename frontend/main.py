"""What ./cardgrade does: the arguments, what comes of them, and the exit status."""

from __future__ import annotations

import os
import signal
import sys

from frontend import files
from frontend.errors import Failed, Refused, Stopped, Told
from frontend.options import USAGE, Options, parse

TYPE_CHECKING = False
if TYPE_CHECKING:
    from collections.abc import Sequence
    from types import FrameType
    from typing import NoReturn, Optional


def start(arguments: Sequence[str]) -> NoReturn:
    """A whole run. It ends with 10 plus the status: Python's own ends are below, and are all taken for errors."""
    status = 2
    try:
        files.fill_closed()
        _catch_signals()
        done = run(arguments)
        files.close_output()
        status = done
    except Told as error:
        files.tell(str(error))
    except (Stopped, KeyboardInterrupt):
        pass
    except BaseException as error:
        files.tell(f"cardgrade: {_words_of(error)}")
    finally:
        os._exit(10 + status)


def _catch_signals() -> None:
    """The first signal that asks for the end ends the run, with what it has started; those that are ignored stay so."""
    asking = (signal.SIGHUP, signal.SIGINT, signal.SIGTERM)

    def stop(number: int, frame: Optional[FrameType]) -> None:
        for each in asking:
            signal.signal(each, signal.SIG_IGN)
        raise Stopped

    for each in asking:
        if signal.getsignal(each) != signal.SIG_IGN:
            signal.signal(each, stop)


def _words_of(error: BaseException) -> str:
    """An error in words; one that nobody foresaw with its place."""
    if isinstance(error, Failed):
        return str(error)
    if isinstance(error, OSError) and error.strerror:
        return f"{error.filename}: {error.strerror}" if error.filename else error.strerror
    if isinstance(error, MemoryError):
        return "there is not enough memory"
    place = error.__traceback__
    while place and place.tb_next:
        place = place.tb_next
    at = f"{os.path.basename(place.tb_frame.f_code.co_filename)}:{place.tb_lineno}" if place else "?"
    return f"a mistake in the front end, {at}: {type(error).__name__}: {str(error)[:200]!r}"


def run(arguments: Sequence[str]) -> int:
    """Does what the arguments ask for; the status, where it is not an error."""
    options = parse(arguments)
    if options.help:
        _print_usage()
        return 0
    if not options.names and 0 not in files.closed and os.isatty(0):
        files.tell(USAGE[:-1])
        return 2
    _check_files(options)
    try:
        if options.is_makers:
            from frontend import makers
            makers.run(options)
        else:
            _run_plain(options)
    except Refused as refusal:
        files.write_text(refusal.line.encode("ascii") + b"\n")
        files.tell(refusal.words)
        return 1
    return 0


def _print_usage() -> None:
    try:
        files.write_all(1, USAGE.encode())
    except OSError as error:
        raise Failed(f"standard output: {error.strerror}") from None


def _check_files(options: Options) -> None:
    """What cannot be read is told before anything is built."""
    if options.reads_input:
        if 0 in files.closed:
            raise Failed("standard input is closed")
        return
    for name in options.names:
        files.check_file(name)


# ---- words and bytes alone, without names and reports ----


def _run_plain(options: Options) -> None:
    names = options.names
    if options.mode == "--bytes":
        print_bytes(names[0])
    elif len(names) == 3:
        grade_pair(names, options.mode == "--join")
    elif options.reads_input:
        grade_bytes(None)
    elif names[0].endswith(".gates"):
        grade_gates(names[0], options.mode == "--card")
    elif names[0].endswith(".words"):
        grade_text(names[0])
    else:
        grade_bytes(names[0])


def grade_text(name: str) -> None:
    """A text of words."""
    from frontend.answers import grade
    from frontend.words import read_text
    text = read_text(name)
    grade(text.card, text.vectors, name, text)


def grade_bytes(name: Optional[str]) -> None:
    """The bytes of a file, or of standard input, as they are."""
    from frontend.answers import finish
    from frontend.engine import run_program_on
    if name is None:
        finish(run_program_on(0), "standard input")
    else:
        finish(run_program_on(name), name, file=name)


def print_bytes(name: str) -> None:
    """The bytes of a text, which may be longer than what is graded."""
    from frontend.words import program_input, read_text
    text = read_text(name, sys.maxsize, sys.maxsize)
    files.write_text(program_input(text.card, text.vectors))


def grade_pair(names: Sequence[str], prints: bool) -> None:
    """Card B on card A by their wires: graded, or printed."""
    from frontend.answers import grade, print_card
    from frontend.sources import read_pair
    pair = read_pair(names)
    wires = pair.wires
    if prints:
        from frontend.cards import joined_text
        print_card(joined_text(pair.card, pair.origins(), wires.vectors), wires.vectors, wires.name, wires)
    else:
        grade(pair.card, wires.vectors, wires.name, wires)


def grade_gates(name: str, prints: bool) -> None:
    """The card of a gate list: graded, or printed."""
    from frontend.answers import grade, print_card
    from frontend.sources import card_of_gates
    from frontend.words import read_text
    gates = read_text(name)
    card = card_of_gates(gates)
    if prints:
        from frontend.cards import gates_text
        print_card(gates_text(card, gates.card, gates.vectors), gates.vectors, name, gates)
    else:
        grade(card, gates.vectors, name, gates)
