"""The proved engine: the program, by its standard input and output, and the archive, by its calls."""

from __future__ import annotations

import os
import select
import signal

from frontend.errors import Failed
from frontend.files import PIECE, open_file, read_pieces
from frontend.words import as_bytes, from_bytes

TYPE_CHECKING = False
if TYPE_CHECKING:
    from collections.abc import Callable, Sequence
    from io import FileIO
    from typing import Any, Optional, Union

# The limits of a card, by which buffers are lent.
MOST_WORDS = 9216
MOST_GRAPHS = 1024
MOST_NODES = 4096
MOST_FAULTS = 2 * MOST_NODES + 2 * MOST_GRAPHS

# The signals that ask for the end.
STOPPING = (signal.SIGHUP, signal.SIGINT, signal.SIGTERM)


def root() -> str:
    """The project's folder."""
    return os.path.dirname(os.path.dirname(os.path.abspath(__file__)))


# ---- the program ----


def run_program(data: bytes) -> bytes:
    """The program's whole text for these bytes."""
    program = _program()
    given, into = os.pipe()
    with os.fdopen(into, "wb", 0) as feed:
        return _run(program, given, lambda out: _exchange(feed, data, out))


def run_program_on(given: Union[int, str]) -> bytes:
    """The same for what a descriptor or a file has, which the program reads itself."""
    program = _program()
    fd = open_file(given) if isinstance(given, str) else os.dup(given)
    return _run(program, fd, lambda out: b"".join(read_pieces(out)))


def _program() -> str:
    from frontend import build
    return build.program()


def _run(program: str, given: int, take: Callable[[int], bytes]) -> bytes:
    """Runs the program on a descriptor, which is closed here, and takes its text. A program that does not end well has none."""
    out, there = os.pipe()
    process = 0
    held = signal.pthread_sigmask(signal.SIG_BLOCK, STOPPING)  # until the process is known, by which it is ended
    try:
        process = _start(program, given, there, held)
        signal.pthread_sigmask(signal.SIG_SETMASK, held)
        text = take(out)
        ended = os.waitpid(process, 0)[1]
    except BaseException as error:
        if process:
            _end(process)
        if isinstance(error, OSError):
            raise Failed("the program was cut short") from None
        raise
    finally:
        os.close(out)
        signal.pthread_sigmask(signal.SIG_SETMASK, held)
    if ended != 0:
        raise Failed("the program was cut short")
    return text


def _start(program: str, given: int, out: int, held: set[int]) -> int:
    """A process of the program with these descriptors, which are closed here, and these signals held back; its number."""
    actions = [(os.POSIX_SPAWN_DUP2, given, 0), (os.POSIX_SPAWN_DUP2, out, 1)]
    try:
        return os.posix_spawn(program, [program], os.environ, file_actions=actions, setsigmask=held, setsigdef=[signal.SIGPIPE])
    except OSError:
        raise Failed(f"{program}: no program that can be run") from None
    finally:
        os.close(given)
        os.close(out)


def _end(process: int) -> None:
    """Ends a process whose text nobody takes."""
    try:
        os.kill(process, signal.SIGKILL)
        os.waitpid(process, 0)
    except (ProcessLookupError, ChildProcessError):
        pass  # it had ended


def _exchange(feed: FileIO, data: bytes, out: int) -> bytes:
    """Writes the program's input while its text is read, since either may wait for the other. The program may leave input unread."""
    os.set_blocking(feed.fileno(), False)
    rest = memoryview(data)
    parts: list[bytes] = []
    waiting = select.poll()
    waiting.register(feed.fileno(), select.POLLOUT)
    waiting.register(out, select.POLLIN)
    while True:
        for fd, _ in waiting.poll():
            if fd == out:
                piece = os.read(out, PIECE)
                if not piece:
                    return b"".join(parts)
                parts.append(piece)
            elif not (rest := _feed(feed, rest)):
                waiting.unregister(fd)
                feed.close()


def _feed(feed: FileIO, rest: memoryview) -> memoryview:
    """Writes some of what is left, and tells what is left then."""
    try:
        return rest[feed.write(rest[:PIECE]) or 0:]
    except BrokenPipeError:
        return rest[:0]


# ---- the archive ----


def refusal(answer: int) -> int:
    """The number of the rule by which a call is refused, or 0."""
    return answer >> 32


def position(answer: int) -> int:
    """Where it is refused."""
    return answer & 0xFFFFFFFF


class Library:
    """The calls of include/cardhost.h. Each gives its answer and the words that it wrote, of a refused one none."""

    def __init__(self, path: str) -> None:
        import ctypes
        self._ctypes: Any = ctypes
        try:
            self._calls: Any = ctypes.CDLL(path)
        except OSError as error:
            raise Failed(f"{path}: the library cannot be loaded: {error}") from None

    def check(self, card: Sequence[int]) -> tuple[int, list[int]]:
        """The numbers of inputs, graphs, nodes, observable graphs and faults."""
        answer, (numbers,) = self._call("card_check", [card], [5])
        return answer, numbers

    def good_values(self, card: Sequence[int], vector: Sequence[int]) -> tuple[int, list[int]]:
        """Each graph's value under a vector."""
        answer, (values,) = self._call("card_good_values", [card, vector], [MOST_GRAPHS])
        return answer, values[:self._number(card, 1, answer)]

    def fault_values(self, card: Sequence[int], vector: Sequence[int], faults: Sequence[int]) -> tuple[int, list[int]]:
        """The same with the faults of a list in, all together."""
        answer, (values,) = self._call("card_fault_values", [card, vector, faults], [MOST_GRAPHS])
        return answer, values[:self._number(card, 1, answer)]

    def change_list(self, card: Sequence[int], vector: Sequence[int], graph: int) -> tuple[int, list[int]]:
        """Which graphs differ where one is held at the opposite of its value."""
        answer, (graphs,) = self._call("card_change_list", [card, vector, graph], [MOST_GRAPHS])
        return answer, graphs[:answer]

    def critical_nodes(self, card: Sequence[int], vector: Sequence[int]) -> tuple[int, list[int]]:
        """1 for each node whose other exit alters an observable graph, else 0."""
        answer, (nodes,) = self._call("card_critical_nodes", [card, vector], [MOST_NODES])
        return answer, nodes[:self._number(card, 2, answer)]

    def grade(self, card: Sequence[int], vectors: Sequence[int]) -> tuple[int, list[int], list[int]]:
        """For each fault its mark, C0000000 or E0000000 plus the first vector, and how many vectors catch it."""
        answer, (marks, tallies) = self._call("card_grade", [card, vectors], [MOST_FAULTS, MOST_FAULTS])
        faults = self._number(card, 4, answer)
        return answer, marks[:faults], tallies[:faults]

    def join(self, a: Sequence[int], b: Sequence[int], wires: Sequence[int]) -> tuple[int, list[int]]:
        """The words of card B on card A."""
        answer, (card,) = self._call("card_join", [a, b, wires], [MOST_WORDS])
        return answer, card[:answer]

    def from_gates(self, gates: Sequence[int]) -> tuple[int, list[int]]:
        """The words of the card of a gate list."""
        answer, (card,) = self._call("card_from_gates", [gates], [MOST_WORDS])
        return answer, card[:answer]

    def _number(self, card: Sequence[int], which: int, answer: int) -> int:
        """One of the numbers of a card that was not refused."""
        return 0 if refusal(answer) else self.check(card)[1][which]

    def _call(self, name: str, given: Sequence[Union[int, Sequence[int]]], room: Sequence[int]) -> tuple[int, list[list[int]]]:
        """Calls with words, or a number, and with buffers of so many words: the answer, and the buffers' words, none where it is refused."""
        ctypes = self._ctypes
        call = getattr(self._calls, name, None)
        if call is None:
            raise Failed(f"the library has no {name}")
        call.restype = ctypes.c_uint64
        arguments: list[Any] = []
        for each in given:
            if isinstance(each, int):
                arguments.append(ctypes.c_uint32(each))
            else:
                data = as_bytes(each)
                arguments += [data, ctypes.c_size_t(len(data))]
        buffers = [ctypes.create_string_buffer(4 * words) for words in room]
        for buffer in buffers:
            arguments += [buffer, ctypes.c_size_t(len(buffer))]
        answer = call(*arguments)
        if refusal(answer):
            return answer, [[] for _ in buffers]
        return answer, [from_bytes(buffer.raw) for buffer in buffers]


_library: Optional[Library] = None


def library() -> Library:
    """The archive's calls, built where they are not."""
    global _library
    if _library is None:
        from frontend import build
        _library = Library(build.shared_library())
    return _library
