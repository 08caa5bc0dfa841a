"""Reading and writing. A read that fails is never taken for the end, and a text that is not wholly written is an error."""

from __future__ import annotations

import os
import stat
import sys

from frontend.errors import Failed

TYPE_CHECKING = False
if TYPE_CHECKING:
    from collections.abc import Iterator

PIECE = 65536

# The standard descriptors that were closed when the run began.
closed: set[int] = set()


def fill_closed() -> None:
    """Puts a file in the place of each closed standard descriptor, so that no file that is opened later gets its number.

    The one for standard output is not open for writing: to write there stays an error.
    """
    for fd, flags in ((0, os.O_RDONLY), (1, os.O_RDONLY), (2, os.O_WRONLY)):
        try:
            os.fstat(fd)
        except OSError:
            closed.add(fd)
            os.set_inheritable(os.open(os.devnull, flags), True)


def read_pieces(fd: int) -> Iterator[bytes]:
    """What a descriptor has to read, to its end."""
    while True:
        piece = os.read(fd, PIECE)
        if not piece:
            return
        yield piece


def write_all(fd: int, data: bytes) -> None:
    """Writes all the bytes, or raises an OSError."""
    rest = memoryview(data)
    while rest:
        count = os.write(fd, rest)
        if count == 0:
            raise OSError("nothing was written")
        rest = rest[count:]


def write_text(text: bytes) -> None:
    """Writes a text to standard output."""
    try:
        write_all(1, text)
    except OSError:
        raise Failed("standard output did not take the whole text") from None


def close_output() -> None:
    """Closes standard output: of some files only this tells that what was written is not there."""
    try:
        os.close(1)
    except OSError:
        raise Failed("standard output did not take the whole text") from None


def tell(line: str) -> None:
    """Says a line on standard error. Where that is not possible there is nobody to tell."""
    try:
        data = os.fsencode(line)
    except UnicodeEncodeError:
        data = line.encode(sys.getfilesystemencoding(), "backslashreplace")
    try:
        write_all(2, data + b"\n")
    except OSError:
        pass


def check_file(name: str) -> None:
    """A file that cannot be read is told before anything else is done."""
    try:
        mode = os.stat(name).st_mode
    except OSError:
        raise Failed(f"{name}: no such file") from None
    if stat.S_ISDIR(mode):
        raise Failed(f"{name}: a folder, and no file")
    if not os.access(name, os.R_OK):
        raise Failed(f"{name}: it may not be read")


def open_file(name: str) -> int:
    """A descriptor for reading a file."""
    try:
        return os.open(name, os.O_RDONLY)
    except OSError as error:
        raise Failed(f"{name}: {error.strerror}") from None


def read_file(name: str, most: int) -> bytes:
    """A file's bytes, of which there may be no more than `most`."""
    fd = open_file(name)
    parts: list[bytes] = []
    size = 0
    try:
        for piece in read_pieces(fd):
            parts.append(piece)
            size += len(piece)
            if size > most:
                raise Failed(f"{name}: it has more than {most:,} bytes")
    except OSError as error:
        raise Failed(f"{name}: it could not be read to its end: {error.strerror}") from None
    finally:
        os.close(fd)
    return b"".join(parts)


def write_file(name: str, data: bytes) -> None:
    """Writes a file, or standard output where the name is `-`. A file's old bytes stay until the new ones are all there."""
    if name == "-":
        write_text(data)
        return
    try:
        plain = not os.path.lexists(name) or stat.S_ISREG(os.lstat(name).st_mode)
        _write_beside(name, data) if plain else _write_into(name, data)
    except OSError as error:
        raise Failed(f"{name}: it could not be written: {error.strerror or error}") from None


def _write_into(name: str, data: bytes) -> None:
    """For a pipe, a device or a link, which stays what it is."""
    fd = os.open(name, os.O_WRONLY | os.O_CREAT | os.O_TRUNC, 0o666)
    try:
        write_all(fd, data)
    finally:
        os.close(fd)


def _write_beside(name: str, data: bytes) -> None:
    """Under another name in the same folder, and renamed."""
    made = f"{name}.{os.getpid()}"
    fd = os.open(made, os.O_WRONLY | os.O_CREAT | os.O_EXCL, 0o666)
    try:
        try:
            write_all(fd, data)
        finally:
            os.close(fd)
        os.replace(made, name)
    except BaseException:
        os.unlink(made)
        raise
