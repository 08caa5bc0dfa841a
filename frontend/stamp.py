"""What a built file was made of, so that each run can tell whether it still is.

For each built file FILE there is a stamp, target/FILE.stamp, a text with a line for each thing that decides the file:

    file       its own bytes, so that a file that was cut short, or that something else wrote, is not taken for it
    sources    the crates that it is built of: their lines of crates.txt, their src/*.rt and their specs/*.antt
    toolchain  what `rt version` says
    linker     what `gcc --version` says; of the shared library alone

Bytes are told by their SHA-256. All sources are read at each run: that is less than half a megabyte, and takes some
milliseconds. Proofs are left out: another proof of the same functions builds the same file. What is not known, since rt
or gcc is not on the PATH, is not compared.
"""
from __future__ import annotations

import hashlib
import os

from frontend.errors import Failed

TOOLCHAIN = ("rt", "version")
LINKER = ("gcc", "--version")

# Two of the words on what a file lacks.
NOT_BUILT = "is not built"
NOT_TOLD = "does not tell what it was built of"


def find_tool(name: str) -> str | None:
    """The path of a tool that the PATH has, or None."""
    for folder in os.environ.get("PATH", os.defpath).split(os.pathsep):
        path = os.path.join(folder or ".", name)
        if os.path.isfile(path) and os.access(path, os.X_OK):
            return os.path.abspath(path)
    return None


class Asked:
    """A tool that is asked for its version while other work goes on. (subprocess is slow to import.)"""

    def __init__(self, name: str, word: str) -> None:
        self._reading = self._process = -1
        path = find_tool(name)
        if path is None:
            return
        self._reading, writing = os.pipe()
        actions: list[tuple[int, int, int] | tuple[int, int, str, int, int]] = [
            (os.POSIX_SPAWN_DUP2, writing, 1),
            (os.POSIX_SPAWN_OPEN, 0, os.devnull, os.O_RDONLY, 0),
            (os.POSIX_SPAWN_OPEN, 2, os.devnull, os.O_WRONLY, 0),
        ]
        try:
            self._process = os.posix_spawn(path, [path, word], os.environ, file_actions=actions)
        except OSError:
            pass  # no answer then: who runs the tool for its work is told what is wrong with it
        os.close(writing)

    def answer(self) -> str:
        """The first line that it said; nothing where it has failed or is not there."""
        if self._reading < 0:
            return ""
        with open(self._reading, "rb") as reading:
            said = reading.read()
        if self._process < 0 or os.waitpid(self._process, 0)[1] != 0:
            return ""
        return said.decode("utf-8", "replace").strip().partition("\n")[0]


# ---- the sources ----


def read_file(path: str) -> bytes:
    """All of a file that must be there."""
    try:
        with open(path, "rb") as file:
            return file.read()
    except OSError as error:
        raise Failed(f"{path}: it cannot be read ({error.strerror})") from None


def _read_crates(root: str) -> dict[str, tuple[list[str], list[str]]]:
    """By crate what kind it is, as `staticlib`, and what it names."""
    needs: dict[str, tuple[list[str], list[str]]] = {}
    for line in read_file(os.path.join(root, "crates.txt")).decode("utf-8", "replace").splitlines():
        head, colon, words = line.partition("#")[0].partition(":")
        if colon and head.strip():
            needs[head.split()[0]] = (head.split()[1:], words.split())
    return needs


def crates_of(root: str, crate: str) -> list[tuple[str, list[str]]]:
    """The crates that one is built of, with what each names; in the order in which the toolchain proves them."""
    needs = {name: words for name, (_, words) in _read_crates(root).items()}
    order: dict[str, list[str]] = {}
    seen = set()

    def visit(name: str) -> None:
        if name not in seen:
            seen.add(name)  # so that a cycle, which the toolchain refuses, ends here
            for each in needs.get(name, []):
                if each in needs:
                    visit(each)
            order[name] = needs.get(name, [])

    visit(crate)
    return list(order.items())


def _entries(folder: str) -> list[os.DirEntry[str]]:
    try:
        with os.scandir(folder) as entries:
            return sorted(entries, key=lambda each: each.name)
    except FileNotFoundError:
        return []
    except OSError as error:
        raise Failed(f"{folder}: it cannot be read ({error.strerror})") from None


def _walk(folder: str, files: list[str], folders: list[str]) -> None:
    folders.append(folder)
    for entry in _entries(folder):
        if entry.is_dir(follow_symlinks=False):
            _walk(entry.path, files, folders)
        elif entry.is_file(follow_symlinks=False) and entry.name.endswith((".rt", ".antt")):
            files.append(entry.path)


def source_paths(root: str, crate: str) -> tuple[list[str], list[str]]:
    """The files of one crate that decide what is built, without what an editor leaves beside them, and their folders."""
    files: list[str] = []
    folders: list[str] = []
    for part in ("src", "specs"):
        _walk(os.path.join(root, "crates", crate, part), files, folders)
    return files, folders


def sources_of(root: str, crate: str) -> str:
    """The sum of all that a crate is built of."""
    digest = hashlib.sha256()
    kinds = {name: kind for name, (kind, _) in _read_crates(root).items()}
    for name, needs in crates_of(root, crate):
        digest.update(f"{' '.join([name, *kinds.get(name, [])])}: {' '.join(needs)}\n".encode())
        for path in source_paths(root, name)[0]:
            data = read_file(path)
            digest.update(os.fsencode(f"{os.path.relpath(path, root)} {len(data)}\n"))
            digest.update(data)
    return digest.hexdigest()


def _kit_name() -> str:
    """What `rt version` prints, read from the kit's own file where that stands: to run rt takes longer than all else here."""
    home = os.path.dirname(os.path.dirname(os.path.realpath(find_tool("rt") or "")))
    try:
        with open(os.path.join(home, "KIT-ID"), encoding="utf-8", errors="replace") as file:
            return file.readline().strip()
    except OSError:
        return ""


def made_of(root: str, crate: str, linked: bool = False) -> dict[str, str]:
    """What a file of this crate is made of if it is built now."""
    made = {"toolchain": _kit_name() if find_tool("rt") else ""}
    asked = {"linker": Asked(*LINKER)} if linked else {}
    if not made["toolchain"]:
        asked["toolchain"] = Asked(*TOOLCHAIN)
    made["sources"] = sources_of(root, crate)
    made.update((name, each.answer()) for name, each in asked.items())
    return {name: value for name, value in made.items() if value}


# ---- stamps ----


def stamp_of(path: str, root: str) -> str:
    """Where the stamp of a built file is: not beside it, where the toolchain has one of its own."""
    return os.path.join(root, "target", os.path.basename(path) + ".stamp")


def _read_stamp(path: str, root: str) -> dict[str, str]:
    """The stamp of a built file; empty where there is none."""
    try:
        with open(stamp_of(path, root), encoding="utf-8", errors="replace") as file:
            pairs = [line.rstrip("\n").partition(" ") for line in file]
    except OSError:
        return {}
    return {name: value for name, _, value in pairs}


def write_stamp(path: str, root: str, made: dict[str, str]) -> None:
    """Writes the stamp of a built file: whole, or not at all."""
    lines = {"file": hashlib.sha256(read_file(path)).hexdigest(), **made}
    stamp = stamp_of(path, root)
    fresh = f"{stamp}.{os.getpid()}.new"
    try:
        os.makedirs(os.path.dirname(stamp), exist_ok=True)
        with open(fresh, "w", encoding="utf-8") as file:
            file.writelines(f"{name} {value}\n" for name, value in lines.items())
        os.replace(fresh, stamp)
    except OSError as error:
        if os.path.exists(fresh):
            os.remove(fresh)
        raise Failed(f"{stamp}: it cannot be written ({error.strerror})") from None


def what_lacks(path: str, root: str, made: dict[str, str]) -> str:
    """Why a file is not one that is made of this, in words that go on from its name; nothing where it is."""
    try:
        with open(path, "rb") as file:
            data = file.read()
    except (FileNotFoundError, NotADirectoryError):
        return NOT_BUILT
    except OSError as error:
        raise Failed(f"{path}: it cannot be read ({error.strerror})") from None
    stamp = _read_stamp(path, root)
    if stamp.get("file") != hashlib.sha256(data).hexdigest():
        return NOT_TOLD
    if stamp.get("sources") != made["sources"]:
        return "is older than its sources"
    for tool in ("toolchain", "linker"):
        if tool in made and stamp.get(tool) != made[tool]:
            return f"was built with another {tool}"
    return ""


# ---- files that the toolchain built without us ----


def library_of(root: str, crate: str) -> str:
    """The folder that the toolchain makes of a library once it is proved, anew each time."""
    return os.path.join(root, "crates", crate, "out", "rlib", f"{crate}.rlib")


def libraries_since(root: str, crate: str) -> list[int]:
    """When the libraries below a crate were built, if all are and no source has changed since the first of them; else nothing.

    A change is told by the time that no tool sets back, that of the last change of a file's entry: a source that was unpacked
    or copied with an old date counts as new. A folder counts too, since a file may have gone from it, and so does rt.
    """
    crates = [name for name, _ in crates_of(root, crate)]
    paths = [os.path.join(root, "crates.txt"), find_tool("rt") or ""]
    for name in crates:
        files, folders = source_paths(root, name)
        paths += files + folders
    try:
        made = [os.stat(library_of(root, name)).st_ctime_ns for name in crates if name != crate]
        changes = [os.stat(each).st_ctime_ns for each in paths if os.path.exists(each)]
        return made if max(changes) < min(made) else []
    except (FileNotFoundError, NotADirectoryError, ValueError):
        return []


def is_of_sources(path: str, root: str, crate: str) -> bool:
    """Whether a file that the toolchain built is of the sources as they are: of libraries that are, and not older than these.

    So what was built from nothing is found to be fresh. What was built piece by piece may be fresh too, but rt alone can tell.
    """
    made = libraries_since(root, crate)
    return bool(made) and max(made) <= os.stat(path).st_mtime_ns


def is_whole_program(path: str, root: str, crate: str) -> bool:
    """Whether a program is known to be whole: by the stamp that `rt run` leaves beside it, whose end is the program's sum, or since
    it has run in `rt ci`, which leaves beside it what it wrote."""
    wanted, wrote = os.path.join(root, "crates", crate, "stdout"), os.path.join(os.path.dirname(path), "stdout")
    try:
        if os.path.exists(path + ".stamp"):
            return read_file(path + ".stamp").endswith(hashlib.sha256(read_file(path)).hexdigest().encode())
        return read_file(wrote) == read_file(wanted) and os.stat(wrote).st_mtime_ns >= os.stat(path).st_mtime_ns
    except (OSError, Failed):
        return False


def is_whole_archive(data: bytes) -> bool:
    """Whether an archive has each member to its end: one that was cut short has not."""
    at = 8
    while at < len(data):
        size = data[at + 48 : at + 58].strip()
        if data[at + 58 : at + 60] != b"`\n" or not size.isdigit():
            return False
        at += 60 + int(size)
        if at > len(data):
            return False
        at += at % 2
    return at > 8 and data.startswith(b"!<arch>\n")
