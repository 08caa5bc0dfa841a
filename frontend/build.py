"""The built files, fresh: the program, and the shared library that is made of the archive.

At each run the stamp of a built file (frontend/stamp.py) tells whether it is made of what is there now. One that is not is built
again, by the toolchain, which proves first what has changed; where rt is not on the PATH, that is an error. The program is built by
`rt run` in its crate's folder, which runs it too, on the crate's file stdin, and it is to print what the file stdout has; the
archive is built by `rt lib`. What they build stands in the crate's out/. The shared library, the stamps, the log and the lock are
in target/, which no tool but this one and the tests write. A build has all of it to itself by the lock, which the others wait for
(frontend/lock.py); then they look at the stamp again.

A file whose stamp is not its own, or that has none, may come from the toolchain alone, as after .ci/run. It is taken over, and gets
its stamp, if no source has changed since the toolchain built the first library below it, and if it is known to be whole: the
program by what rt leaves beside it once it is linked or has run, the archive by its members, which must all be there. Else rt is
asked, which proves what has changed, and knows what has not.

CARDGRADE=program names a finished program, CARDHOST_LIB=archive a finished archive, or a shared library that was made of one;
these are used as they are.
"""
from __future__ import annotations

import os

from frontend import stamp
from frontend.errors import Failed

TYPE_CHECKING = False
if TYPE_CHECKING:
    from typing import NoReturn

    from frontend import watch

ROOT = os.path.dirname(os.path.dirname(os.path.realpath(__file__)))
RT = "the Rattle toolchain (rt), which proves and builds it,"
GCC = "gcc, which links it,"


class Product:
    """A file that is built of a crate, by a command of the toolchain in the crate's folder or, where there is none, by linking."""

    def __init__(self, noun: str, crate: str, command: str, file: str, hint: str) -> None:
        self.noun = noun
        self.crate = crate
        self.command = command
        self.file = file
        self.hint = f"{noun} is built there, and {hint} names a finished one"


PROGRAM = Product("the program", "cardgrade", "run", "crates/cardgrade/out/cardgrade", "CARDGRADE=program")
ARCHIVE = Product("the archive", "cardhost", "lib", "crates/cardhost/out/libcardhost.a", "CARDHOST_LIB=archive")
LIBRARY = Product("the library", "cardhost", "", "target/libcardhost.so", "CARDHOST_LIB=archive")


def program(root: str = ROOT) -> str:
    """The path of the program."""
    named = os.environ.get("CARDGRADE", "")
    if named:
        if not os.path.isfile(named) or not os.access(named, os.X_OK):
            raise Failed(f"{named}: no program that can be run")
        return os.path.join(".", named)
    return _fresh(root, PROGRAM)


def archive(root: str = ROOT) -> str:
    """The path of the archive; that of the checkout, whatever is named."""
    return _fresh(root, ARCHIVE)


def shared_library(root: str = ROOT) -> str:
    """The path of the shared library."""
    named = os.environ.get("CARDHOST_LIB", "")
    return _named_library(named) if named else _fresh(root, LIBRARY)


# ---- what is there ----


def _fresh(root: str, product: Product) -> str:
    """The path of a built file: of the one that is there, if that is fresh."""
    lack, _ = _state(root, product)
    if lack:
        _build(root, product, lack)
    return os.path.join(root, product.file)


def _state(root: str, product: Product) -> tuple[str, dict[str, str]]:
    """What the file lacks, in words that go on from its noun (none where it is fresh), and what it is to be made of."""
    path = os.path.join(root, product.file)
    made = stamp.made_of(root, product.crate, linked=product is LIBRARY)
    lack = stamp.what_lacks(path, root, made)
    if not lack and product is PROGRAM and not os.access(path, os.X_OK):
        lack = "cannot be run"
    elif lack == stamp.NOT_TOLD and _is_whole(root, product) and stamp.is_of_sources(path, root, product.crate):
        lack = ""
        try:
            stamp.write_stamp(path, root, made)
        except Failed:
            pass  # a folder that cannot be written: the next run looks again
    return lack, made


def _is_whole(root: str, product: Product) -> bool:
    """Whether a file that the toolchain has built is known to be whole."""
    path = os.path.join(root, product.file)
    if product is PROGRAM:
        return os.access(path, os.X_OK) and stamp.is_whole_program(path, root, product.crate)
    try:
        return product is ARCHIVE and stamp.is_whole_archive(stamp.read_file(path))
    except Failed:
        return False


def _tool(product: Product, lack: str, name: str, what: str) -> str:
    """The path of a tool that a build needs."""
    path = stamp.find_tool(name)
    if path is None:
        raise Failed(f"{product.noun} {lack}, and {what} is not on the PATH")
    return path


# ---- a build ----


class Work:
    """A build that has the lock: where it is done, and who waits for signals."""

    def __init__(self, root: str, signals: watch.Signals, held: int) -> None:
        self.root = root
        self.signals = signals
        self.held = held
        self.log = os.path.join(root, "target", "build.log")

    def run(self, words: list[str], progress: watch.Progress, folder: str = "", given: str = "") -> int:
        """Runs a builder, in a folder of the checkout and on a file; its status. The log has what it said, and is kept."""
        from frontend import watch
        line = f"$ {'cd ' + folder + ' && ' if folder else ''}{' '.join(words)}{' <' + given if given else ''}\n"
        inside = os.path.join(self.root, folder)
        given = os.path.join(inside, given) if given else os.devnull
        try:
            with open(self.log, "wb", buffering=0) as log:
                log.write(os.fsencode(line))
                return watch.run(words, inside, given, log, progress, self.signals, [self.held])
        except OSError as error:
            raise Failed(f"{self.log} cannot be written ({error.strerror})") from None


def _build(root: str, product: Product, lack: str) -> None:
    """Builds a file anew, unless another run has just done so. What is missing is told before anything is done."""
    from frontend import lock, watch
    target = os.path.join(root, "target")
    if product is LIBRARY:
        _tool(product, lack, "gcc", GCC)
    else:
        _tool(product, lack, "rt", RT)
    lock.check_rights(root, [name for name, _ in stamp.crates_of(root, product.crate)] if product is not LIBRARY else [], product.hint)
    with watch.Signals() as signals:
        held = lock.take(target, signals)
        try:
            _make(Work(root, signals, held), product)
        finally:
            os.close(held)


def _make(work: Work, product: Product) -> None:
    """Makes a file that is fresh: again where its sources have changed meanwhile."""
    for _ in range(3):
        lack, made = _state(work.root, product)
        if not lack:
            return
        if product is LIBRARY:
            _make(work, ARCHIVE)
            _link(work, lack)
        else:
            _prove(work, product, lack)
        stamp.write_stamp(os.path.join(work.root, product.file), work.root, made)
    raise Failed(f"the sources of {product.noun} change while it is built")


def _prove(work: Work, product: Product, lack: str) -> None:
    """Has the toolchain prove and build."""
    from frontend import lock, watch
    from frontend.files import tell
    crates = [name for name, _ in stamp.crates_of(work.root, product.crate)]
    folder = os.path.join("crates", product.crate)
    words = [_tool(product, lack, "rt", RT), product.command]
    lock.check_rights(work.root, crates, product.hint)
    lock.check_room(work.root, crates)
    if lack == stamp.NOT_BUILT:
        tell(f"cardgrade: {product.noun} {lack}: first its {len(crates)} crates are proved, in some minutes")
    else:
        tell(f"cardgrade: {product.noun} {lack}: it is built again, and what has changed of its {len(crates)} crates is proved first")
    path = os.path.join(work.root, product.file)
    if not _is_whole(work.root, product):
        _remove(path)  # rt would take a program for built that cannot be run
    progress = watch.Progress(crates)
    given = "stdin" if product is PROGRAM and os.path.isfile(os.path.join(work.root, folder, "stdin")) else ""
    status = work.run(words, progress, folder, given)
    if status == 0 and not os.path.isfile(path):
        _fail(work, f"rt has left no {product.file}")
    if status == 0 and progress.has_run and progress.printed != _wanted(os.path.join(work.root, folder, "stdout")):
        progress.error, status = f"it does not print what {folder}/stdout has", 1
    if status != 0:
        if progress.has_run:
            _remove(path)
        _fail(work, progress.failure())
    progress.end()
    tell(f"cardgrade: {product.noun} is built, in {progress.seconds()} s")


def _wanted(path: str) -> str:
    """What the program is to print on its crate's file stdin: nothing where there is no file stdout."""
    return stamp.read_file(path).decode("utf-8", "replace") if os.path.isfile(path) else ""


def _link(work: Work, lack: str) -> None:
    """Makes the shared library of the archive, under another name first."""
    from frontend import watch
    path = os.path.join(work.root, LIBRARY.file)
    progress = watch.Progress([])
    try:
        words = _link_words(_tool(LIBRARY, lack, "gcc", GCC), os.path.join(work.root, ARCHIVE.file), path + ".new")
        if work.run(words, progress) != 0:
            _fail(work, progress.failure())
        os.replace(path + ".new", path)
    except OSError as error:
        raise Failed(f"{path} cannot be written ({error.strerror})") from None
    finally:
        _remove(path + ".new")


def _link_words(gcc: str, archive: str, path: str) -> list[str]:
    return [gcc, "-shared", "-o", path, "-Wl,--whole-archive", archive, "-Wl,--no-whole-archive"]


def _fail(work: Work, why: str) -> NoReturn:
    from frontend.files import tell
    tell(f"cardgrade: {why}")
    raise Failed(f"the build failed; {work.log} has all that was said")


def _remove(path: str) -> None:
    try:
        os.remove(path)
    except FileNotFoundError:
        pass
    except OSError as error:
        raise Failed(f"{path} cannot be removed ({error.strerror})") from None


# ---- an archive that is named ----


def _named_library(named: str) -> str:
    """The shared library of a finished archive: it is linked at each run, into memory, so that nothing is left of it."""
    if not os.path.isfile(named) or not os.access(named, os.R_OK):
        raise Failed(f"{named}: no archive that can be read")
    data = stamp.read_file(named)
    if data.startswith(b"\x7fELF"):
        return os.path.join(".", named)
    if not stamp.is_whole_archive(data):
        raise Failed(f"{named}: neither an archive nor a shared library")
    gcc = _tool(LIBRARY, f"of {named} is not there", "gcc", GCC)
    try:
        memory = os.memfd_create("cardhost")
        with open(memory, "wb", closefd=False) as file:
            file.write(_linked(gcc, named))
    except OSError as error:
        raise Failed(f"{named}: no library could be made of it ({error.strerror})") from None
    return f"/proc/self/fd/{memory}"


def _linked(gcc: str, archive: str) -> bytes:
    import subprocess
    import tempfile
    with tempfile.TemporaryDirectory(prefix="cardgrade-") as folder:
        path = os.path.join(folder, "library")
        words = _link_words(gcc, os.path.join(".", archive), path)
        done = subprocess.run(words, stdin=subprocess.DEVNULL, stdout=subprocess.PIPE, stderr=subprocess.STDOUT)
        if done.returncode != 0:
            said = done.stdout.decode("utf-8", "replace").strip().partition("\n")[0]
            raise Failed(f"{archive}: no library could be made of it: {said[:300]}")
        return stamp.read_file(path)
