"""The checkout as a place to build in: whether it can be written, whether there is room, and whose turn it is."""
from __future__ import annotations

import fcntl
import os
import time

from frontend import watch
from frontend.errors import Failed
from frontend.files import tell

MEGABYTE = 1_000_000
ROOM = 50 * MEGABYTE  # what any build needs
ROOM_OF_CRATE = 45 * MEGABYTE  # what the files of a crate that is not proved yet take, twice over


def check_rights(root: str, crates: list[str], hint: str) -> None:
    """What is built goes to target/ and to the toolchain's folders in the crates."""
    target = os.path.join(root, "target")
    try:
        os.makedirs(target, exist_ok=True)
    except OSError as error:
        why = "it is no folder" if os.path.lexists(target) else error.strerror
        raise Failed(f"{target} cannot be written ({why}); {hint}") from None
    parts = [os.path.join(root, "crates", name, part) for name in crates for part in ("", "out", "out/incremental", "out/rlib")]
    for folder in (target, *parts):
        if os.path.exists(folder) and not os.access(folder, os.W_OK | os.X_OK):
            raise Failed(f"{folder.rstrip('/')} cannot be written; {hint}")


def check_room(root: str, crates: list[str]) -> None:
    """There must be room for the crates that are not proved yet."""
    new = [name for name in crates if not os.path.exists(os.path.join(root, "crates", name, "out", "incremental"))]
    needed = ROOM + ROOM_OF_CRATE * len(new)
    there = os.statvfs(root)
    free = there.f_bavail * there.f_frsize
    if free < needed:
        raise Failed(f"{root} has room for {free // MEGABYTE} MB, and building takes up to {needed // MEGABYTE} MB")


def take(target: str, signals: watch.Signals) -> int:
    """Takes the lock, waiting for it where another build has it. It is held until the file that is given here is closed.

    A builder has it open too. So one whose front end was killed, and that goes on, still keeps others from building.
    """
    path = os.path.join(target, "build.lock")
    began = due = time.monotonic()
    while True:
        held = _try(path)
        if held >= 0:
            return held
        now = time.monotonic()
        if now >= due:
            waited = f", {int(now - began)} s" if due > began else ""
            tell(f"cardgrade: another build runs{_owner(path)}; waiting{waited}")
            due = now + watch.SIGN
        signals.wait([], 0.1)


def _try(path: str) -> int:
    """The lock's file, or -1 where another has it. Somebody may remove target/: a lock that is no longer there is none."""
    try:
        os.makedirs(os.path.dirname(path), exist_ok=True)
        held = os.open(path, os.O_RDWR | os.O_CREAT, 0o666)
    except OSError as error:
        raise Failed(f"{path} cannot be written ({error.strerror})") from None
    try:
        fcntl.flock(held, fcntl.LOCK_EX | fcntl.LOCK_NB)
        if os.path.samestat(os.fstat(held), os.stat(path)):
            os.truncate(held, 0)
            os.pwrite(held, b"%d\n" % os.getpid(), 0)
            return held
    except (BlockingIOError, FileNotFoundError):
        pass
    except OSError as error:
        os.close(held)
        raise Failed(f"{path} cannot be locked ({error.strerror})") from None
    os.close(held)
    return -1


def _owner(path: str) -> str:
    """Whose it is, if that is told."""
    try:
        with open(path, encoding="ascii", errors="replace") as file:
            number = file.read(20).strip()
    except OSError:
        return ""
    return f" (process {number})" if number.isdigit() else ""
