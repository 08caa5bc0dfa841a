"""Runs what builds, and watches it: signs of life, the first failure, and an end with all that it started."""
from __future__ import annotations

import os
import re
import select
import signal
import subprocess
import time

from frontend.errors import Failed
from frontend.files import tell, write_all

TYPE_CHECKING = False
if TYPE_CHECKING:
    from io import FileIO
    from types import FrameType
    from typing import Any

SIGN = 10.0  # seconds that may pass without a word

# The toolchain's lines: a crate is at hand, of one that is unchanged nothing is said; the verdict on it; a crate that stops the
# others, proved or not; and the program runs, whose own lines are all that follows. And what a line has that tells an error.
AT_HAND = re.compile(r"rt: chose --jobs \d+ for (\w+)$")
VERDICT = re.compile(r"logic=([\w-]+)")
STOPPED = re.compile(r"rt: the library (\w+) did not build")
RUNNING = re.compile(r"rt: running out/")
ERROR = re.compile(r"\berror(\[[\w-]+\])?:|No space left|Killed|not found|undefined reference", re.IGNORECASE)


class Signals:
    """While it is entered INT, TERM and HUP end nothing by themselves: `wait` tells of them, so that no work is cut at a bad place."""

    def __enter__(self) -> Signals:
        self._reading, self._writing = os.pipe()
        os.set_blocking(self._reading, False)
        os.set_blocking(self._writing, False)
        self._wakeup = signal.set_wakeup_fd(self._writing, warn_on_full_buffer=False)
        self._handlers: dict[int, Any] = {}
        for number in (signal.SIGINT, signal.SIGTERM, signal.SIGHUP):
            if signal.getsignal(number) != signal.SIG_IGN:  # one that is ignored, as by nohup, stays so
                self._handlers[number] = signal.signal(number, self._take)
        return self

    def __exit__(self, kind: object, error: object, where: object) -> None:
        for number, handler in self._handlers.items():
            signal.signal(number, handler)
        signal.set_wakeup_fd(self._wakeup)
        try:
            if kind is None:
                self._look()
        finally:
            os.close(self._reading)
            os.close(self._writing)

    def wait(self, descriptors: list[int], seconds: float) -> bool:
        """Whether there is something to read, within so many seconds; a signal is a failure."""
        ready = select.select([self._reading, *descriptors], [], [], max(seconds, 0))[0]
        self._look()
        return bool(ready)

    def _look(self) -> None:
        try:
            numbers = [each for each in os.read(self._reading, 16) if each in self._handlers]
        except BlockingIOError:
            return
        if numbers:
            raise Failed("the build was ended by a signal; what is proved so far stays proved")

    def _take(self, number: int, frame: FrameType | None) -> None:
        """The number is in the pipe already."""


class Progress:
    """What the lines of a builder tell: how far it is, and what has failed first."""

    def __init__(self, crates: list[str]) -> None:
        self.crates = crates
        self.left = dict.fromkeys(crates)
        self.failed = ""  # the first crate that is not proved
        self.error = ""  # and the first error there
        self.last = ""  # the last line of all
        self.has_run = False  # whether the program has
        self.printed = ""  # and what it printed
        self._at_hand = ""  # the crate that is proved now
        self._error = ""  # the first error since the last verdict
        self._said = len(crates)
        self._began = self._spoke = time.monotonic()

    def take(self, line: str) -> None:
        """One line of the builder; the last one of all may lack its end."""
        text = line.rstrip("\n")
        self.last = text if text.strip() else self.last
        if self.has_run:
            self.printed += line
        elif found := AT_HAND.match(text):
            self._begin(found[1])
        elif found := VERDICT.match(text):
            self._end(self._at_hand, "" if found[1] == "proved" else text)
        elif found := STOPPED.match(text):
            self._end(found[1], text)
        elif RUNNING.match(text):
            self.has_run = True
        elif not self._error and ERROR.search(text):
            self._error = text

    def _begin(self, name: str) -> None:
        """What comes before it is proved, and was before."""
        while name in self.left and (before := next(iter(self.left))) != name:
            del self.left[before]
        self._at_hand, self._error = name, ""

    def _end(self, name: str, not_proved: str) -> None:
        """The verdict on a crate."""
        if not_proved and not self.failed:
            self.failed, self.error = name, self._error or not_proved
        elif not not_proved and name in self.left:
            del self.left[name]
            self._tell_proved(name)
        self._error = ""

    def tick(self) -> None:
        """A sign of life where there was none for long."""
        if time.monotonic() - self._spoke >= SIGN:
            at_hand = next(iter(self.left), "")
            count = f"{len(self.left)} of {len(self.crates)} crates left"
            self._tell(f"proving {at_hand}, {count}, {self.seconds()} s" if at_hand else f"linking, {self.seconds()} s")

    def due(self) -> float:
        """In how many seconds the next sign is due."""
        return self._spoke + SIGN - time.monotonic()

    def end(self) -> None:
        """All went well. Of the crate that is built itself the toolchain need not say that it is proved."""
        self.left.clear()
        if self._said:
            self._tell_proved(self.crates[-1])

    def failure(self) -> str:
        """The first failure, in one line: where no crate has failed the one at hand is it, if any is."""
        crate = self.failed or next(iter(self.left), "")
        line = (self.error or self._error or self.last or "nothing was said")[:300]
        if self.has_run:
            return f"{self.crates[-1]} is proved, and its run failed: {line}"
        return f"{crate} is not proved: {line}" if crate else line

    def seconds(self) -> int:
        """How long it has taken."""
        return int(time.monotonic() - self._began)

    def _tell_proved(self, name: str) -> None:
        self._said = len(self.left)
        self._tell(f"{name} is proved, {self._said} of {len(self.crates)} crates left")

    def _tell(self, words: str) -> None:
        tell(f"cardgrade: {words}")
        self._spoke = time.monotonic()


def run(words: list[str], folder: str, given: str, log: FileIO, progress: Progress, signals: Signals, keep: list[int]) -> int:
    """Runs a builder in a folder, on a file; its status. It has the descriptors `keep` open, and what it says goes to the log.

    It has a session of its own. So a signal from the terminal comes here alone, and from here all ends that was started there:
    the jobs that a shell has put in the background ignore the terminal's.
    """
    try:
        with open(given, "rb") as there:
            process = subprocess.Popen(words, cwd=folder, stdin=there, stdout=subprocess.PIPE, stderr=subprocess.STDOUT,
                                       start_new_session=True, pass_fds=keep)
    except OSError as error:
        raise Failed(f"{words[0]}: it cannot be run ({error.strerror})") from None
    assert process.stdout
    with process.stdout as said:
        try:
            _follow(process, said.fileno(), log, progress, signals)
        except BaseException:
            _end(process)
            raise
    return process.returncode


def _follow(process: subprocess.Popen[bytes], said: int, log: FileIO, progress: Progress, signals: Signals) -> None:
    """Reads what it says until it has ended."""
    rest = b""
    while True:
        if signals.wait([said], min(progress.due(), 0.5)):
            data = os.read(said, 65536)
            if not data:
                break
            write_all(log.fileno(), data)
            *lines, rest = (rest + data).split(b"\n")
            for line in lines:
                progress.take(line.decode("utf-8", "replace") + "\n")
        elif process.poll() is not None:
            break  # something that it has left behind holds the pipe
        progress.tick()
    if rest:
        progress.take(rest.decode("utf-8", "replace"))
    while process.poll() is None:
        signals.wait([], 0.02)
        progress.tick()


def _end(process: subprocess.Popen[bytes]) -> None:
    """Ends a builder with all that it started: by TERM, so that it can tidy, and a second later by what nothing withstands."""
    for number, seconds in ((signal.SIGTERM, 1.0), (signal.SIGKILL, None)):
        try:
            os.killpg(process.pid, number)
        except (ProcessLookupError, PermissionError):
            pass  # nobody is left
        try:
            process.wait(seconds)
        except subprocess.TimeoutExpired:
            pass
