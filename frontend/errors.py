"""The ways in which a run ends before its work is done."""


class Failed(Exception):
    """An error of reading, writing or use, told as `cardgrade: MESSAGE`; status 2."""


class Told(Exception):
    """Such an error whose message is told as it is, since it starts with a file's name, and a line's number; status 2."""


class Refused(Exception):
    """The engine refuses what is given: a line for standard output, and words for standard error; status 1."""

    def __init__(self, line: str, words: str) -> None:
        super().__init__(words)
        self.line = line
        self.words = words


class Stopped(BaseException):
    """A signal asked for the end. Nothing is told; status 2."""
