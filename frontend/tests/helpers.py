"""What several tests need: files in a folder of their own, examples, the engine where it is there."""

from __future__ import annotations

import os
import tempfile
import unittest

from frontend import build, engine
from frontend.words import Text, read_text


def has_engine() -> bool:
    """Whether the program and the archive are there; a test builds neither."""
    program = os.environ.get("CARDGRADE") or os.path.join(engine.root(), build.PROGRAM.file)
    library = os.environ.get("CARDHOST_LIB") or os.path.join(engine.root(), build.ARCHIVE.file)
    return os.path.exists(program) and os.path.exists(library)


needs_engine = unittest.skipUnless(has_engine(), "the engine is not built")


def example(name: str) -> str:
    """The path of an example."""
    return os.path.join(engine.root(), "examples", name)


def example_text(name: str) -> Text:
    return read_text(example(name))


class FilesCase(unittest.TestCase):
    """A test with files in a folder that is gone afterwards."""

    def setUp(self) -> None:
        folder = tempfile.TemporaryDirectory(prefix="cardgrade-test-")
        self.addCleanup(folder.cleanup)
        self.folder = folder.name

    def file(self, data: bytes, name: str = "file") -> str:
        """The path of a file with these bytes."""
        path = os.path.join(self.folder, name)
        with open(path, "wb") as file:
            file.write(data)
        return path

    def read(self, path: str) -> bytes:
        with open(path, "rb") as file:
            return file.read()
