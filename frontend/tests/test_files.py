"""Reading and writing of files: whole or an error."""

from __future__ import annotations

import os
from unittest import mock

from frontend import files
from frontend.errors import Failed
from frontend.tests.helpers import FilesCase


class Writing(FilesCase):
    def test_short_writes_go_on(self) -> None:
        real = os.write
        path = os.path.join(self.folder, "out")
        with mock.patch("os.write", lambda fd, data: real(fd, data[:3])):
            files.write_file(path, b"0123456789")
        self.assertEqual(self.read(path), b"0123456789")

    def test_a_write_of_nothing_is_an_error(self) -> None:
        with mock.patch("os.write", lambda fd, data: 0), self.assertRaises(OSError):
            files.write_all(1, b"text")

    def test_a_failed_write_leaves_the_old_file(self) -> None:
        path = self.file(b"old")
        with mock.patch("os.write", side_effect=OSError(28, "full")), self.assertRaises(Failed) as caught:
            files.write_file(path, b"new")
        self.assertEqual(str(caught.exception), f"{path}: it could not be written: full")
        self.assertEqual((self.read(path), os.listdir(self.folder)), (b"old", ["file"]))

    def test_what_is_no_plain_file_stays_what_it_is(self) -> None:
        real, link = self.file(b"old longer"), os.path.join(self.folder, "link")
        os.symlink(real, link)
        files.write_file(link, b"new")
        self.assertTrue(os.path.islink(link))
        self.assertEqual(self.read(real), b"new")
        files.write_file(os.devnull, b"new")
        with self.assertRaises(Failed):
            files.write_file("/dev/full", b"new")

    def test_a_folder_that_is_not_there(self) -> None:
        for name in ("none/file", "."):
            with self.assertRaises(Failed):
                files.write_file(os.path.join(self.folder, name), b"")


class Reading(FilesCase):
    def test_whole(self) -> None:
        self.assertEqual(files.read_file(self.file(b"x" * 200000), 200000), b"x" * 200000)

    def test_too_large(self) -> None:
        with self.assertRaises(Failed) as caught:
            files.read_file(self.file(b"x" * 2001), 2000)
        self.assertIn("more than 2,000 bytes", str(caught.exception))

    def test_what_cannot_be_read(self) -> None:
        for name, words in (("none", "no such file"), (".", "a folder, and no file"), ("file/x", "no such file")):
            path = os.path.join(self.folder, name)
            self.file(b"")
            with self.assertRaises(Failed) as caught:
                files.check_file(path)
            self.assertEqual(str(caught.exception), f"{path}: {words}")

    def test_a_read_that_fails(self) -> None:
        with mock.patch("os.read", side_effect=[b"part", OSError(5, "no")]), self.assertRaises(Failed):
            files.read_file(self.file(b""), 100)


class Telling(FilesCase):
    def told(self, line: str) -> bytes:
        said: list[bytes] = []
        with mock.patch("frontend.files.write_all", lambda fd, data: said.append(data)):
            files.tell(line)
        return b"".join(said)

    def test_names_of_any_bytes(self) -> None:
        self.assertEqual(self.told(os.fsdecode(b"\xff.words: no")), b"\xff.words: no\n")
        self.assertEqual(self.told("\ud800: no"), b"\\ud800: no\n")

    def test_nobody_hears_it(self) -> None:
        with mock.patch("os.write", side_effect=OSError(9, "closed")):
            files.tell("unheard")
