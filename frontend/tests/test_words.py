"""Texts of words: their forms, what is no text, and the bytes."""

from __future__ import annotations

import os
import threading
import unittest
from unittest import mock

from frontend.errors import Failed, Told
from frontend.tests.helpers import FilesCase
from frontend.words import as_bytes, from_bytes, program_input, read_text, shown


class Reading(FilesCase):
    def told(self, data: bytes) -> str:
        """What is told of such a text, without the file's name."""
        path = self.file(data)
        with self.assertRaises(Told) as caught:
            read_text(path)
        return str(caught.exception).removeprefix(path)

    def test_words_lines_and_comments(self) -> None:
        text = read_text(self.file(b"# head\n00000000 # in\n\n40000001\n vectors \nA0000001\nA000000f\n"))
        self.assertEqual((text.card, text.card_lines), ([0, 0x40000001], [2, 4]))
        self.assertEqual((text.vectors, text.vector_lines), ([0xA0000001, 0xA000000F], [6, 7]))
        self.assertEqual(text.card_comments, ["in", ""])

    def test_forms(self) -> None:
        for data in (b"0000000a\nvectors\nA0000001\n", b"0000000A\r\nvectors\r\nA0000001\r\n", b"\xef\xbb\xbf0000000a\r\nvectors\nA0000001",
                     b"\t 0000000A\t#x\xff\n\tvectors# y\n\n A0000001 \n \t\n"):
            text = read_text(self.file(data))
            self.assertEqual((text.card, text.vectors), ([10], [0xA0000001]), data)

    def test_empty(self) -> None:
        for data in (b"", b"\n", b"# none", b"\xef\xbb\xbf"):
            self.assertEqual(read_text(self.file(data)).card, [])

    def test_no_words(self) -> None:
        for line in (b"0000000", b"000000000", b"0x000000", b"0_000000", b"+0000000", b"0000000g", b"00000000 0", b"\x0b00000000", b"0000\r000",
                     b"00000000\r\r", b"\0", b"Vectors", b"vectors 1", b"vectors vectors", b"\xef\xbb\xbf00000000", b"\xd9\xa0" * 4):
            self.assertTrue(self.told(b"00000000\n" + line + b"\n").startswith(":2: not a word: "), line)
        self.assertEqual(self.told(b"vectors\nvectors"), ":2: not a word: vectors")

    def test_what_is_shown(self) -> None:
        self.assertEqual(self.told(b"a\tb\x7f\xff\r\n"), ":1: not a word: a?b???")
        self.assertEqual(shown(b"x" * 40), "x" * 40)
        self.assertEqual(shown(b"x" * 41), "x" * 40 + "..")

    def test_long_lines(self) -> None:
        self.assertEqual(read_text(self.file(b"00000001#" + b"x" * 4086 + b"\n00000002")).card, [1, 2])
        for end in (b"", b"\n", b"\r\n", b"x" * 100000):
            self.assertEqual(self.told(b"\n#" + b"x" * 4095 + end), ":2: a line of 4,096 bytes or more: #" + "x" * 39 + "..")

    def test_a_line_across_reads(self) -> None:
        data = b"".join(b"%08X # %s\n" % (number, b"x" * (number % 300)) for number in range(3000))
        with mock.patch("frontend.files.PIECE", 7):
            self.assertEqual(read_text(self.file(data)).card, list(range(3000)))

    def test_no_more_is_read_than_is_needed(self) -> None:
        text = read_text(self.file(b"00000000\n" * 9217 + b"no word\n"))
        self.assertEqual(len(text.card), 9217)
        text = read_text(self.file(b"vectors\n" + b"A0000000\n" * 16385 + b"no word\n"))
        self.assertEqual(len(text.vectors), 16385)
        self.assertTrue(self.told(b"00000000\n" * 9216 + b"no word\n").startswith(":9217: not a word"))

    def test_an_endless_text(self) -> None:
        path = os.path.join(self.folder, "pipe")
        os.mkfifo(path)

        def write() -> None:
            with open(path, "wb", buffering=0) as pipe:
                try:
                    while True:
                        pipe.write(b"00000000\n" * 1000)
                except BrokenPipeError:
                    pass

        writer = threading.Thread(target=write)
        writer.start()
        self.assertEqual(len(read_text(path).card), 9217)
        writer.join()

    def test_a_read_that_fails_is_no_end(self) -> None:
        path = self.file(b"00000000\n40000001\n")
        for fail_at in range(3):
            reads = 0

            def read(fd: int, size: int) -> bytes:
                nonlocal reads
                reads += 1
                if reads > fail_at:
                    raise OSError(5, "no")
                return real(fd, 9)

            real = os.read
            with mock.patch("os.read", read), self.assertRaises(Told) as caught:
                read_text(path)
            self.assertEqual(str(caught.exception), f"{path}: the text could not be read to its end")

    def test_no_file(self) -> None:
        with self.assertRaises(Failed):
            read_text(os.path.join(self.folder, "none"))


class Bytes(unittest.TestCase):
    def test_highest_byte_first(self) -> None:
        self.assertEqual(as_bytes([0x01020304, 0xFFFFFFFF]), b"\1\2\3\4\xff\xff\xff\xff")
        self.assertEqual(from_bytes(as_bytes(range(1000))), list(range(1000)))
        self.assertEqual(as_bytes(iter([])), b"")

    def test_what_the_program_reads(self) -> None:
        self.assertEqual(program_input([7, 8], [9]), b"\0\0\0\2\0\0\0\7\0\0\0\x08\0\0\0\x09")
