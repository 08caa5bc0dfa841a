"""The program and the archive's calls, on the examples."""

from __future__ import annotations

import glob
import os
import unittest
from unittest import mock

from frontend import engine
from frontend.engine import library, position, refusal, run_program, run_program_on
from frontend.errors import Failed
from frontend.tests.helpers import FilesCase, example, example_text, needs_engine
from frontend.words import program_input


class Program(FilesCase):
    def program(self, script: str) -> None:
        """A program of the test's own, for the rest of the test."""
        path = self.file(f"#!/bin/sh\n{script}\n".encode(), "program")
        os.chmod(path, 0o755)
        patch = mock.patch.dict(os.environ, CARDGRADE=path)
        patch.start()
        self.addCleanup(patch.stop)

    def test_neither_waits_for_the_other(self) -> None:
        self.program("cat; echo end")
        data = os.urandom(3_000_000)
        self.assertEqual(run_program(data), data + b"end\n")

    def test_unread_input(self) -> None:
        self.program("exec <&-; echo text")
        self.assertEqual(run_program(b"x" * 1_000_000), b"text\n")

    def test_the_whole_text_or_none(self) -> None:
        for script in ("echo text; kill -9 $$", "echo text; exit 1", "cat >/dev/null; kill -15 $$"):
            self.program(script)
            with self.assertRaises(Failed) as caught:
                run_program(b"input")
            self.assertEqual(str(caught.exception), "the program was cut short")

    def test_no_program(self) -> None:
        self.program("exit 0")
        with open(os.environ["CARDGRADE"], "w", encoding="ascii") as file:
            file.write("#!/none\n")
        with self.assertRaises(Failed) as caught:
            run_program(b"")
        self.assertIn("no program that can be run", str(caught.exception))

    def test_what_is_read_by_the_program(self) -> None:
        self.program("cat")
        path = self.file(b"bytes")
        self.assertEqual(run_program_on(path), b"bytes")
        fd = os.open(path, os.O_RDONLY)
        self.assertEqual(run_program_on(fd), b"bytes")
        os.close(fd)

    def test_a_failed_read_or_write(self) -> None:
        self.program("cat")
        with mock.patch("os.read", side_effect=OSError(5, "no")), self.assertRaises(Failed):
            run_program(b"input")
        with mock.patch("frontend.engine._feed", side_effect=OSError(28, "full")), self.assertRaises(Failed):
            run_program(b"input")

    def test_an_interrupt_ends_the_program(self) -> None:
        started = os.path.join(self.folder, "started")
        self.program(f"echo $$ >{started}; exec sleep 60")

        def interrupt(fd: int, size: int) -> bytes:
            raise KeyboardInterrupt

        with mock.patch("select.poll") as poll, self.assertRaises(KeyboardInterrupt):
            poll.return_value.poll.side_effect = KeyboardInterrupt
            run_program(b"input")
        with self.assertRaises(ChildProcessError):
            os.waitpid(-1, 0)

    def test_no_descriptor_is_left_open(self) -> None:
        self.program("cat")
        before = len(os.listdir("/proc/self/fd"))
        for _ in range(3):
            run_program(b"input")
            run_program_on(self.file(b"input"))
            with mock.patch("os.posix_spawn", side_effect=OSError), self.assertRaises(Failed):
                run_program(b"input")
        self.assertEqual(len(os.listdir("/proc/self/fd")), before)


@needs_engine
class Examples(unittest.TestCase):
    def test_the_program(self) -> None:
        for path in glob.glob(example("*.words")):
            text = example_text(os.path.basename(path))
            with open(path[:-6] + ".out", "rb") as file:
                self.assertEqual(run_program(program_input(text.card, text.vectors)), file.read(), path)

    def test_grade(self) -> None:
        for path in glob.glob(example("*.words")):
            text = example_text(os.path.basename(path))
            answer, marks, tallies = library().grade(text.card, text.vectors)
            with open(path[:-6] + ".out", encoding="ascii") as file:
                lines = file.read().splitlines()
            self.assertEqual(int(lines[-1].split()[1]), answer)
            shown = [f"{fault} {'-' if mark == 0xC0000000 else mark - 0xE0000000} {tally}" for fault, (mark, tally) in enumerate(zip(marks, tallies))]
            self.assertEqual(shown, lines[1:-1])
            answer, numbers = library().check(text.card)
            self.assertEqual((answer, [numbers[0], numbers[1], numbers[2], numbers[4]]), (0, list(map(int, lines[0].split()[1:]))))

    def test_values(self) -> None:
        card = example_text("majority.words").card
        for number in range(8):
            bits = [number >> i & 1 for i in range(3)]
            answer, values = library().good_values(card, [0xA0000000 + number])
            self.assertEqual((answer, values[:3], values[3]), (0, bits, int(sum(bits) > 1)))
            self.assertEqual(library().fault_values(card, [0xA0000000 + number], []), (0, values))
            self.assertEqual(library().change_list(card, [0xA0000000 + number], 3), (1, [3]))
            nodes = library().critical_nodes(card, [0xA0000000 + number])[1]
            self.assertEqual(len(nodes), library().check(card)[1][2])

    def test_refusals(self) -> None:
        card = example_text("s.words").card
        self.assertEqual(library().check([1]), (5 << 32, []))
        self.assertEqual(library().grade(card, [0]), (10 << 32, [], []))
        answer, words = library().join(card, [1], [])
        self.assertEqual((refusal(answer), position(answer), words), (5, len(card), []))
        self.assertEqual(library().from_gates([0, 0x58000001, 0x60000000]), (15 << 32 | 1, []))
        self.assertEqual(library().good_values(card, []), (10 << 32, []))

    def test_a_library_without_the_call(self) -> None:
        with self.assertRaises(Failed):
            engine.Library("libc.so.6").check([])
        with self.assertRaises(Failed):
            engine.Library("/none.so")
