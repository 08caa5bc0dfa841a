"""Tests of frontend.vectors: the packing, made lists, and files with their errors."""

from __future__ import annotations

import os
import tempfile
import unittest
from itertools import islice
from typing import Optional, Sequence

from frontend import vectors
from frontend.errors import Failed, Told
from frontend.vectors import all_vectors, pack, random_vectors, read_vectors, splitmix64, width

NAMES = ["N1", "N2", "N3", "N6", "N7"]


class Packing(unittest.TestCase):
    def test_width(self) -> None:
        self.assertEqual([width(inputs) for inputs in (1, 16, 17, 32, 33, 1023)], [1, 1, 2, 2, 3, 64])

    def test_example_of_the_format(self) -> None:
        bits = [int(at in (0, 5, 17)) for at in range(20)]
        self.assertEqual(pack([bits], 20), [0xA0000021, 0xA0000002])

    def test_bytes_and_tuples(self) -> None:
        self.assertEqual(pack([(1, 0, 1), (0, 1, 0)], 3), pack([b"\1\0\1", b"\0\1\0"], 3))
        self.assertEqual(pack([(1, 0, 1), (0, 1, 0)], 3), [0xA0000005, 0xA0000002])
        self.assertEqual(pack([], 3), [])

    def test_wrong_bits(self) -> None:
        for bad in ((1, 0), (1, 0, 1, 0), (1, 2, 0)):
            with self.assertRaises(ValueError):
                pack([bad], 3)


class Made(unittest.TestCase):
    def test_splitmix64(self) -> None:
        known = [6457827717110365317, 3203168211198807973, 9817491932198370423, 4593380528125082431, 16408922859458223821]
        self.assertEqual(list(islice(splitmix64(1234567), 5)), known)

    def test_same_seed_same_list(self) -> None:
        expected = [bytes(number >> at & 1 for at in range(5)) for number in islice(splitmix64(7), 20)]
        self.assertEqual(random_vectors(20, 5, 7).bits, expected)
        self.assertNotEqual(random_vectors(20, 5, 8).bits, expected)
        self.assertEqual(random_vectors(10, 5, 7).bits, expected[:10])

    def test_more_inputs_than_a_number_has(self) -> None:
        numbers = splitmix64(0)
        both = next(numbers) + (next(numbers) << 64)
        self.assertEqual(random_vectors(1, 70, 0).bits, [bytes(both >> at & 1 for at in range(70))])

    def test_limits(self) -> None:
        self.assertEqual(random_vectors(0, 5).bits, [])
        for count, seed in ((-1, 1), (1, -1), (1, 1 << 64)):
            with self.assertRaises(Failed):
                random_vectors(count, 5, seed)
        self.assertIn("SplitMix64", random_vectors(1, 5).source)

    def test_all(self) -> None:
        self.assertEqual([tuple(each) for each in all_vectors(2).bits], [(0, 0), (1, 0), (0, 1), (1, 1)])
        self.assertEqual(pack(all_vectors(16).bits, 16), [0xA0000000 + each for each in range(65536)])
        with self.assertRaisesRegex(Failed, "up to 16 inputs, and there are 17"):
            all_vectors(17)


class Files(unittest.TestCase):
    def setUp(self) -> None:
        folder = tempfile.TemporaryDirectory()
        self.addCleanup(folder.cleanup)
        self.path = os.path.join(folder.name, "list.vec")

    def read(self, text: bytes, names: Optional[Sequence[str]] = None) -> list[str]:
        with open(self.path, "wb") as file:
            file.write(text)
        found = read_vectors(self.path, NAMES if names is None else names)
        return ["".join(str(bit) for bit in each) for each in found.bits]

    def told(self, text: bytes, message: str, names: Optional[Sequence[str]] = None) -> None:
        with self.assertRaises(Told) as caught:
            self.read(text, names)
        self.assertEqual(str(caught.exception), f"{self.path}:{message}")

    def test_plain(self) -> None:
        self.assertEqual(self.read(b"00000\n10101\n11111\n"), ["00000", "10101", "11111"])
        self.assertEqual(self.read(b"10101"), ["10101"])
        self.assertEqual(self.read(b""), [])

    def test_blanks_comments_and_ends(self) -> None:
        text = b"\xef\xbb\xbf# patterns\r\n\r\n1 0 1\t01\r\n   \n 11 111 # all\n00000# none\n"
        self.assertEqual(self.read(text), ["10101", "11111", "00000"])

    def test_header(self) -> None:
        self.assertEqual(self.read(b"N7 N6 N3 N2 N1\n10000\n01111\n"), ["00001", "11110"])
        self.assertEqual(self.read(b"N2 N3 N7 N1 N6\n10000\n00100\n"), ["01000", "00001"])
        self.assertEqual(self.read(b"# order\nN1  N2\tN3 N6 N7 # names\n10000\n"), ["10000"])
        self.assertEqual(self.read(b"N1 N2 N3 N6 N7\n"), [])

    def test_names_of_digits(self) -> None:
        self.assertEqual(self.read(b"7 6 3 2 1\n10000\n", ["1", "2", "3", "6", "7"]), ["00001"])
        self.assertEqual(self.read(b"10 1 11\n100\n", ["1", "10", "11"]), ["010"])
        self.assertEqual(self.read(b"100\n101\n", ["1", "10", "11"]), ["100", "101"])
        self.assertEqual(self.read(b"1 0\n", ["0", "1"]), ["10"])  # a line that can be a vector is one

    def test_strange_names(self) -> None:
        names = ["a#b", "<x>", "\u00e9", os.fsdecode(b"\xff")]
        self.assertEqual(self.read(b"\xff \xc3\xa9 <x> a#b # rest\n1000\n", names), ["0001"])

    def test_wrong_lengths(self) -> None:
        self.told(b"00000\n\n0000\n", "3: bits: 4, inputs: 5; there must be a bit for each")
        self.told(b"000000\n", "1: bits: 6, inputs: 5; there must be a bit for each")
        self.told(b"N1 N2 N3 N6 N7\n11\n", "2: bits: 2, inputs: 5; there must be a bit for each")

    def test_other_characters(self) -> None:
        self.told(b"00000\n00x00\n", "2: x: a vector has 0 and 1 alone")
        self.told(b"00000\n0\x00000\n", "2: ?: a vector has 0 and 1 alone")
        self.told(b"00000\nN1 N2 N3 N6 N7\n", "2: N: a vector has 0 and 1 alone")
        self.told(b"A0000001\n", "1: A0000001: neither bits, 0 and 1, nor the name of an input")
        self.told(b"0 0 0 - 0\n", "1: -: neither bits, 0 and 1, nor the name of an input")

    def test_wrong_headers(self) -> None:
        self.told(b"N1 N2 N3 N6 N8\n", "1: N8: no input has this name")
        self.told(b"N1 N2 N3 N6 N6 N7\n", "1: N6: this input is named twice")
        self.told(b"N1 N2 N3 N6\n", "1: the header names 4 of 5 inputs, and not N7")
        self.told(b"n1 N2 N3 N6 N7\n", "1: n1: no input has this name")

    def test_long_lines(self) -> None:
        self.told(b"0" * vectors.LONGEST_LINE, f"1: a line of {vectors.LONGEST_LINE:,} bytes or more")
        self.told(b"0" * 5000, "1: bits: 5,000, inputs: 5; there must be a bit for each")
        self.told(b"N2 " + b"N" * 5000, f"1: {'N' * 40}..: no input has this name")

    def test_files_that_cannot_be_read(self) -> None:
        for path, message in ((self.path, "no such file"), (os.path.dirname(self.path), "a folder, and no file")):
            with self.assertRaisesRegex(Failed, message):
                read_vectors(path, NAMES)


if __name__ == "__main__":
    unittest.main()
