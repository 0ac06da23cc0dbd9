"""What memory a call takes, and what it says where the memory does not fit."""

from __future__ import annotations

import ctypes
import doctest
import pickle
import sys
import threading
import unittest
from array import array
from pathlib import Path

import parity
from parity import calls

ROOT = Path(__file__).resolve().parents[3]
CASE_C = "1111000\n1100110\n1010001\n"

try:
    import numpy
except ImportError:
    numpy = None


class Memory(unittest.TestCase):
    def setUp(self) -> None:
        self.matrix = parity.Matrix.from_text(CASE_C)
        self.lent = (self.matrix.words, 7, 3, 0)

    def test_what_is_read_may_be_immutable(self) -> None:
        for word in (b"\0\0\1\1\1\1\1", memoryview(b"\0\0\1\1\1\1\1"), bytearray(b"\0\0\1\1\1\1\1")):
            self.assertTrue(self.matrix.verify(word))
        words = bytes(self.matrix.words)
        self.assertEqual(calls.count(words, 7, 3, 0), 2)

    def test_what_is_written_may_not(self) -> None:
        with self.assertRaises(BufferError):
            self.matrix.mend(b"\2\2\2\1\1\1\1")
        with self.assertRaises(TypeError):
            self.matrix.mend("2221111")

    def test_in_place_in_a_part_of_other_memory(self) -> None:
        memory = bytearray(b"\7" * 3 + b"\2\2\2\1\1\1\1" + b"\7" * 3)
        self.assertEqual(self.matrix.mend(memoryview(memory)[3:10]), (parity.STAGE_EXTENDED, 4))
        self.assertEqual(memory, b"\7" * 3 + b"\0\0\1\1\1\1\1" + b"\7" * 3)

    def test_elements_that_do_not_fit(self) -> None:
        with self.assertRaisesRegex(TypeError, "word has elements of format 'd', and bytes are due"):
            self.matrix.mend(array("d", [0.0] * 7))
        with self.assertRaisesRegex(TypeError, "words has elements of format 'I'"):
            calls.count(array("I", [0] * 8192), 7, 3, 0)
        with self.assertRaisesRegex(ValueError, "no whole 64-bit words"):
            calls.count(bytes(32767), 7, 3, 0)
        with self.assertRaisesRegex(ValueError, "not aligned"):
            calls.count(memoryview(bytes(32776))[1:-7], 7, 3, 0)
        with self.assertRaises(BufferError):
            self.matrix.verify(memoryview(bytes(14))[::2])

    def test_overlapping_memory(self) -> None:
        memory = bytearray(15)
        with self.assertRaisesRegex(ValueError, "sent and word overlap"):
            calls.extend(*self.lent, memoryview(memory)[:7], memoryview(memory)[6:13])
        calls.extend(*self.lent, memoryview(memory)[:7], memoryview(memory)[7:14])
        # Two slices that are only read may be the same.
        words = array("Q", bytes(8 * parity.WORDS))
        self.assertEqual(calls.join(*self.lent, *self.lent, words), 3)

    def test_memory_is_given_back(self) -> None:
        word = bytearray(b"\2\2\2\1\1\1\1")
        before = sys.getrefcount(word)
        for _ in range(100):
            self.matrix.determine(word)
            with self.assertRaises(parity.Refusal):
                self.matrix.share(0, 0)
            with self.assertRaises(ValueError):
                calls.extend(*self.lent, word, word)
        self.assertEqual(sys.getrefcount(word), before)
        word += b"\0"  # a buffer that is still lent cannot grow

    def test_numbers_of_any_size(self) -> None:
        for number in (-1, 1 << 64, -(1 << 200), 1 << 200):
            for lent in ((number, 3, 0), (7, number, 0), (7, 3, number)):
                with self.assertRaises(parity.Refusal) as caught:
                    calls.count(self.matrix.words, *lent)
                self.assertEqual(caught.exception.number, parity.Cause.RANGE)
            for ask, cause in (
                (lambda: self.matrix.share(0, number), parity.Cause.PAIR),
                (lambda: self.matrix.stopping_sets(number), parity.Cause.SET_SIZE),
                (lambda: parity.Matrix.house(number), parity.Cause.UNKNOWN_NAME),
                (lambda: self.matrix.min_sum(number, bytearray(7), array("f", [0] * 7)), parity.Cause.ROUNDS),
            ):
                with self.assertRaises(parity.Refusal) as caught:
                    ask()
                self.assertEqual(caught.exception.number, cause)
        with self.assertRaises(TypeError):
            self.matrix.share(0.5, 1)

    def test_empty_memory(self) -> None:
        for empty in (b"", bytearray(), array("B"), memoryview(b""), (ctypes.c_uint8 * 0)()):
            with self.assertRaises(parity.Refusal) as caught:
                self.matrix.verify(empty)
            self.assertEqual(caught.exception.number, parity.Cause.LENGTH)
        with self.assertRaises(parity.Refusal) as caught:
            parity.Matrix.from_words(b"")
        self.assertEqual((caught.exception.number, caught.exception.values), (5, (0,)))

    def test_refusals(self) -> None:
        refusal = parity.Refusal(11, (3,))
        self.assertEqual(str(refusal), "refusal 11: a byte outside the values named (place 3)")
        self.assertEqual(refusal.text, "a byte outside the values named")
        again = pickle.loads(pickle.dumps(refusal))
        self.assertEqual((again.number, again.values), (11, (3,)))
        self.assertEqual(sorted(parity.TEXTS), sorted(int(cause) for cause in parity.Cause))

    def test_threads(self) -> None:
        matrix = parity.Matrix.read(ROOT / "examples" / "sparse-60x120.alist")
        wrong = []

        def work() -> None:
            for _ in range(50):
                word = bytearray([parity.ERASED] * 60 + [0] * 60)
                if not matrix.determine(word).recovered_sent or any(word[60:]):
                    wrong.append(word)

        threads = [threading.Thread(target=work) for _ in range(4)]
        for thread in threads:
            thread.start()
        for thread in threads:
            thread.join()
        self.assertEqual(wrong, [])

    @unittest.skipUnless(numpy, "numpy is not installed")
    def test_numpy(self) -> None:
        words = numpy.array(self.matrix.words, dtype=numpy.uint64)
        word = numpy.array([2, 2, 2, 1, 1, 1, 1], dtype=numpy.uint8)
        self.assertEqual(calls.mend_block(words, 7, 3, 0, word).stage, 2)
        self.assertEqual(word.tolist(), [0, 0, 1, 1, 1, 1, 1])
        packets = numpy.zeros((7, 4), dtype=numpy.uint64)
        lost = numpy.array([1, 1, 1, 0, 0, 0, 0], dtype=bool)
        self.assertEqual(self.matrix.mend_packets(lost, packets).recovered_sent, 3)
        self.assertFalse(lost.any())
        with self.assertRaises((BufferError, ValueError)):
            self.matrix.mend(numpy.zeros(14, dtype=numpy.uint8)[::2])

    def test_like_numpy(self) -> None:
        # What numpy lends: elements in a format of their own, in two dimensions.
        packets = memoryview(bytearray(7 * 4 * 8)).cast("B").cast("Q", (7, 4))
        lost = memoryview(bytearray(b"\1\1\1\0\0\0\0")).cast("?")
        self.assertEqual(self.matrix.mend_packets(lost, packets), (3, 0, 0, 0, 0))
        self.assertEqual(bytes(lost), bytes(7))

    def test_examples_in_the_package(self) -> None:
        failed, tried = doctest.testmod(parity)
        self.assertEqual(failed, 0)
        self.assertGreater(tried, 3)


if __name__ == "__main__":
    unittest.main()
