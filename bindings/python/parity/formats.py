"""Matrix files in the three formats of docs/MATRICES.md: alist, 0/1 text and records.

What is taken, and what is refused with which words, is the same as in the program `parity`.
"""

from __future__ import annotations

import sys
import unicodedata
from array import array
from typing import Iterator, List, NoReturn, Optional, Sequence, Tuple

MOST = 120
LONGEST = 1 << 20

Checks = Tuple[int, List[List[int]]]
"""The number of bits, and the bits of each check, rising."""


class FileFault(ValueError):
    """A matrix file that cannot be taken: `what` is wrong, on `line`, counted from 1, if it is a file of text."""

    def __init__(self, what: str, line: Optional[int] = None) -> None:
        super().__init__(what, line)
        self.what = what
        self.line = line

    def __str__(self) -> str:
        return self.what if self.line is None else f"line {self.line}: {self.what}"


def _shown(character: str) -> str:
    if unicodedata.category(character) != "Cc" and character != "\ufeff":
        return character
    return {"\t": "\\t", "\r": "\\r", "\n": "\\n"}.get(character, f"\\u{{{ord(character):x}}}")


def _byte_order_mark(data: bytes) -> Optional[str]:
    """The byte order mark at the front of a text, which editors put there unseen."""
    if data.startswith(b"\xef\xbb\xbf"):
        return "a byte order mark (UTF-8)"
    return "a byte order mark (UTF-16)" if data.startswith((b"\xff\xfe", b"\xfe\xff")) else None


def _without_mark(data: bytes) -> bytes:
    mark = _byte_order_mark(data)
    if mark:
        raise FileFault(f"{mark} stands before the text; save the file without it", 1)
    return data


def _character(piece: bytes) -> str:
    """The first character of a piece of a line, for a message."""
    if _byte_order_mark(piece):
        return _quoted(piece)
    try:
        first = len(piece.decode()[0].encode())
    except UnicodeDecodeError as error:
        first = error.end if error.start == 0 else len(piece[: error.start].decode()[0].encode())
    return _quoted(piece[:first])


def _quoted(piece: bytes) -> str:
    mark = _byte_order_mark(piece)
    if mark:
        return mark
    front = "".join(map(_shown, piece[:20].decode("utf-8", "replace")))
    return f"'{front}{'..' if len(piece) > 20 else ''}'"


# What the program takes for blanks between numbers.
_BLANKS = b"\t\n\x0c\r "


def _pieces(line: bytes) -> List[bytes]:
    for blank in _BLANKS:
        line = line.replace(bytes([blank]), b" ")
    return [piece for piece in line.split(b" ") if piece]


class _Side:
    """One side of an alist: its bits with their checks, or its checks with their bits."""

    def __init__(self, of: str, members: str, lines: int, most: int, largest: int) -> None:
        self.of = of
        self.members = members
        self.lines = lines
        self.most = most
        self.largest = largest


class _Lines:
    """The lines that are still to be read, and the number of the one read last."""

    def __init__(self, data: bytes) -> None:
        self.lines: Iterator[bytes] = iter(data.split(b"\n"))
        self.number = 0

    def fault(self, what: str) -> NoReturn:
        raise FileFault(what, self.number)

    def numbers(self, due: str) -> List[int]:
        self.number += 1
        line = next(self.lines, None)
        if line is None:
            self.fault(f"the file ends before {due}")
        numbers = []
        for piece in _pieces(line):
            if not piece.isdigit() or len(piece) > 4000 or int(piece) >= 1 << 64:
                self.fault(f"{_quoted(piece)} is no number that can be taken")
            numbers.append(int(piece))
        return numbers

    def two(self, due: str) -> Tuple[int, int]:
        numbers = self.numbers(due)
        if len(numbers) != 2:
            self.fault(f"{len(numbers)} numbers, and {due} are due")
        return numbers[0], numbers[1]

    def weights(self, side: _Side) -> List[int]:
        weights = self.numbers(f"the weights of the {side.of}s")
        if len(weights) != side.lines:
            self.fault(f"{len(weights)} weights, and there are {side.lines} {side.of}s")
        for place, weight in enumerate(weights, 1):
            if weight > side.largest:
                self.fault(f"{side.of} {place} has weight {weight}, and line 2 says at most {side.largest}")
        return weights

    def members(self, side: _Side, index: int, weight: int) -> List[int]:
        at = f"{side.of} {index + 1}"
        numbers = self.numbers(f"the {side.members}s of {at}")
        if len(numbers) > side.largest:
            self.fault(f"{len(numbers)} numbers, and line 2 says at most {side.largest}")
        while numbers and numbers[-1] == 0:
            numbers.pop()
        if len(numbers) != weight:
            self.fault(f"{len(numbers)} {side.members}s of {at}, and its weight is {weight}")
        for number in numbers:
            if not 1 <= number <= side.most:
                self.fault(f"{side.members} {number} of {at}, and they go from 1 to {side.most}")
        numbers.sort()
        for first, second in zip(numbers, numbers[1:]):
            if first == second:
                self.fault(f"{side.members} {first} stands twice in {at}")
        return [number - 1 for number in numbers]

    def end(self) -> None:
        for line in self.lines:
            self.number += 1
            rest = line.strip(_BLANKS)
            if rest:
                self.fault(f"{_quoted(rest)} follows the last list")


def _differ(lines: _Lines, check: int, by_bits: List[int], by_check: List[int]) -> None:
    for bit in by_check:
        if bit not in by_bits:
            lines.fault(f"check {check + 1} has bit {bit + 1}, whose own line does not name the check")
    for bit in by_bits:
        if bit not in by_check:
            lines.fault(f"check {check + 1} lacks bit {bit + 1}, whose own line names the check")


def read_alist(data: bytes) -> Checks:
    """The checks of an alist (MacKay's format) whose two halves say the same."""
    lines = _Lines(_without_mark(data))
    n, m = lines.two("the number of bits and that of checks")
    if not 1 <= n <= MOST:
        lines.fault(f"{n} bits, and 1 to {MOST} can be taken")
    if m > MOST:
        lines.fault(f"{m} checks, and at most {MOST} can be taken")
    largest_bit, largest_check = lines.two("the largest weights of a bit and of a check")
    bits = _Side("bit", "check", n, m, largest_bit)
    checks = _Side("check", "bit", m, n, largest_check)
    bit_weights, check_weights = lines.weights(bits), lines.weights(checks)
    by_bits: List[List[int]] = [[] for _ in range(m)]
    for bit, weight in enumerate(bit_weights):
        for check in lines.members(bits, bit, weight):
            by_bits[check].append(bit)
    for check, weight in enumerate(check_weights):
        _differ(lines, check, by_bits[check], lines.members(checks, check, weight))
    lines.end()
    return n, by_bits


def write_alist(n: int, checks: Sequence[Sequence[int]]) -> bytes:
    """The alist of the checks, filled up with zeros."""
    bits = [[check for check, members in enumerate(checks) if bit in members] for bit in range(n)]
    sides: List[Sequence[Sequence[int]]] = [bits, checks]
    largest = [max(map(len, side), default=0) for side in sides]
    lines: List[Sequence[int]] = [[n, len(checks)], largest]
    lines += [[len(members) for members in side] for side in sides]
    for side, most in zip(sides, largest):
        lines += [[member + 1 for member in members] + [0] * (most - len(members)) for members in side]
    return "".join(" ".join(map(str, line)) + "\n" for line in lines).encode()


def _digits(line: bytes, number: int) -> List[int]:
    digits = []
    for place, byte in enumerate(line):
        if byte in b"01":
            digits.append(byte - ord("0"))
        elif byte == ord("#"):
            break
        elif byte not in b" \t,\r":
            raise FileFault(f"{_character(line[place:])} at character {place + 1} is neither 0 nor 1", number)
    return digits


def read_text(data: bytes) -> Checks:
    """The checks of 0/1 text: a line for each check, a digit for each bit."""
    n, first, last = 0, 0, 1
    checks: List[List[int]] = []
    for last, line in enumerate(_without_mark(data).split(b"\n"), 1):
        digits = _digits(line, last)
        if not digits:
            continue
        if not checks:
            n, first = len(digits), last
        if len(digits) > MOST:
            raise FileFault(f"{len(digits)} bits, and at most {MOST} can be taken", last)
        if len(digits) != n:
            raise FileFault(f"{len(digits)} bits, and line {first} has {n}", last)
        if len(checks) == MOST:
            raise FileFault(f"check number {MOST + 1}, and at most {MOST} can be taken", last)
        checks.append([bit for bit, digit in enumerate(digits) if digit])
    if not checks:
        raise FileFault("the file ends, and no line has the bits of a check", last)
    return n, checks


def write_text(n: int, checks: Sequence[Sequence[int]]) -> bytes:
    """A line of 0 and 1 for each check."""
    return b"".join(bytes(49 if bit in members else 48 for bit in range(n)) + b"\n" for members in checks)


def read_record(data: bytes) -> "array[int]":
    """The 32-bit words of a record, which has 4 bytes for each, the highest first."""
    if len(data) % 4:
        raise FileFault(f"{len(data)} bytes, and a record has 4 for each word")
    words = array("I", data)
    if sys.byteorder == "little":
        words.byteswap()
    return words


def write_record(words: "array[int]") -> bytes:
    """The bytes of a record's words."""
    words = array("I", words)
    if sys.byteorder == "little":
        words.byteswap()
    return words.tobytes()
