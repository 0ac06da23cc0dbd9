"""A matrix in memory of its own, with the calls as methods."""

from __future__ import annotations

import os
from array import array
from pathlib import Path
from typing import List, Optional, Sequence, Tuple, Type, TypeVar, Union

from . import calls, formats
from ._lent import Buffer
from .answers import Mended, MendedPackets, Orthogonalised, Recovered, Shared, Split, TakenBack
from .formats import FileFault
from .refusals import Cause, Refusal

WORDS = 4096
RECORD_MOST = 14914
MESSAGES = 65536

_M = TypeVar("_M", bound="Matrix")
_EXTENSIONS = {".alist": "alist", ".txt": "text", ".text": "text", ".rec": "record", ".record": "record"}
_Path = Union[str, "os.PathLike[str]"]


def _format(path: _Path, named: Optional[str]) -> str:
    form = named or _EXTENSIONS.get(Path(path).suffix.lower())
    if form not in _EXTENSIONS.values():
        raise ValueError(f"{path}: the format is none of alist, text and record, and the extension decides nothing")
    return form


class Matrix:
    """n sent bits, m given checks, k added bits with a check each, and the 4,096 words that hold them.

    Every method is one call of the library, or says what else it does. Words and sets are buffers that are changed
    in place: a `bytearray`, a numpy array of `uint8`. Bits and checks are counted from 0.
    """

    def __init__(self, words: "array[int]", n: int, m: int, k: int) -> None:
        self.words = words
        self.n = n
        self.m = m
        self.k = k

    # Making and keeping matrices.

    @classmethod
    def from_words(cls: Type[_M], record: Buffer) -> _M:
        """Loads a record of any form, given as 32-bit words."""
        words = array("Q", bytes(8 * WORDS))
        return cls(words, *calls.load(record, words))

    @classmethod
    def from_checks(cls: Type[_M], n: int, checks: Sequence[Sequence[int]]) -> _M:
        """Loads the checks, each the bits that it contains, in any order, as a record of the first form. What a
        record can say and no matrix has is refused 5; numbers that no record can hold are a ValueError."""
        numbers = [n, len(checks), *map(len, checks), *(bit for bits in checks for bit in bits)]
        if not all(0 <= number < 256 for number in numbers):
            raise ValueError("a number of bits or checks, or a bit, is outside 0 to 255")
        record = array("I", [0x10000000 | len(checks) << 8 | n])
        for bits in checks:
            record.append(0x20000000 | len(bits))
            record.extend(0x30000000 | bit for bit in sorted(bits))
        record.append(0xF0000000)
        return cls.from_words(record)

    @classmethod
    def from_alist(cls: Type[_M], data: Union[str, bytes]) -> _M:
        """The matrix of an alist, MacKay's format; a `FileFault` says what is wrong with it."""
        return cls.from_checks(*formats.read_alist(data.encode() if isinstance(data, str) else bytes(data)))

    @classmethod
    def from_text(cls: Type[_M], data: Union[str, bytes]) -> _M:
        """The matrix of 0/1 text, a line for each check; a `FileFault` says what is wrong with it."""
        return cls.from_checks(*formats.read_text(data.encode() if isinstance(data, str) else bytes(data)))

    @classmethod
    def from_record(cls: Type[_M], data: bytes) -> _M:
        """The matrix of a record as it stands in a file: words of 4 bytes, the highest byte first."""
        try:
            return cls.from_words(formats.read_record(bytes(data)))
        except Refusal as refusal:
            raise FileFault(f"{refusal}, which is byte {4 * refusal.values[0]} of the file") from refusal

    @classmethod
    def read(cls: Type[_M], path: _Path, format: Optional[str] = None) -> _M:
        """The matrix of a file: alist, text or record, as `format` or else the extension (.alist, .txt, .rec) says."""
        form = _format(path, format)
        with open(path, "rb") as file:
            data = file.read(formats.LONGEST + 1)
        if len(data) > formats.LONGEST:
            raise FileFault(f"more than {formats.LONGEST} bytes, and no matrix of 120 bits and 120 checks needs them")
        if form == "alist":
            return cls.from_alist(data)
        return cls.from_text(data) if form == "text" else cls.from_record(data)

    @classmethod
    def house(cls: Type[_M], name: int) -> _M:
        """A house code by its name: 0 the circulant of 23 bits, 1 to 4 the Hamming checks for 3, 7, 15 and 31."""
        words = array("Q", bytes(8 * WORDS))
        return cls(words, *calls.house_code(name, words), 0)

    def record(self) -> "array[int]":
        """The record of the matrix: the second form where k = 0, and else the third, with its splits."""
        record = array("I", bytes(4 * RECORD_MOST))
        return record[: calls.write(*self._lent(), record)]

    def to_record(self) -> bytes:
        """The record as it stands in a file."""
        return formats.write_record(self.record())

    def to_alist(self) -> bytes:
        """The alist of a matrix with k = 0."""
        return formats.write_alist(self.n, self._given_checks("an alist"))

    def to_text(self) -> bytes:
        """The 0/1 text of a matrix with k = 0 and at least one check."""
        if self.m == 0:
            raise FileFault("a matrix without checks has no line of text")
        return formats.write_text(self.n, self._given_checks("text"))

    def write(self, path: _Path, format: Optional[str] = None) -> None:
        """Writes the matrix to a file in the format named, or that of the extension."""
        form = _format(path, format)
        data = self.to_record() if form == "record" else self.to_alist() if form == "alist" else self.to_text()
        Path(path).write_bytes(data)

    def copy(self: _M) -> _M:
        """The same matrix in other words."""
        return type(self)(self.words[:], self.n, self.m, self.k)

    def orthogonalised(self: _M) -> _M:
        """A copy without four-cycles, by the splits of `orthogonalise`. Refused 9 where k would pass 392."""
        other = self.copy()
        other.orthogonalise()
        return other

    def given(self: _M) -> _M:
        """A copy with all splits taken back."""
        other = self.copy()
        while other.k:
            other.take_back()
        return other

    def checks(self) -> List[List[int]]:
        """The bits of every check, rising, the added checks last."""
        rows = [int.from_bytes(self.words[8 * c : 8 * c + 8].tobytes(), "little") for c in range(self.m + self.k)]
        return [[bit for bit in range(self.n + self.k) if row >> bit & 1] for row in rows]

    def _given_checks(self, form: str) -> List[List[int]]:
        if self.k:
            raise FileFault(f"the {self.k} splits of the matrix can stand in a record only, and not in {form}")
        return self.checks()

    def _lent(self) -> Tuple["array[int]", int, int, int]:
        return self.words, self.n, self.m, self.k

    def __eq__(self, other: object) -> bool:
        return isinstance(other, Matrix) and self._lent() == other._lent()

    __hash__ = None  # type: ignore[assignment]

    def __repr__(self) -> str:
        return f"<Matrix n={self.n} m={self.m} k={self.k}>"

    # The calls.

    def share(self, u: int, v: int) -> Shared:
        """The number of checks that contain both bits, and the lowest and the highest of them."""
        return calls.share(*self._lent(), u, v)

    def count(self) -> int:
        """The cycle count."""
        return calls.count(*self._lent())

    def split(self, u: int, v: int) -> Split:
        """Splits a pair of bits with share two or more, in place."""
        answer = calls.split(*self._lent(), u, v)
        self.k = answer.k
        return answer

    def take_back(self) -> TakenBack:
        """Takes back the newest split, in place."""
        answer = calls.take_back(*self._lent())
        self.k = answer.k
        return answer

    def orthogonalise(self) -> Orthogonalised:
        """Splits until no pair has share two or more, in place. Refused 9 it stands after the splits made."""
        try:
            answer = calls.orthogonalise(*self._lent())
        except Refusal as refusal:
            if refusal.number == Cause.FULL:
                self.k = refusal.values[2]
            raise
        self.k = answer.k
        return answer

    def verify(self, word: Buffer) -> bool:
        """Whether the word of n+k bytes is a codeword."""
        return calls.verify(*self._lent(), word)

    def extend(self, sent: Buffer) -> bytearray:
        """The n sent bits and then the k added ones."""
        word = bytearray(self.n + self.k)
        calls.extend(*self._lent(), sent, word)
        return word

    def is_stopping(self, set: Buffer) -> bool:
        """Whether no check contains exactly one bit of the set, given as n+k bytes."""
        return calls.is_stopping(*self._lent(), set)

    def peel(self, word: Buffer) -> Recovered:
        """Recovers erased bits of the word of n+k bytes, in place, as far as checks with one erased bit reach."""
        return calls.peel(*self._lent(), word)

    def determine(self, word: Buffer) -> Recovered:
        """Recovers every bit of the word of n+k bytes that the checks determine together, in place."""
        return calls.determine(*self._lent(), word)

    def mend(self, word: Buffer) -> Mended:
        """Mends a received word of n bytes with a matrix with k = 0, in place: the one door, `parity_mend_block`."""
        return calls.mend_block(*self._lent(), word)

    def mend_packets(self, lost: Buffer, packets: Buffer, odd: Optional[Buffer] = None) -> MendedPackets:
        """Recovers lost packets in place: n+k of them, one behind the other in `packets`, of whole 64-bit words each.
        `lost` has a byte for each, 1 where it is lost. `odd`, a packet long, gets the odd lanes."""
        if odd is None:
            odd = bytearray(memoryview(packets).nbytes // (self.n + self.k))
        return calls.mend_packets(*self._lent(), lost, packets, odd)

    def rank(self) -> int:
        """The number of parity bits of a matrix with k = 0."""
        return calls.rank(*self._lent())

    def encode(self, message: Buffer) -> bytearray:
        """The codeword of a matrix with k = 0 that holds the message of n - rank bytes."""
        word = bytearray(self.n)
        calls.encode(*self._lent(), message, word)
        return word

    def message_bits(self) -> bytearray:
        """A byte for each bit of a matrix with k = 0: 1 if it holds the message, 0 for a parity bit."""
        set = bytearray(self.n)
        calls.message_bits(*self._lent(), set)
        return set

    def stopping_sets(self, t: int) -> List[Tuple[int, ...]]:
        """Every stopping set of exactly t sent bits, 1 to 4, in dictionary order (two calls: how many, and which)."""
        sets = array("H")
        try:
            calls.stopping_sets(*self._lent(), t, sets)
        except Refusal as refusal:
            if refusal.number != Cause.SETS_SHORT:
                raise
            sets = array("H", bytes(2 * refusal.values[0]))
            calls.stopping_sets(*self._lent(), t, sets)
        return [tuple(sets[at : at + t]) for at in range(0, len(sets), t)]

    def join(self: _M, other: "Matrix") -> _M:
        """The matrix of both checks, over the same bits; both have k = 0."""
        words = array("Q", bytes(8 * WORDS))
        m = calls.join(*self._lent(), *other._lent(), words)
        return type(self)(words, self.n, m, 0)

    def min_sum(self, rounds: int, word: Buffer, floats: Buffer) -> None:
        """Decodes sure (0, 1), erased (2) and soft (3) bits by min-sum rounds, in place; it lends the messages'
        memory itself."""
        calls.min_sum(*self._lent(), rounds, word, floats, bytearray(MESSAGES), bytearray(4 * MESSAGES))
