"""The calls of include/parity.h on memory that the caller lends.

Words, sets and messages are bytes, matrices 64-bit words, records 32-bit ones; each may be anything with the buffer
protocol: `bytes`, `bytearray`, `memoryview`, `array.array`, `mmap`, ctypes arrays, numpy arrays. Nothing is copied.
What a call writes must be writable, or it is a BufferError; it may overlap no other memory of the call, or it is a
ValueError. Lengths and numbers may be any: what does not fit is refused, by an exception `Refusal`. The interpreter's
lock is let go during a call, so that threads run at once.
"""

from __future__ import annotations

from array import array
from typing import List, Optional

from ._lent import F32, U8, U16, U32, U64, Buffer, ask, reads, writes
from .answers import (
    Held,
    HouseCode,
    Loaded,
    Mended,
    MendedPackets,
    Orthogonalised,
    Range,
    Recovered,
    Shared,
    Split,
    TakenBack,
)


def _held(values: List[int], place: int) -> Optional[Held]:
    return Held(*values[place : place + 2]) if len(values) > place else None


def load(record: Buffer, words: Buffer) -> Loaded:
    """Loads a record, of any form, and performs its splits; writes all words."""
    return Loaded(*ask("parity_load", reads("record", U32, record), writes("words", U64, words)))


def write(words: Buffer, n: int, m: int, k: int, record: Buffer) -> int:
    """Writes a matrix as a record, of the second form where k = 0 and else of the third; answers the number of words
    used, and leaves the others."""
    return ask("parity_write", reads("words", U64, words), n, m, k, writes("record", U32, record))[0]


def share(words: Buffer, n: int, m: int, k: int, u: int, v: int) -> Shared:
    """The number of checks that contain both bits, and the lowest and the highest of them."""
    values = ask("parity_share", reads("words", U64, words), n, m, k, u, v)
    return Shared(values[0], _held(values, 1))


def count(words: Buffer, n: int, m: int, k: int) -> int:
    """The cycle count."""
    return ask("parity_count", reads("words", U64, words), n, m, k)[0]


def split(words: Buffer, n: int, m: int, k: int, u: int, v: int) -> Split:
    """Splits a pair of bits with share two or more."""
    values = ask("parity_split", writes("words", U64, words), n, m, k, u, v)
    return Split(values[0], values[1], Held(*values[2:]))


def take_back(words: Buffer, n: int, m: int, k: int) -> TakenBack:
    """Takes back the newest split."""
    return TakenBack(*ask("parity_take_back", writes("words", U64, words), n, m, k))


def orthogonalise(words: Buffer, n: int, m: int, k: int) -> Orthogonalised:
    """Splits until no pair has share two or more. Refused 9 it has made splits: the refusal's values say how many."""
    values = ask("parity_orthogonalise", writes("words", U64, words), n, m, k)
    return Orthogonalised(values[0], values[1], values[2], _held(values, 3))


def verify(words: Buffer, n: int, m: int, k: int, word: Buffer) -> bool:
    """Whether the word of n+k bytes is a codeword."""
    return ask("parity_verify", reads("words", U64, words), n, m, k, reads("word", U8, word))[0] == 1


def extend(words: Buffer, n: int, m: int, k: int, sent: Buffer, word: Buffer) -> None:
    """Writes the n sent bits and then the k added ones into the word of n+k bytes."""
    ask("parity_extend", reads("words", U64, words), n, m, k, reads("sent", U8, sent), writes("word", U8, word))


def is_stopping(words: Buffer, n: int, m: int, k: int, set: Buffer) -> bool:
    """Whether no check contains exactly one bit of the set, given as n+k bytes."""
    return ask("parity_is_stopping", reads("words", U64, words), n, m, k, reads("set", U8, set))[0] == 1


def peel(words: Buffer, n: int, m: int, k: int, word: Buffer) -> Recovered:
    """Recovers the erased bits (2) of the word of n+k bytes, as far as checks with one erased bit reach."""
    return Recovered(*ask("parity_peel", reads("words", U64, words), n, m, k, writes("word", U8, word)))


def determine(words: Buffer, n: int, m: int, k: int, word: Buffer) -> Recovered:
    """Writes each erased bit (2) of the word of n+k bytes at which all codewords that agree with it have one value.
    Refused 12 exactly when no codeword agrees."""
    return Recovered(*ask("parity_determine", reads("words", U64, words), n, m, k, writes("word", U8, word)))


def mend_packets(
    words: Buffer, n: int, m: int, k: int, lost: Buffer, packets: Buffer, odd: Buffer
) -> MendedPackets:
    """Recovers lost packets: does in every lane what `determine` does in a word. Packet b has as many 64-bit words as
    `odd`; `lost` has a byte for each packet, 1 where it is lost, before and after; `odd` gets a one for each lane
    that no codeword agrees with, which stays as it was."""
    return MendedPackets(
        *ask(
            "parity_mend_packets",
            reads("words", U64, words),
            n,
            m,
            k,
            writes("lost", U8, lost),
            writes("packets", U64, packets),
            writes("odd", U64, odd),
        )
    )


def mend_block(words: Buffer, n: int, m: int, k: int, word: Buffer) -> Mended:
    """Mends the received word of n bytes with a matrix with k = 0: writes what `determine` writes, by peeling, then
    peeling with the orthogonalised matrix, then elimination, as far as bits remain."""
    return Mended(*ask("parity_mend_block", reads("words", U64, words), n, m, k, writes("word", U8, word)))


def rank(words: Buffer, n: int, m: int, k: int) -> int:
    """The number of parity bits of a matrix with k = 0."""
    return ask("parity_rank", reads("words", U64, words), n, m, k)[0]


def encode(words: Buffer, n: int, m: int, k: int, message: Buffer, word: Buffer) -> None:
    """Writes the codeword of n bytes that holds the message of n - rank bytes."""
    ask("parity_encode", reads("words", U64, words), n, m, k, reads("message", U8, message), writes("word", U8, word))


def message_bits(words: Buffer, n: int, m: int, k: int, set: Buffer) -> None:
    """Marks the n bits of a matrix with k = 0: 1 for a bit that holds the message, 0 for a parity bit."""
    ask("parity_message_bits", reads("words", U64, words), n, m, k, writes("set", U8, set))


def house_code(name: int, words: Buffer) -> HouseCode:
    """Copies the house code of a name (0 the circulant, 1 to 4 the Hamming checks for 3, 7, 15 and 31 bits)."""
    return HouseCode(*ask("parity_house_code", name, writes("words", U64, words)))


def stopping_sets(words: Buffer, n: int, m: int, k: int, t: int, sets: Buffer) -> int:
    """Lists every stopping set of exactly t sent bits (1 to 4) in 16-bit numbers, t places each; answers how many
    there are. Too short a slice is refused 19 with the places needed."""
    return ask("parity_stopping_sets", reads("words", U64, words), n, m, k, t, writes("sets", U16, sets))[0]


def join(
    words1: Buffer, n1: int, m1: int, k1: int, words2: Buffer, n2: int, m2: int, k2: int, words3: Buffer
) -> int:
    """Joins two matrices with k = 0 over the same bits into a third; answers the number of its checks."""
    return ask(
        "parity_join",
        reads("words1", U64, words1),
        n1,
        m1,
        k1,
        reads("words2", U64, words2),
        n2,
        m2,
        k2,
        writes("words3", U64, words3),
    )[0]


def min_sum(
    words: Buffer,
    n: int,
    m: int,
    k: int,
    rounds: int,
    word: Buffer,
    floats: Buffer,
    message_bytes: Buffer,
    message_floats: Buffer,
) -> None:
    """Decodes a word of sure (0, 1), erased (2) and soft (3) bits by min-sum rounds, 1 to 512; a soft bit has its
    value, positive for 0, in the same place of `floats`. Each bit's result replaces its byte and its float. The
    messages need 65,536 bytes and as many floats, whatever they hold."""
    ask(
        "parity_min_sum",
        reads("words", U64, words),
        n,
        m,
        k,
        rounds,
        writes("word", U8, word),
        writes("floats", F32, floats),
        writes("message_bytes", U8, message_bytes),
        writes("message_floats", F32, message_floats),
    )


def min_sum_range(lows: Buffer, highs: Buffer) -> Optional[Range]:
    """The range of one check's min-sum answer over all choices inside the ranges of its other bits; None where there
    are no other bits: the check then sends sure 0."""
    ends = array("f", [0.0, 0.0])
    values = ask("parity_min_sum_range", reads("lows", F32, lows), reads("highs", F32, highs), writes("ends", F32, ends))
    return None if values[0] == 0 else Range(ends[0], ends[1])
