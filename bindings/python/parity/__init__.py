"""Parity checks for lossy sample streams: the proved library from Python.

    >>> import parity
    >>> matrix = parity.Matrix.from_text("1111000\\n1100110\\n1010001\\n")
    >>> word = parity.word("???1111")
    >>> matrix.mend(word)
    Mended(stage=2, recovered=4)
    >>> parity.shown(word)
    '0011111'
    >>> try:
    ...     matrix.mend(parity.word("0000001"))
    ... except parity.Refusal as refusal:
    ...     print(refusal)
    refusal 12: contradiction: checks that cannot be made even

`Matrix` has every call as a method. `parity.calls` has the same calls on memory that the caller lends, with the words
and numbers of include/parity.h, which says what each does. The package needs the shared library and nothing else.
"""

from . import calls
from .answers import (
    Held,
    HouseCode,
    Loaded,
    Mended,
    MendedPackets,
    Orthogonalised,
    Range,
    Recovered,
    Shared,
    Split,
    TakenBack,
)
from .calls import min_sum_range
from .formats import FileFault
from .matrix import MESSAGES, RECORD_MOST, WORDS, Matrix
from .refusals import TEXTS, Cause, Refusal

__version__ = "1.0.0"

ERASED = 2
SOFT = 3

HOUSE_CIRCULANT = 0
HOUSE_HAMMING_3 = 1
HOUSE_HAMMING_7 = 2
HOUSE_HAMMING_15 = 3
HOUSE_HAMMING_31 = 4

STAGE_PEELING = 1
STAGE_EXTENDED = 2
STAGE_ELIMINATION = 3


def word(text: str) -> bytearray:
    """The bytes of a word of 0, 1 and ? (or .) for an erased bit."""
    return bytearray({"0": 0, "1": 1, "?": ERASED, ".": ERASED}[character] for character in text)


def shown(word: bytes) -> str:
    """A word as text: 0, 1, and ? for an erased bit."""
    return "".join("01?"[byte] for byte in word)


__all__ = [
    "Cause",
    "ERASED",
    "FileFault",
    "HOUSE_CIRCULANT",
    "HOUSE_HAMMING_15",
    "HOUSE_HAMMING_3",
    "HOUSE_HAMMING_31",
    "HOUSE_HAMMING_7",
    "Held",
    "HouseCode",
    "Loaded",
    "MESSAGES",
    "Matrix",
    "Mended",
    "MendedPackets",
    "Orthogonalised",
    "RECORD_MOST",
    "Range",
    "Recovered",
    "Refusal",
    "SOFT",
    "STAGE_ELIMINATION",
    "STAGE_EXTENDED",
    "STAGE_PEELING",
    "Shared",
    "Split",
    "TEXTS",
    "TakenBack",
    "WORDS",
    "calls",
    "min_sum_range",
    "shown",
    "word",
]
