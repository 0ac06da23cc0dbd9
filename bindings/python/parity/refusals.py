"""Refusals: exceptions with the number of the cause, the values that it carries, and the table's words."""

from __future__ import annotations

import enum
from typing import Dict, Tuple


class Cause(enum.IntEnum):
    """The causes of a refusal, by the names of include/parity.h."""

    MATRIX_LENGTH = 1
    RANGE = 2
    ONE_OUTSIDE = 3
    RULE_A = 4
    FAULTY_WORD = 5
    RECORD_SHORT = 6
    PAIR = 7
    SHARE = 8
    FULL = 9
    LENGTH = 10
    BYTE = 11
    CONTRADICTION = 12
    EXTENDED = 13
    NOTHING_TO_TAKE_BACK = 15
    CANNOT_TAKE_BACK = 16
    UNKNOWN_NAME = 17
    SET_SIZE = 18
    SETS_SHORT = 19
    DIFFERENT_LENGTHS = 20
    TOO_MANY_CHECKS = 21
    ROUNDS = 22
    FLOAT = 23
    LOW_ABOVE_HIGH = 24


TEXTS: Dict[int, str] = {
    1: "matrix slice is not 4,096 words",
    2: "n, m or k outside its range",
    3: "a one at bit n+k or above, or check m+k or above",
    4: "rule A broken",
    5: "faulty record word",
    6: "lent record too short to write",
    7: "u = v, or either at n+k or above",
    8: "share below two",
    9: "k = 392 and a pair with share two or more is to be split",
    10: "a word, message or set of wrong length",
    11: "a byte outside the values named",
    12: "contradiction: checks that cannot be made even",
    13: "k above 0",
    15: "k = 0: nothing to take back",
    16: "taken back, the matrix would break rule A; or no splits made it",
    17: "no house code has the name",
    18: "a set size outside 1 to 4",
    19: "slice for the sets too short",
    20: "two matrices to be joined have different n",
    21: "joined, two matrices have more than 120 checks",
    22: "rounds outside 1 to 512",
    23: "a soft float that is not finite or above 1,048,576 in magnitude",
    24: "a low above its high",
}
"""The words of the specification's table, as the requests left it, by number."""

_CARRIED: Dict[int, Tuple[str, ...]] = {
    5: ("place",),
    6: ("words needed",),
    8: ("share",),
    9: ("splits", "sum", "k", "lowest check", "highest check"),
    11: ("place",),
    19: ("places needed",),
    23: ("place",),
    24: ("place",),
}


class Refusal(Exception):
    """A call's refusal.

    `number` is that of the cause (it equals a `Cause`), `values` what the refusal carries (include/parity.h says
    what, with each cause), `text` the table's words. Lent memory is as it was; only an `orthogonalise` that is
    refused 9 leaves the matrix after the splits that it made.
    """

    def __init__(self, number: int, values: Tuple[int, ...] = ()) -> None:
        super().__init__(number, values)
        self.number = Cause(number)
        self.values = values
        self.text = TEXTS[number]

    def __str__(self) -> str:
        named = zip(_CARRIED.get(self.number, ()), self.values)
        carried = ", ".join(f"{name} {value}" for name, value in named)
        return f"refusal {int(self.number)}: {self.text}" + (f" ({carried})" if carried else "")
