"""What calls answer, each a named tuple of the values in the order of include/parity.h."""

from __future__ import annotations

from typing import NamedTuple, Optional


class Loaded(NamedTuple):
    """The answer of `load`."""

    n: int
    m: int
    k: int


class HouseCode(NamedTuple):
    """The answer of `house_code`."""

    n: int
    m: int


class Held(NamedTuple):
    """The lowest and the highest check that hold a pair."""

    lowest: int
    highest: int


class Shared(NamedTuple):
    """The answer of `share`: the share, and the checks that hold the pair, None if it is 0."""

    share: int
    held: Optional[Held]


class Split(NamedTuple):
    """The answer of `split`: the share that the pair had, the new k, the checks that held the pair."""

    share: int
    k: int
    held: Held


class TakenBack(NamedTuple):
    """The answer of `take_back`: how many other checks had the newest added bit, and the new k."""

    share: int
    k: int


class Orthogonalised(NamedTuple):
    """The answer of `orthogonalise`: the splits made, the sum of s(s-1)/2 over their shares s, k, and the checks
    that held the pair of the final split, None if there was none."""

    splits: int
    sum: int
    k: int
    held: Optional[Held]


class Recovered(NamedTuple):
    """The answer of `peel` and of `determine`: how many sent and how many added bits were recovered, and how many
    of each are left."""

    recovered_sent: int
    recovered_added: int
    left_sent: int
    left_added: int


class MendedPackets(NamedTuple):
    """The answer of `mend_packets`: packets recovered and left, sent and added ones, and the lanes that no codeword
    agrees with."""

    recovered_sent: int
    recovered_added: int
    left_sent: int
    left_added: int
    odd_lanes: int


class Mended(NamedTuple):
    """The answer of `mend_block`: the last stage to run (1 peeling, 2 peeling with the orthogonalised copy,
    3 elimination), and how many bits the two peelings recovered together."""

    stage: int
    recovered: int


class Range(NamedTuple):
    """The answer of `min_sum_range`: the least and the greatest value that the check may send."""

    low: float
    high: float
