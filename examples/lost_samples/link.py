"""The link from the probe to the collector. It loses packets in bursts, most of them while the pipeline writes: its
output goes over the same link."""

from __future__ import annotations

import random
from typing import List

from pipeline import FLUSH, WRITE

# A choked link loses nine packets of ten, a quiet one hardly any.
CHOKED, QUIET = 0.9, 0.002


class Link:
    """A link with so much other traffic: 0 loses almost nothing, 1 most."""

    def __init__(self, traffic: float, chance: random.Random) -> None:
        self.traffic = traffic
        self.chance = chance
        self.choked = False

    def begin(self, samples: bytes) -> None:
        """A slot begins, in which the pipeline does what these samples say."""
        output = (samples.count(WRITE) + samples.count(FLUSH)) / max(len(samples), 1)
        turn = self.chance.random()
        if self.choked:
            self.choked = turn < 0.55 + 0.35 * output + 0.1 * self.traffic
        else:
            self.choked = turn < self.traffic * (0.02 + 0.7 * output)

    def loses(self) -> int:
        """1 if the next packet is lost, and else 0."""
        return int(self.chance.random() < (CHOKED if self.choked else QUIET))


def sent(blocks: List[bytes], packet: int, checks: int, link: Link) -> List[List[int]]:
    """Sends blocks of samples, a packet at a time, and with each data packet one with checks of the block before.
    Answers for each block which of its packets were lost: data packets first, then those with checks."""
    lost: List[List[int]] = [[] for _ in blocks]
    late: List[List[int]] = [[] for _ in blocks]
    for number, block in enumerate(blocks + [b""]):
        data = len(blocks[0]) // packet
        for slot in range(max(data, checks)):
            samples = block[slot * packet : (slot + 1) * packet]
            link.begin(samples)
            if samples:
                lost[number].append(link.loses())
            if number and slot < checks:
                late[number - 1].append(link.loses())
    return [first + second for first, second in zip(lost, late)]
