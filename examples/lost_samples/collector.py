"""The collector's two rules for what did not arrive."""

from __future__ import annotations

from typing import List, NamedTuple, Optional

import parity

PACKET = 64
"""The samples of a packet, a byte each."""


class Report(NamedTuple):
    """Seconds charged to each line, samples that stay unknown, and samples charged to a line that did not run."""

    seconds: List[float]
    unknown: int
    wrong: int


def old_rule(samples: bytes, lost: List[List[int]], lines: int, data: int) -> Report:
    """A lost sample is charged to the last line heard from."""
    counts, wrong, heard = [0] * lines, 0, samples[0]
    for at in range(0, len(samples), PACKET):
        number = at // PACKET
        packet = samples[at : at + PACKET]
        if lost[number // data][number % data]:
            counts[heard] += PACKET
            wrong += PACKET - packet.count(heard)
        else:
            for line in range(lines):
                counts[line] += packet.count(line)
            heard = packet[-1]
    return Report([count / 1000 for count in counts], 0, wrong)


class Code:
    """A block of packets: those that hold samples, and those that hold checks of them."""

    def __init__(self, matrix: parity.Matrix) -> None:
        self.matrix = matrix
        holds = matrix.message_bits()
        self.data = [packet for packet, byte in enumerate(holds) if byte]
        self.checks = [packet for packet, byte in enumerate(holds) if not byte]

    def encoded(self, samples: bytes) -> bytearray:
        """The packets of a block: the samples in their places, and the checks, which count as lost, mended."""
        packets = bytearray(self.matrix.n * PACKET)
        for number, place in enumerate(self.data):
            packets[place * PACKET : (place + 1) * PACKET] = samples[number * PACKET : (number + 1) * PACKET]
        lost = bytearray(self.matrix.n)
        for place in self.checks:
            lost[place] = 1
        self.matrix.mend_packets(lost, packets)
        return packets

    def received(self, packets: bytearray, lost: List[int]) -> List[Optional[bytes]]:
        """The samples of each data packet, None where they stay unknown. What is lost never reaches this function's
        caller but through the checks: it is overwritten first."""
        marks = bytearray(self.matrix.n)
        for place, gone in zip(self.data + self.checks, lost):
            if gone:
                marks[place] = 1
                packets[place * PACKET : (place + 1) * PACKET] = b"\xaa" * PACKET
        self.matrix.mend_packets(marks, packets)
        return [None if marks[at] else bytes(packets[at * PACKET : (at + 1) * PACKET]) for at in self.data]


def new_rule(samples: bytes, lost: List[List[int]], lines: int, code: Code) -> Report:
    """A lost sample is rebuilt by the checks, or it is marked unknown and counted as lost."""
    counts, unknown, wrong = [0] * lines, 0, 0
    size = len(code.data) * PACKET
    for number, gone in enumerate(lost):
        block = samples[number * size : (number + 1) * size]
        for at, packet in enumerate(code.received(code.encoded(block), gone)):
            if packet is None:
                unknown += PACKET
                continue
            for line in range(lines):
                counts[line] += packet.count(line)
            wrong += sum(a != b for a, b in zip(packet, block[at * PACKET : (at + 1) * PACKET]))
    return Report([count / 1000 for count in counts], unknown, wrong)
