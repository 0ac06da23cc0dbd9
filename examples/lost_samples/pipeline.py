"""A small pipeline with known times, and the sampler that looks at it."""

from __future__ import annotations

import random
from typing import List, Tuple

LINES = [
    ("read", "for batch in reads:"),
    ("parse", "    parsed = parse(batch)"),
    ("lookup", "    seeds = index.lookup(parsed)"),
    ("align", "    best = align(parsed, seeds)"),
    ("filter", "    kept = keep(best, cutoff)"),
    ("write", "    out.write(kept)"),
    ("flush", "    if full(out): out.flush()"),
]
WRITE, FLUSH = 5, 6

# Milliseconds of each line in a batch, on average; only every fourth batch flushes.
USUAL = [40, 130, 240, 420, 60, 110, 800]


def run(milliseconds: int, chance: random.Random) -> List[Tuple[int, float]]:
    """What the pipeline does: lines in their order, each with the time that it takes."""
    done: List[Tuple[int, float]] = []
    spent = 0.0
    batch = 0
    while spent < milliseconds:
        batch += 1
        for line, usual in enumerate(USUAL):
            if line == FLUSH and batch % 4:
                continue
            time = min(usual * (0.6 + 0.8 * chance.random()), milliseconds - spent)
            done.append((line, time))
            spent += time
    return done


def true_times(done: List[Tuple[int, float]]) -> List[float]:
    """The seconds that each line took."""
    times = [0.0] * len(LINES)
    for line, time in done:
        times[line] += time / 1000
    return times


def sample(done: List[Tuple[int, float]]) -> bytes:
    """The sampler: at each millisecond, the line that runs."""
    taken = bytearray()
    spent = 0.0
    for line, time in done:
        spent += time
        while len(taken) < spent:
            taken.append(line)
    return bytes(taken)
