"""Samples lost on the way: the true profile, the old rule and the new one beside each other.

    packaging/build shared
    python3 examples/lost_samples [--svg FILE]
"""

from __future__ import annotations

import random
import sys
from pathlib import Path
from typing import List, NamedTuple

ROOT = Path(__file__).resolve().parents[2]
try:
    import parity
except ImportError:
    sys.path.insert(1, str(ROOT / "bindings" / "python"))
    import parity

import picture
from collector import PACKET, Code, Report, new_rule, old_rule
from link import Link, sent
from pipeline import LINES, run, sample, true_times

SEED = 44
BLOCKS = 40
# How busy the link is, from almost quiet on; the profile is shown for one of them.
TRAFFIC = [0.05, 0.1, 0.2, 0.3, 0.4, 0.6, 0.8, 1.0, 1.5, 2.0, 3.0, 4.0]
SHOWN = 0.6


class Trial(NamedTuple):
    """One busyness of the link: data packets lost, all packets lost, and the two reports."""

    traffic: float
    lost_data: int
    lost: int
    old: Report
    new: Report


def trial(traffic: float, samples: bytes, code: Code) -> Trial:
    size = len(code.data) * PACKET
    blocks = [samples[at : at + size] for at in range(0, len(samples), size)]
    lost = sent(blocks, PACKET, len(code.checks), Link(traffic, random.Random(SEED)))
    lost_data = sum(sum(block[: len(code.data)]) for block in lost)
    old = old_rule(samples, lost, len(LINES), len(code.data))
    return Trial(traffic, lost_data, sum(map(sum, lost)), old, new_rule(samples, lost, len(LINES), code))


def profile(times: List[float], shown: Trial) -> None:
    old, new = shown.old, shown.new
    print("                                         true      old rule          new rule")
    for (_, text), true, by_old, by_new in zip(LINES, times, old.seconds, new.seconds):
        print(f"  {text:34} {true:7.2f} s  {by_old:7.2f} s {by_old - true:+7.2f}  {by_new:7.2f} s {by_new - true:+7.2f}")
    print(f"  {'(unknown)':34} {'':9}  {'':17}  {new.unknown / 1000:7.2f} s")


def losses(trials: List[Trial], samples: int, packets: int) -> None:
    print("  packets   samples lost   old rule: charged     new rule:               wrongly")
    print("     lost     on the way   to a wrong line       rebuilt      unknown    rebuilt")
    for one in trials:
        gone = one.lost_data * PACKET
        print(
            f"  {100 * one.lost / packets:6.1f}%  {gone:7} {100 * gone / samples:5.1f}%  {one.old.wrong:7} "
            f"{100 * one.old.wrong / samples:5.1f}%       {gone - one.new.unknown:7}  {one.new.unknown:7} "
            f"{100 * one.new.unknown / samples:5.1f}%    {one.new.wrong:7}"
        )


def told(shown: Trial, times: List[float], samples: int, packets: int) -> None:
    print(
        f"""A pipeline of {len(LINES)} lines runs for {sum(times):.1f} seconds. A probe notes each millisecond which line runs, and sends
{samples} samples, {PACKET} in a packet, over the link that the pipeline's own output goes over. That link loses packets
in bursts, most of them while the pipeline writes: {100 * shown.lost / packets:.0f} % of all packets. The old rule charges a lost sample to
the last line heard from. The new one rebuilds it from the checks, or marks it unknown and counts it as lost.
"""
    )


def ends(trials: List[Trial], packets: int, checks: float) -> None:
    first = next(one for one in trials if one.new.unknown)
    last = max(one.lost for one in trials if one.lost < first.lost)
    low, high = 100 * last / packets, 100 * first.lost / packets
    wrong = sum(one.new.wrong for one in trials) or "no"
    print(
        f"""Up to {low:.1f} % of packets lost, everything was rebuilt; from {high:.1f} % on, bursts leave blocks that the checks do
not determine. {checks:.0f} % of the packets are checks: of a block that has lost more, no code of this size rebuilds all.
Beyond that the new rule knows less than the old one claims. But at every loss it charged {wrong} samples to a wrong
line: a line's true time is, within the sampler's milliseconds, what it shows, or more by at most the unknown."""
    )


def main() -> None:
    code = Code(parity.Matrix.read(Path(__file__).parent / "blocks.alist"))
    size = len(code.data) * PACKET
    done = run(BLOCKS * size, random.Random(SEED))
    samples, times = sample(done), true_times(done)
    trials = [trial(traffic, samples, code) for traffic in TRAFFIC]
    shown = trials[TRAFFIC.index(SHOWN)]
    packets = BLOCKS * code.matrix.n

    told(shown, times, len(samples), packets)
    profile(times, shown)
    print()
    print(f"A block has {len(code.data)} packets of samples, and {len(code.checks)} of checks beside them; each packet is in five checks, drawn at")
    print("random (blocks.alist). As losses grow:")
    print()
    losses(trials, len(samples), packets)
    print()
    checks = 100 * len(code.checks) / code.matrix.n
    ends(trials, packets, checks)
    if len(sys.argv) == 3 and sys.argv[1] == "--svg":
        drawn = picture.drawn(LINES, times, shown, trials, len(samples), packets, checks)
        Path(sys.argv[2]).write_text(drawn, encoding="utf-8")
    elif len(sys.argv) > 1:
        sys.exit(f"usage: {sys.argv[0]} [--svg FILE]")


if __name__ == "__main__":
    main()
