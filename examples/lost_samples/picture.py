"""The picture: where the time goes by the three reports, and what becomes of lost samples as losses grow."""

from __future__ import annotations

from html import escape
from typing import Any, List, Sequence, Tuple

WIDTH, HEIGHT = 960, 470
TRUE, OLD, NEW, GREY = "#444444", "#d55e00", "#0072b2", "#999999"
# The bars, and the chart beside them.
LEFT, RIGHT, TOP, ROW = 250.0, 520.0, 114.0, 42.0
CHART_LEFT, CHART_RIGHT, CHART_TOP, CHART_BOTTOM = 632.0, 936.0, 114.0, 408.0


def text(x: float, y: float, words: str, more: str = "") -> str:
    return f"<text x='{x:.1f}' y='{y:.1f}' {more}>{escape(words)}</text>"


def bar(x: float, y: float, width: float, colour: str, more: str = "") -> str:
    return f"<rect x='{x:.1f}' y='{y:.1f}' width='{max(width, 0.5):.1f}' height='9' fill='{colour}'{more}/>"


def bars(lines: Sequence[Tuple[str, str]], times: List[float], shown: Any) -> List[str]:
    """Three bars for each line, and one for what is unknown."""
    scale = (RIGHT - LEFT) / max(times + shown.old.seconds)
    made = []
    for row, (_, code) in enumerate(lines):
        y = TOP + row * ROW
        mono = "font-family='DejaVu Sans Mono, Menlo, Consolas, monospace' font-size='11' xml:space='preserve'"
        made.append(text(24, y + 19, code, mono))
        reports = [(times[row], TRUE), (shown.old.seconds[row], OLD), (shown.new.seconds[row], NEW)]
        for place, (seconds, colour) in enumerate(reports):
            made.append(bar(LEFT, y + 11 * place, seconds * scale, colour))
            label = f"{seconds:.1f} s"
            end = LEFT + seconds * scale + 5
            made.append(text(end, y + 11 * place + 8.5, label, f"font-size='10' fill='{colour}'"))
    y = TOP + len(lines) * ROW
    unknown = shown.new.unknown / 1000
    made.append(text(24, y + 9, "unknown, and counted as lost", "font-size='12'"))
    made.append(bar(LEFT, y, unknown * scale, "#ffffff", f" stroke='{NEW}'"))
    made.append(text(LEFT + unknown * scale + 5, y + 8.5, f"{unknown:.1f} s", f"font-size='10' fill='{NEW}'"))
    return made


def legend() -> List[str]:
    made = []
    rules = [(120, OLD, "old rule: the last line heard from"), (352, NEW, "new rule: rebuilt, or unknown")]
    for x, colour, words in [(24, TRUE, "true time")] + rules:
        made.append(bar(x, TOP - 27, 12, colour))
        made.append(text(x + 17, TOP - 18.5, words, f"font-size='12' fill='{colour}'"))
    return made


def chart(trials: Sequence[Any], samples: int, packets: int, checks: float) -> List[str]:
    """The share of samples charged to a wrong line, and of those that stay unknown, over the share of packets lost."""
    most = 60.0

    def x(percent: float) -> float:
        return CHART_LEFT + (CHART_RIGHT - CHART_LEFT) * percent / most

    def y(percent: float) -> float:
        return CHART_BOTTOM - (CHART_BOTTOM - CHART_TOP) * percent / most

    made = []
    for percent in range(0, 61, 10):
        at = f"{y(percent):.1f}"
        made.append(f"<line x1='{CHART_LEFT:.1f}' y1='{at}' x2='{CHART_RIGHT:.1f}' y2='{at}' stroke='#e4e4e4'/>")
        made.append(text(CHART_LEFT - 6, y(percent) + 4, f"{percent} %", "font-size='11' text-anchor='end'"))
        made.append(text(x(percent), CHART_BOTTOM + 16, f"{percent} %", "font-size='11' text-anchor='middle'"))
    at, dashed = f"{x(checks):.1f}", f"stroke='{GREY}' stroke-dasharray='4 4'"
    made.append(f"<line x1='{at}' y1='{CHART_TOP:.1f}' x2='{at}' y2='{CHART_BOTTOM:.1f}' {dashed}/>")
    note = "font-size='11' text-anchor='middle' fill='#666666'"
    made.append(text(x(checks), CHART_TOP - 5, f"checks: {checks:.0f} % of packets", note))
    for colour, share in ((OLD, lambda one: one.old.wrong), (NEW, lambda one: one.new.unknown)):
        points = [(0.0, 0.0)] + [(100 * one.lost / packets, 100 * share(one) / samples) for one in trials]
        inside = [(a, b) for a, b in points if a <= most and b <= most]
        path = " ".join(f"{x(a):.1f},{y(b):.1f}" for a, b in inside)
        made.append(f"<polyline points='{path}' fill='none' stroke='{colour}' stroke-width='2'/>")
        made += [f"<circle cx='{x(a):.1f}' cy='{y(b):.1f}' r='3' fill='{colour}'/>" for a, b in inside[1:]]
    made.append(text(CHART_LEFT, CHART_TOP - 22, "share of all samples, over packets lost", "font-size='12'"))
    made.append(text(CHART_LEFT + 8, CHART_TOP + 26, "old rule: on a wrong line", f"font-size='12' fill='{OLD}'"))
    made.append(text(CHART_LEFT + 8, CHART_TOP + 44, "new rule: unknown", f"font-size='12' fill='{NEW}'"))
    made.append(text(CHART_LEFT + 8, CHART_TOP + 62, "new rule: wrong, none ever", f"font-size='12' fill='{NEW}'"))
    return made


def drawn(
    lines: Sequence[Tuple[str, str]],
    times: List[float],
    shown: Any,
    trials: Sequence[Any],
    samples: int,
    packets: int,
    checks: float,
) -> str:
    """The picture for the trial shown, and the chart of all; `checks` is the share of packets that are checks."""
    lost = 100 * shown.lost / packets
    wrong, unknown = 100 * shown.old.wrong / samples, 100 * shown.new.unknown / samples
    title = "Samples lost on the way"
    about = [
        f"{lost:.0f} % of the packets are lost in bursts, most of them while the pipeline writes. "
        f"The old rule charges {wrong:.1f} % of all",
        f"samples to a line that did not run; the new one leaves {unknown:.1f} % unknown, and charges none wrongly.",
    ]
    foot = f"{samples} samples of a pipeline with known times; {checks:.0f} % of the packets are checks; python3 examples/lost_samples"
    parts = [
        f"<svg xmlns='http://www.w3.org/2000/svg' width='{WIDTH}' height='{HEIGHT}' viewBox='0 0 {WIDTH} {HEIGHT}' role='img' "
        "aria-labelledby='title desc' font-family='Helvetica, Arial, DejaVu Sans, sans-serif' fill='#222222'>",
        f"<title id='title'>{title}</title>",
        f"<desc id='desc'>{escape(' '.join(about))}</desc>",
        f"<rect width='{WIDTH}' height='{HEIGHT}' fill='#ffffff'/>",
        text(24, 32, title, "font-size='18'"),
        *(text(24, 53 + 16 * place, line, "font-size='12'") for place, line in enumerate(about)),
        *legend(),
        *bars(lines, times, shown),
        *chart(trials, samples, packets, checks),
        text(24, HEIGHT - 16, foot, "font-size='11' fill='#666666'"),
        "</svg>",
    ]
    return "\n".join(parts) + "\n"
