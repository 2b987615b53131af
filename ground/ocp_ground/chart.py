"""A picture of pool words over time, with the statuses and faults of procedures under them."""
from __future__ import annotations

from html import escape
from typing import Iterator, NamedTuple, Sequence

from .engine import STATUSES

WIDE, HIGH, LEFT, TOP, LANE, GAP, LETTER = 960, 150, 120, 24, 20, 34, 6.2
# Colours for paper, and for a dark page.
STYLE = """text { font: 11px sans-serif; fill: #22272e } .paper { fill: #ffffff } .axis { stroke: #6a7380 }
.grid { stroke: #d8dce2 } .word { stroke: #1f5fa8; fill: none } .fault { stroke: #c22f2f; stroke-width: 2 }
.inactive { fill: #c9ced6 } .running { fill: #58a66f } .held { fill: #e3a92f }
@media (prefers-color-scheme: dark) { text { fill: #dfe3e8 } .paper { fill: #1b1f24 }
.grid { stroke: #363c44 } .word { stroke: #6fb1f5 } .fault { stroke: #ff7b72 }
.inactive { fill: #59616c } .running { fill: #3f8a57 } .held { fill: #c08d1c } }"""


class Series(NamedTuple):
    name: str
    points: Sequence[tuple[int, int]]  # from this time on, this value


class Lane(NamedTuple):
    name: str
    statuses: Sequence[tuple[int, str]]  # from this time on, this status
    faults: Sequence[tuple[int, str]]


def ticks(low: int, high: int, most: int) -> range:
    """Round numbers from at most `low` to at least `high`. Their distance is 1, 2 or 5 times a power of ten."""
    step = 1
    while (high - low) / step > most:
        step = step * 5 // 2 if str(step).startswith("2") else step * 2
    return range(low // step * step, -(-high // step) * step + 1, step)


def said(value: int) -> str:
    """As long as there is room for it."""
    return f"{value:,}" if value < 10**12 else f"{value:g}"


def columns(points: Sequence[tuple[int, int]], begin: int, end: int) -> Iterator[tuple[int, int, int, int]]:
    """Of each column of the picture the least, the greatest and the last value."""
    at, value = 0, points[0][1]
    for column in range(WIDE):
        low = high = value
        while at < len(points) and (points[at][0] - begin) * WIDE < (column + 1) * (end - begin):
            value = points[at][1]
            low, high, at = min(low, value), max(high, value), at + 1
        yield column, low, high, value


def words_of(series: Series, top: int, begin: int, end: int) -> Iterator[str]:
    values = [value for _, value in series.points]
    scale = ticks(min(values), max(max(values), min(values) + 1), 5)
    least, most = scale[0], scale[-1]

    def y(value: int) -> float:
        return top + HIGH - HIGH * (value - least) / (most - least)
    yield f'<text x="{LEFT}" y="{top - 8}">{escape(series.name)}</text>'
    for value in scale:
        yield f'<path class="grid" d="M{LEFT} {y(value):.1f}h{WIDE}"/>'
        yield f'<text x="{LEFT - 6}" y="{y(value) + 4:.1f}" text-anchor="end">{said(value)}</text>'
    made = [f"M{LEFT} {y(values[0]):.1f}"]
    for column, low, high, value in columns(series.points, begin, end):
        made.append(f"H{LEFT + column}" + (f"V{y(low):.1f}V{y(high):.1f}V{y(value):.1f}" if low != high else ""))
    yield f'<path class="word" d="{"".join(made)}h1"/>'


def draw(series: Sequence[Series], lanes: Sequence[Lane], span: tuple[int, int], time: str) -> str:
    """The picture as SVG, over times from the first to the last of `span`."""
    begin, end = span[0], max(span[1], span[0] + 1)

    def x(at: int) -> float:
        return LEFT + WIDE * (at - begin) / (end - begin)
    rows, top = [], TOP
    for one in series:
        rows += words_of(one, top, begin, end)
        top += HIGH + GAP
    for lane in lanes:
        rows.append(f'<text x="{LEFT - 6}" y="{top + 11}" text-anchor="end">{escape(lane.name)}</text>')
        bars = zip(lane.statuses, [at for at, _ in lane.statuses[1:]] + [end])
        shown = [(STATUSES.index(status), at, until, status) for (at, status), until in bars if status in STATUSES]
        for _, at, until, status in sorted(shown):  # a short run is seen on what follows it
            rows.append(f'<rect class="{status}" x="{x(at):.1f}" y="{top}" width="{max(1.5, x(until) - x(at)):.1f}" height="14">'
                        f'<title>{status} from {time} {at:,}</title></rect>')
        for at, name in lane.faults:
            rows.append(f'<path class="fault" d="M{x(at):.1f} {top - 3}v20"><title>{escape(name)}, {time} {at:,}</title></path>')
        top += LANE
    for at in ticks(begin, end, 10):
        if begin <= at <= end:
            rows.append(f'<path class="axis" d="M{x(at):.1f} {top}v5"/>')
            rows.append(f'<text x="{x(at):.1f}" y="{top + 18}" text-anchor="middle">{at:,}</text>')
    rows.append(f'<path class="axis" d="M{LEFT} {top}h{WIDE}"/>')
    key, left = [], float(LEFT)
    for status in ("inactive", "running", "held", "fault") if lanes else ():
        sign = f'<path class="fault" d="M{left + 6:.1f} {top + 26}v14"/>' if status == "fault" else \
            f'<rect class="{status}" x="{left:.1f}" y="{top + 28}" width="12" height="10"/>'
        key.append(f'{sign}<text x="{left + 17:.1f}" y="{top + 37}">{status}</text>')
        left += 40 + LETTER * len(status)
    rows.append(f'<text x="{LEFT + WIDE}" y="{top + 37}" text-anchor="end">{time}</text>')
    size = f'{LEFT + WIDE + 40}" height="{top + 48}'
    return (f'<svg xmlns="http://www.w3.org/2000/svg" width="{size}" viewBox="0 0 {LEFT + WIDE + 40} {top + 48}"><style>{STYLE}</style>'
            f'<rect class="paper" width="100%" height="100%"/>{"".join(rows + key)}</svg>\n')
