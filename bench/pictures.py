"""Small pictures of measurements, as SVG: bars and lines on logarithmic axes."""
import html
import math
from typing import List, NamedTuple, Sequence, Tuple

WIDTH, HEIGHT = 720, 400
LEFT, RIGHT, TOP, BOTTOM = 84, 20, 62, 74  # around the plot
COLORS = ["#2f5d8a", "#c0652b", "#4a8578", "#97566a", "#86864a"]
INK, PALE, GRID, PAPER = "#1f2933", "#52606d", "#d9dee4", "#ffffff"
STYLE = (
    "text{font-family:'DejaVu Sans',Verdana,Helvetica,Arial,sans-serif;font-size:12px}"
    f".title{{font-size:16px;font-weight:bold;fill:{INK}}}.note{{fill:{PALE}}}.tick{{fill:{PALE}}}.value{{fill:{INK};font-size:11px}}"
)


class Measure(NamedTuple):
    """A value with its spread; where no single value is known, `middle` is none."""

    low: float
    middle: "float | None"
    high: float


class Series(NamedTuple):
    """A name, and its measures by where they stand on the lower axis."""

    name: str
    points: "Sequence[Tuple[float, Measure]]"


def number(value: float) -> str:
    """A number with three digits that count, and commas."""
    return f"{value:,.0f}" if value >= 100 else f"{value:.3g}"


def powers(low: float, high: float) -> List[float]:
    """1, 2 and 5 times the powers of ten between two numbers."""
    found = [digit * 10.0**power for power in range(math.floor(math.log10(low)), math.ceil(math.log10(high)) + 1) for digit in (1, 2, 5)]
    return [value for value in found if low <= value <= high]


class Axis:
    """A logarithmic axis between two numbers, drawn from one place to another."""

    def __init__(self, low: float, high: float, first: float, last: float) -> None:
        self.low, self.high, self.first, self.last = low, high, first, last

    def at(self, value: float) -> float:
        """Where a value stands."""
        part = math.log(value / self.low) / math.log(self.high / self.low)
        return self.first + part * (self.last - self.first)


def frame(title: str, note: str, unit: str, axis: Axis) -> List[str]:
    """What every picture begins with: its title, and the lines of its upright axis."""
    parts = [
        f'<text x="{LEFT - 60}" y="26" class="title">{html.escape(title)}</text>',
        f'<text x="{LEFT - 60}" y="{HEIGHT - 12}" class="note">{html.escape(note)}</text>',
        f'<text x="{LEFT - 60}" y="48" class="tick">{html.escape(unit)}</text>',
    ]
    for value in powers(axis.low, axis.high):
        y = axis.at(value)
        parts.append(f'<path d="M{LEFT} {y:.1f} H{WIDTH - RIGHT}" stroke="{GRID}"/>')
        parts.append(f'<text x="{LEFT - 8}" y="{y + 4:.1f}" text-anchor="end" class="tick">{number(value)}</text>')
    return parts


def legend(names: Sequence[str], colors: Sequence[str]) -> List[str]:
    """The names of the series, above the plot."""
    parts, x = [], LEFT + 70.0
    for name, color in zip(names, colors):
        parts.append(f'<rect x="{x:.1f}" y="38" width="12" height="12" rx="2" fill="{color}"/>')
        parts.append(f'<text x="{x + 17:.1f}" y="48">{html.escape(name)}</text>')
        x += 17 + 7.1 * len(name) + 18
    return parts


def whisker(x: float, measure: Measure, axis: Axis, color: str) -> List[str]:
    """The spread of a measure, where it has one."""
    if measure.low == measure.high:
        return []
    low, high = axis.at(measure.low), axis.at(measure.high)
    return [f'<path d="M{x:.1f} {low:.1f} V{high:.1f} M{x - 5:.1f} {low:.1f} h10 M{x - 5:.1f} {high:.1f} h10" fill="none" stroke="{color}" stroke-width="1.5"/>']


def whole(title: str, parts: List[str]) -> str:
    """The picture as a file."""
    head = f'<svg xmlns="http://www.w3.org/2000/svg" viewBox="0 0 {WIDTH} {HEIGHT}" width="{WIDTH}" height="{HEIGHT}" role="img">\n'
    return head + f'<title>{html.escape(title)}</title>\n<style>{STYLE}</style>\n<rect width="{WIDTH}" height="{HEIGHT}" fill="{PAPER}"/>\n' + "\n".join(parts) + "\n</svg>\n"


def bars(title: str, note: str, unit: str, groups: Sequence[str], series: "Sequence[Tuple[str, Sequence[Measure | None]]]", low: float, high: float) -> str:
    """Bars side by side in each group, on a logarithmic axis that begins at `low`."""
    axis = Axis(low, high, HEIGHT - BOTTOM, TOP)
    parts = frame(title, note, unit, axis) + legend([name for name, _ in series], COLORS)
    room = (WIDTH - LEFT - RIGHT) / len(groups)
    wide = min(64.0, room * 0.72 / len(series))
    for place, group in enumerate(groups):
        middle = LEFT + room * (place + 0.5)
        parts.append(f'<text x="{middle:.1f}" y="{HEIGHT - BOTTOM + 20}" text-anchor="middle">{html.escape(group)}</text>')
        for at, (_, measures) in enumerate(series):
            measure = measures[place]
            if measure is None or measure.middle is None:
                continue
            x, y = middle + (at - len(series) / 2) * wide, axis.at(measure.middle)
            parts.append(f'<rect x="{x + 3:.1f}" y="{y:.1f}" width="{wide - 6:.1f}" height="{HEIGHT - BOTTOM - y:.1f}" rx="2" fill="{COLORS[at]}"/>')
            parts += whisker(x + wide / 2, measure, axis, INK)
            parts.append(f'<text x="{x + wide / 2:.1f}" y="{axis.at(measure.high) - 6:.1f}" text-anchor="middle" class="value">{number(measure.middle)}</text>')
    parts.append(f'<path d="M{LEFT} {HEIGHT - BOTTOM} H{WIDTH - RIGHT}" stroke="{PALE}"/>')
    return whole(title, parts)


def lines(title: str, note: str, unit: str, below: str, series: Sequence[Series], low: float, high: float) -> str:
    """A line for each series; where no single values are known, the band of its spread."""
    places = sorted({x for one in series for x, _ in one.points})
    axis = Axis(low, high, HEIGHT - BOTTOM, TOP)
    across = Axis(places[0], places[-1], LEFT + 40, WIDTH - RIGHT - 40)
    parts = frame(title, note, unit, axis) + legend([one.name for one in series], COLORS)
    for x in places:
        parts.append(f'<text x="{across.at(x):.1f}" y="{HEIGHT - BOTTOM + 20}" text-anchor="middle" class="tick">{number(x)}</text>')
    parts.append(f'<text x="{(LEFT + WIDTH - RIGHT) / 2:.1f}" y="{HEIGHT - BOTTOM + 40}" text-anchor="middle">{html.escape(below)}</text>')
    for number_of, (one, color) in enumerate(zip(series, COLORS)):
        shift = (number_of - (len(series) - 1) / 2) * 9 if any(m.middle is None for _, m in one.points) else 0
        at = [(across.at(x) + shift, measure) for x, measure in one.points]
        if all(measure.middle is not None for _, measure in at):
            parts.append('<path d="M' + " L".join(f"{x:.1f} {axis.at(measure.middle):.1f}" for x, measure in at) + f'" fill="none" stroke="{color}" stroke-width="2"/>')
        else:
            outline = [(x, measure.high) for x, measure in at] + [(x, measure.low) for x, measure in reversed(at)]
            parts.append('<path d="M' + " L".join(f"{x:.1f} {axis.at(value):.1f}" for x, value in outline) + f' Z" fill="{color}" fill-opacity="0.12"/>')
        for x, measure in at:
            parts += whisker(x, measure, axis, color)
            if measure.middle is not None:
                parts.append(f'<circle cx="{x:.1f}" cy="{axis.at(measure.middle):.1f}" r="3.5" fill="{color}"/>')
    parts.append(f'<path d="M{LEFT} {HEIGHT - BOTTOM} H{WIDTH - RIGHT}" stroke="{PALE}"/>')
    return whole(title, parts)
