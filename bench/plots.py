"""Draws costs over sizes as a picture of docs/: panels whose axes are both logarithmic, with a line for each thing that costs."""
import math
import sys
from collections import namedtuple

from measuring import TOP

sys.path.append(str(TOP / "tools"))
from drawing import svg, text  # noqa: E402

# A panel: its title, what stands at its axes, and the points of each line by the line's name.
Panel = namedtuple("Panel", "title across upwards lines")

# Where an axis may have a tick.
STEPS = [digit * 10.0 ** power for power in range(-6, 9) for digit in (1, 2, 5)]
WIDE, HIGH = 370, 250
# The colour of each line in turn, and the mark at its points.
LOOKS = [("#1f5fa8", "M-4 0 a4 4 0 1 0 8 0 a4 4 0 1 0 -8 0"), ("#c0392b", "M-4 -4 h8 v8 h-8 z"),
         ("#2e7d32", "M0 -5 L5 4 H-5 z"), ("#b7791f", "M0 -5 L5 0 L0 5 L-5 0 z")]
STYLE = """
.grid { stroke: #e0e0e0 }
.frame { fill: none; stroke: #777 }
.line { fill: none; stroke-width: 2 }
.slope { fill: none; stroke: #555; stroke-dasharray: 5 4 }"""


class Axis:
    """A logarithmic axis with all these values, from one place of the picture to another, which begins and ends at a tick."""

    def __init__(self, values, start, end):
        low = max(step for step in STEPS if step <= min(values))
        high = min(step for step in STEPS if step >= max(values) and step > low)
        self.ticks = [step for step in STEPS if low <= step <= high]
        self.start, self.end = start, end

    def at(self, value):
        part = math.log(value / self.ticks[0]) / math.log(self.ticks[-1] / self.ticks[0])
        return round(self.start + part * (self.end - self.start), 1)


def path(places, kind, more=""):
    """A line through these places."""
    return f'<path d="M{" L".join(f"{x} {y}" for x, y in places)}" class="{kind}"{more}/>'


def draw_line(places, marked, look):
    """A line through these places, with a mark at each of those."""
    colour, mark = look
    marks = [f'<path d="{mark}" transform="translate({x} {y})" fill="{colour}"/>' for x, y in marked]
    return [path(places, "line", f' stroke="{colour}"'), *marks]


def slope_1(lines, top):
    """The ends of a line on which the cost grows as the size does: from the middle of the first costs to the last size, or to
    the top of the axis."""
    firsts, (last, _) = [points[0] for points in lines], lines[0][-1]
    size, cost = firsts[0][0], math.exp(math.fsum(math.log(cost) for _, cost in firsts) / len(firsts))
    end = min(last, size * top / cost)
    return [(size, cost), (end, cost * end / size)]


def draw_axes(panel, across, upwards):
    """The ticks of both axes with their numbers, and what stands at them."""
    left, bottom, right, top = across.start, upwards.start, across.end, upwards.end
    parts = [text(left, top - 32, panel.title, "title"), text(left, top - 10, panel.upwards, "small"),
             text((left + right) // 2, bottom + 36, panel.across, "small", "middle")]
    for tick in across.ticks:
        x = across.at(tick)
        parts += [path([(x, top), (x, bottom)], "grid"), text(x, bottom + 17, f"{tick:,g}", "small", "middle")]
    for tick in upwards.ticks:
        y = upwards.at(tick)
        parts += [path([(left, y), (right, y)], "grid"), text(left - 8, round(y + 4, 1), f"{tick:,g}", "small", "end")]
    return parts + [path([(left, top), (left, bottom), (right, bottom)], "frame")]


def draw_panel(panel, left, top):
    """A panel whose axes have their upper left corner here."""
    lines = list(panel.lines.values())
    across = Axis([size for points in lines for size, _ in points], left, left + WIDE)
    upwards = Axis([cost for points in lines for _, cost in points], top + HIGH, top)

    def places(points):
        return [(across.at(size), upwards.at(cost)) for size, cost in points]

    parts = draw_axes(panel, across, upwards) + [path(places(slope_1(lines, upwards.ticks[-1])), "slope")]
    for points, look in zip(lines, LOOKS):
        parts += draw_line(places(points), places(points), look)
    return parts


def draw_legend(names, y):
    """The name of each line behind a short one, and that of the line of slope 1."""
    parts, x = [], 20
    for name, look in zip(names, LOOKS):
        parts += draw_line([(x, y), (x + 28, y)], [(x + 14, y)], look) + [text(x + 36, y + 4, name, "small")]
        x += 66 + 6 * len(name)
    return parts + [path([(x, y), (x + 28, y)], "slope"), text(x + 36, y + 4, "slope 1: in proportion to the size", "small")]


def picture(title, about, rows):
    """A picture of rows of two panels, all of which have lines of the same names."""
    parts = [text(20, 30, title, "title"), text(20, 50, about, "small"), *draw_legend(rows[0][0].lines, 74)]
    for row, panels in enumerate(rows):
        for column, panel in enumerate(panels):
            parts += draw_panel(panel, 70 + 480 * column, 140 + 370 * row)
    return svg(960, 80 + 370 * len(rows), title, parts, STYLE)
