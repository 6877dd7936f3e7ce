"""The page of a panel: where points come on it, their shapes, the axes, and how wide texts are, so that nothing runs off it."""
from __future__ import annotations

import math
import re
from fractions import Fraction
from typing import Optional, Sequence, Tuple

from ..answers.answered import Point
from ..exact import text
from ..frame import Frame
from ..units import Exact

SIDE = 440  # the longer side of the picture of a polygon
GAP = 24
SMALL = 10  # the size of the letters at axes and vertices
TICK = 6
UNITS = Frame()  # those of the script
FONT = 'DejaVu Sans, Verdana, sans-serif'
# thousandths of the size of the font, in DejaVu Sans, which is one of the widest
WIDTHS = {sign: width for width, signs in {
    280: "'ijl", 300: 'IJ', 320: ' ,.', 340: '/:;\\|', 360: '-f', 400: '!()[]t', 420: 'r', 460: '"', 500: '*_`', 520: 's', 540: '?z',
    560: 'Lc', 580: 'Fk', 600: 'vxy', 620: 'PTYaeo', 640: '$0123456789ESbdghnpqu{}', 660: 'K', 700: 'ABCRVXZ', 740: 'U', 760: 'HN',
    780: '&DG', 800: 'OQ', 820: 'w', 840: '#+<=>^~', 880: 'M', 960: '%', 980: 'm',
}.items() for sign in signs}

Box = Tuple[float, float, float, float]  # left, top, right, bottom


class Page:
    """Where points of a panel come on the page, x to the right and y upward. The axes are in the units of a frame. Both have the same
    scale; if these units are longitude and latitude, x has as many pixels for a degree as a map at the middle latitude. `left` is where
    the panel begins, `top` its upper edge, and `apart` how far the axes are from its box."""

    def __init__(self, points: Sequence[Point], frame: Optional[Frame] = None, geographic: bool = False):
        xs, ys = zip(*(points or [(0, 0)]))
        self.frame = frame or UNITS
        self.low, self.high = (min(xs), min(ys)), (max(xs), max(ys))
        (left, low), (right, high) = self.frame.back(self.low), self.frame.back(self.high)
        aspect = Fraction(max(10, round(1000 * math.cos(math.radians((low + high) / 2)))), 1000) if geographic else Fraction(1)
        scale = SIDE / (max((right - left) * aspect, high - low) * self.frame.scale or Fraction(1))
        self.scale = (scale * aspect, scale)
        self.width = scaled(self.high[0] - self.low[0], self.scale[0])
        self.left, self.top, self.apart = 0.0, 0.0, 0.0
        self.taken: list[Box] = []  # by labels

    def x(self, value: Exact) -> float:
        return scaled(value - self.low[0], self.scale[0]) + self.left

    def y(self, value: Exact) -> float:
        return scaled(self.high[1] - value, self.scale[1]) + self.top

    @property
    def bottom(self) -> float:
        return self.y(self.low[1])

    def at(self, points: Sequence[Point]) -> str:
        return ' '.join(f'{short(self.x(x))},{short(self.y(y))}' for x, y in points)

    def line(self, kind: str, points: Sequence[Point], colour: str, more: str = '') -> str:
        return f'<polyline class="{kind}" points="{self.at(points)}" stroke="{colour}"{more}/>'

    def area(self, kind: str, points: Sequence[Point], colour: str = 'none', more: str = '') -> str:
        return f'<polygon class="{kind}" points="{self.at(points)}" fill="{colour}"{more}/>'

    def dot(self, point: Point, colour: str, is_hollow: bool = False, radius: float = 4) -> str:
        x, y = short(self.x(point[0])), short(self.y(point[1]))
        fill = 'white' if is_hollow else colour
        edge = f'stroke="{colour}" stroke-width="{short(min(1.5, radius / 2))}"'
        return f'<circle cx="{x}" cy="{y}" r="{short(radius)}" fill="{fill}" {edge}/>'

    def lines(self, kind: str, parts: Sequence[Sequence[Point]], colour: str, more: str = '') -> str:
        """Returns many lines as one path. A line that begins where the one before ends continues it."""
        drawn, last = [], None
        for first, *rest in parts:
            drawn += ([] if first == last else [f'M{self.at([first])}']) + [f'L{self.at([point])}' for point in rest]
            last = rest[-1] if rest else first
        return f'<path class="{kind}" d="{"".join(drawn)}" stroke="{colour}"{more}/>'

    def net(self, kind: str, parts: Sequence[Sequence[Point]], colour: str, most: float) -> str:
        """Returns many lines as one path, so fine that what is under them stays visible."""
        ends = [[(self.x(x), self.y(y)) for x, y in part] for part in parts]
        long = sum(math.dist(a, b) for part in ends for a, b in zip(part, part[1:]))
        fine = max(0.01, 0.2 * self.width * (self.bottom - self.top) / long) if long else most
        return self.lines(kind, parts, colour, f' style="stroke-width: {fine:.2g}"' if fine < most else '')

    def dots(self, points: Sequence[Point], colour: str, radius: float) -> list[str]:
        at = (f'<circle cx="{short(self.x(x))}" cy="{short(self.y(y))}" r="{short(radius)}"/>' for x, y in points)
        return [f'<g fill="{colour}">', *at, '</g>']

    def marks(self, points: Sequence[Point], mark: str, colour: str, thick: float) -> list[str]:
        """Returns the same mark at many points as one path."""
        drawn = ''.join(f'M{self.at([point])}{mark}' for point in points)
        return [f'<path stroke="{colour}" stroke-width="{thick:.1f}" stroke-linecap="round" d="{drawn}"/>'] if drawn else []

    def cross(self, point: Point, colour: str, radius: float = 4) -> str:
        x, y, r = short(self.x(point[0])), short(self.y(point[1])), short(radius)
        return f'<path transform="translate({x} {y})" d="M-{r}-{r}L{r} {r}M-{r} {r}L{r}-{r}" stroke="{colour}" stroke-width="2"/>'

    def place(self, label: str, corners: Sequence[Tuple[float, float]]) -> Optional[Tuple[float, float]]:
        """Returns the first of some places for the lower left corner of a label at which it meets no other label, or None."""
        for x, y in corners:
            box = (x - 1, y - SMALL, x + width(label, SMALL) + 1, y)
            if not any(box[0] < it[2] and it[0] < box[2] and box[1] < it[3] and it[1] < box[3] for it in self.taken):
                self.taken.append(box)
                return x, y
        return None

    def number(self, point: Point, label: str, away: Tuple[float, float] = (1, -1), ring: Sequence[Point] = ()) -> list[str]:
        """Returns a label at a point: on the side to which `away` points, or on another one if it would meet a label there; preferably
        where it meets no edge of a ring and is at no other vertex; or nowhere."""
        x, y, long = self.x(point[0]), self.y(point[1]), width(label, SMALL)
        sides = [(x + 5, y - 4), (x - 5 - long, y - 4), (x + 5, y + 12), (x - 5 - long, y + 12)]
        edges = [(self.x(a[0]), self.y(a[1]), self.x(b[0]), self.y(b[1])) for a, b in zip(ring, [*ring[1:], *ring[:1]])]

        def order(side: Tuple[float, float]) -> Tuple[int, float]:
            box, centre = (side[0], side[1] - SMALL, side[0] + long, side[1]), (side[0] + long / 2, side[1] - SMALL / 2)
            near = math.dist(centre, (x, y)) - 1
            faults = any(enters(edge, box) for edge in edges) + any(math.dist(centre, edge[:2]) < near for edge in edges)
            return faults, -(centre[0] - x) * away[0] - (centre[1] - y) * away[1]

        found = self.place(label, sorted(sides, key=order))
        return [f'<text class="number" x="{short(found[0])}" y="{short(found[1])}">{label}</text>'] if found else []

    def ticks(self, axis: int) -> list[Tuple[Fraction, str]]:
        """Returns as many round numbers of an axis as have room: their places in the units of the script, and their texts."""
        low, high = self.frame.back(self.low)[axis], self.frame.back(self.high)[axis]
        for most in range(8, 0, -1):
            values = round_numbers(low, high, self.frame is UNITS, most)
            long = [width(text(value), SMALL) if axis == 0 else SMALL for value in values]
            if len(values) < 2 or max(long) + 4 <= scaled((values[1] - values[0]) * self.frame.scale, self.scale[axis]):
                break
        return [((value - self.frame.origin[axis]) * self.frame.scale, text(value)) for value in values]

    def margins(self) -> Tuple[float, float]:
        """Returns how much room the axes need on the left and on the right."""
        below, side = (max((width(label, SMALL) for _, label in self.ticks(axis)), default=0) for axis in range(2))
        return max(side + TICK + 3 + self.apart, below / 2), below / 2

    def axes(self) -> list[str]:
        """Returns both axes. Their labels take their places before those of vertices."""
        lines = []
        for axis, tick, anchor in ((0, 'v', 'middle'), (1, 'h-', 'end')):
            for value, label in self.ticks(axis):
                x, y = (self.left - self.apart, self.y(value)) if axis else (self.x(value), self.bottom + self.apart)
                lines.append(f'<path d="M{short(x)} {short(y)}{tick}{TICK}"/>')
                x, y = (x - TICK - 3, y + 4) if axis else (x, y + 18)
                if self.place(label, [(x - width(label, SMALL) / (2 - axis), y)]):
                    lines.append(f'<text x="{short(x)}" y="{short(y)}" text-anchor="{anchor}">{label}</text>')
        return ['<g class="axis">', *lines, '</g>']


def scaled(length: Exact, scale: Fraction) -> float:
    """Returns a length on the page, as the nearest float; integers are faster than fractions."""
    return float(length * scale.numerator / scale.denominator)


def short(value: float) -> str:
    """Returns a number with one digit after the point if it has some."""
    return f'{value:.1f}'.removesuffix('.0')


def round_numbers(low: Fraction, high: Fraction, is_whole: bool, most: int) -> list[Fraction]:
    """Returns round numbers from one to another, with at most so many steps."""
    if low == high:
        return [low]
    unit = Fraction(10) ** (math.floor(math.log10(high - low)) - 2)
    step = next(it for k in range(5) for it in (unit * 10**k, 2 * unit * 10**k, 5 * unit * 10**k) if it * most >= high - low)
    step = max(step, Fraction(is_whole))
    first = math.ceil(low / step) * step
    return [first + k * step for k in range(math.floor((high - first) / step) + 1)]


def width(text: str, size: float) -> float:
    """Returns how wide a text is at most."""
    return sum(WIDTHS.get(sign, 1000) for sign in text) * size / 1000


def wrapped(text: str, size: float, room: float, most: int) -> list[str]:
    """Returns the lines of a text, broken after commas and blanks if possible, and cut if there are too many."""
    lines = ['']
    for piece in re.findall(r'[^, ]*[, ]|[^, ]+', text):
        if lines[-1] and width(lines[-1] + piece.rstrip(), size) > room:
            lines.append('')
        lines[-1] += piece
        while width(lines[-1].rstrip(), size) > room:
            head = fitting(lines[-1], size, room)
            lines[-1:] = [lines[-1][:head], lines[-1][head:]]
    if len(lines) > most:
        last = lines[most - 1].rstrip()
        lines[most - 1:] = [last[:fitting(last, size, room - width(' ..', size))] + ' ..']
    return [line.rstrip() for line in lines]


def fitting(text: str, size: float, room: float) -> int:
    """Returns how many signs of a text fit, at least one."""
    return next((count for count in range(1, len(text)) if width(text[:count + 1], size) > room), len(text))


def enters(edge: Box, box: Box) -> bool:
    """Returns whether a segment, from a point to another, has a point in a box."""
    x, y, dx, dy = edge[0], edge[1], edge[2] - edge[0], edge[3] - edge[1]
    first, last = 0.0, 1.0
    for step, far in ((-dx, x - box[0]), (dx, box[2] - x), (-dy, y - box[1]), (dy, box[3] - y)):
        if step == 0 and far < 0:
            return False
        if step < 0:
            first = max(first, far / step)
        elif step > 0:
            last = min(last, far / step)
    return first <= last


STYLE = f"""
 text {{ font: 12px {FONT}; fill: #333 }} .axis {{ stroke: #bbb }} .axis text, .number {{ font-size: {SMALL}px; fill: #777; stroke: none }}
 .number {{ paint-order: stroke; stroke: white; stroke-width: 2px; fill: #555 }}
 .ring {{ fill: #f4f1e8; stroke: #444; stroke-width: 1.5 }} .way {{ fill: none; stroke-width: 2.5; stroke-linejoin: round }}
 .branch {{ fill: none; stroke-width: 1.2 }} .sight {{ fill: none; stroke-width: .6 }} \
.part {{ fill: none; stroke-width: 4; stroke-linecap: round }}
 .seen {{ opacity: .18 }} .refused {{ fill: #b00020 }} .fine {{ stroke-width: .8 }} .title {{ font-weight: bold }}
"""
