"""Pictures of polygons with answers as SVG: those of a script, and those that notebooks show."""
from __future__ import annotations

import math
from bisect import bisect_right
from collections import Counter
from html import escape
from itertools import accumulate, islice
from typing import Callable, Iterator, Optional, Sequence, Tuple

from ..answers.about import About
from ..answers.answered import NOTHING, NUMBERED, SOURCE, Answer, Point, version
from ..answers.saved import Saved
from ..frame import Frame
from ..region import Region, swept
from .legend import Entry, answered, legend, shown
from .page import GAP, STYLE, Page, short

COLOURS = ('#0072b2', '#d55e00', '#009e73', '#cc79a7', '#e69f00', '#56b4e9', '#8c6d31')
GREY = '#444'
LABELLED = 60  # the most vertices that have their numbers
BELOW = {'polygon': 0, 'tree': 1, 'sights': 1, 'see': 2, 'kernel': 2, 'hull': 3}  # what is drawn first; the rest is drawn as 4
FINE = 300  # from so many vertices on the outline is a fine line
MOST = 20_000  # points of the answer in a notebook; the rest is left out


class Panel:
    """A polygon, and the answers about it, each with its entry in the legend. Before the first polygon of a script there is none. `vertex`
    returns the number that a vertex has in the data, and `touches` is whether paths have each vertex that they touch, as in version 2."""

    def __init__(self, ring: Sequence[Point], layers: Sequence[Tuple[Answer, Entry]], frame: Optional[Frame], geographic: bool, *,
                 title: str = '', touches: bool = False, vertex: Callable[[int], int] = int):
        self.ring, self.layers, self.title, self.touches, self.vertex = ring, layers, title, touches, vertex
        self.page = Page([*ring, *(point for answer, _ in layers for point in answer.asked)], frame, geographic)
        self.page.apart = 14 if len(ring) <= LABELLED else 4
        self.count = Counter(answer.word for answer, _ in layers)

    def drawn(self) -> Iterator[str]:
        """Returns the shapes of all that is drawn."""
        yield from self.page.axes() if self.ring else []
        for answer, entry in sorted(self.layers, key=lambda layer: BELOW.get(layer[0].word, 4)):
            yield from [] if entry.is_refused or answer.word == 'geo' else getattr(self, answer.word)(answer, entry.colour)
        yield from self.numbers() if len(self.ring) <= LABELLED else []

    def numbers(self) -> Iterator[str]:
        """Returns the numbers of the vertices, outside of the polygon if there is room."""
        ring, page = self.ring, self.page
        places = [complex(page.x(x), page.y(y)) for x, y in ring]
        steps = [(b - a) / (abs(b - a) or 1) for a, b in zip(places, places[1:] + places[:1])]
        for i, point in enumerate(ring):
            away = (steps[i - 1] + steps[i]) * (1j if swept(ring) > 0 else -1j)
            yield from page.number(point, str(self.vertex(i)), (away.real, away.imag), ring)

    def polygon(self, answer: Answer, colour: str) -> list[str]:
        fine = ' style="stroke-width: .8"' if len(self.ring) > FINE else ''
        return [self.page.area('ring', self.ring, '#f4f1e8', fine)]

    def inside(self, answer: Answer, colour: str) -> list[str]:
        point, place = answer.asked[0], answer.told[0]
        radius = max(1.2, min(4, 120 / self.count['inside']))
        return [self.page.dot(point, colour, place == 2, radius) if place else self.page.cross(point, colour, radius)]

    def places(self, answer: Answer, colour: str) -> list[str]:
        outside, inside, edge = ([p for p, it in zip(answer.asked, answer.told) if it == place] for place in range(3))
        r = round(max(1.2, min(4, 120 / (len(answer.asked) or 1))), 1)
        cross = f'm-{r}-{r}l{2 * r} {2 * r}m0-{2 * r}l-{2 * r} {2 * r}'
        dots = self.page.marks(inside + edge, 'h0', colour, 2 * r) + self.page.marks(edge, 'h0', 'white', r)
        return dots + self.page.marks(outside, cross, colour, r / 2)

    def check(self, answer: Answer, colour: str) -> list[str]:
        broken = [self.page.cross(answer.asked[k], colour) for k in answer.told[1:]]
        return [self.page.line('way', answer.asked, colour, ' stroke-dasharray="5 4"')] + broken

    def path(self, answer: Answer, colour: str) -> list[str]:
        points = answer.points
        ends = [self.page.dot(points[0], colour, True), self.page.dot(points[-1], colour)]
        return [self.page.line('way', points, colour), *self.touched(points, colour), *ends]

    reach = pair = path

    def touched(self, path: Sequence[Point], colour: str) -> list[str]:
        """Returns a small ring at each vertex that a path touches, in version 2."""
        return [self.page.dot(point, colour, True, 2) for point in path[1:-1]] if self.touches else []

    def paths(self, answer: Answer, colour: str) -> list[str]:
        return [self.page.net('branch', split(answer.points, answer.told), colour, 1.2)]

    def tree(self, answer: Answer, colour: str) -> list[str]:
        source = answer.asked[0]
        ways = [[p, source if before == SOURCE else self.ring[before]] for p, before in zip(self.ring, answer.told) if before != NOTHING]
        return [self.page.net('branch', ways, colour, 1.2), self.page.dot(source, colour, True)]

    def see(self, answer: Answer, colour: str) -> list[str]:
        seen = Region.of_walk(answer.corners)
        areas = [self.page.area('seen', ring, colour) for ring in seen.polygons]
        fine = ' style="stroke-width: 2"' if len(self.ring) > FINE else ''
        parts = self.page.lines('part', split(answer.corners, [2] * len(answer.told)), colour, fine)
        return [*areas, *(self.page.line('branch', spike, colour) for spike in seen.lines), parts, self.page.dot(answer.asked[0], colour)]

    def kernel(self, answer: Answer, colour: str) -> list[str]:
        corners = list(answer.corners)
        area = [self.page.area('seen', corners, colour)] if len(corners) > 2 else []
        return [*area, self.page.line('branch', corners + corners[:1], colour), *(self.page.dot(c, colour) for c in corners)]

    def hull(self, answer: Answer, colour: str) -> list[str]:
        sides = split(answer.points, answer.told[2::3])
        shapes = [self.page.line('way', side, colour) for side in sides] + [dot for side in sides for dot in self.touched(side, colour)]
        numbered = enumerate(answer.asked if self.count['hull'] == 1 else [])
        labels = [text for i, point in numbered for text in self.page.number(point, f'({i})', (1, 1))]
        return shapes + [self.page.dot(point, colour) for point in answer.asked] + labels

    def round(self, answer: Answer, colour: str) -> list[str]:
        return [self.page.dot(point, colour, i not in answer.told) for i, point in enumerate(answer.asked)]

    def guards(self, answer: Answer, colour: str) -> list[str]:
        """Returns dots at the guards, so small that they leave the outline visible between them."""
        points = [self.ring[i] for i in answer.told]
        places = [(self.page.x(x), self.page.y(y)) for x, y in points]
        apart = sorted(map(math.dist, places, places[1:] + places[:1]))
        return self.page.dots(points, colour, max(1.2, min(6, 0.4 * apart[len(apart) // 4])) if len(points) > 1 else 6)

    def sights(self, answer: Answer, colour: str) -> list[str]:
        return [self.page.net('sight', split([self.ring[i] for i in answer.told], [2] * (len(answer.told) // 2)), colour, 0.6)]


def split(points: Sequence[Point], lengths: Sequence[int]) -> list[list[Point]]:
    """Returns points as lists of these lengths."""
    rest = iter(points)
    return [list(islice(rest, length)) for length in lengths]


def of_script(found: Sequence[About], saved: Optional[Saved] = None) -> str:
    """Returns the picture of the answers to a script: a panel for each polygon, one below the other."""
    groups: list[list[About]] = [[]]
    for it in found:
        if it.is_ring:
            groups.append([])
        groups[-1].append(it)
    is_wide = version([it.row for it in found[:1]]) == 2
    if is_wide and len(groups[0]) == 1:  # the record `geo,2` goes with the first polygon
        groups[:2] = [[it for group in groups[:2] for it in group]]
    return composed([panel(group, saved, is_wide) for group in groups if group])


def panel(group: Sequence[About], saved: Optional[Saved], touches: bool) -> Panel:
    """Returns the panel of a polygon and the answers about it."""
    frame = saved.frame if saved else None
    colours = [GREY if it.row.word in ('geo', 'polygon') else COLOURS[k % len(COLOURS)] for k, it in enumerate(group, -1)]
    layers = [(it.row.answer, Entry(answered(it, frame), colour, it.row.is_refused)) for it, colour in zip(group, colours)]
    is_map = bool(saved and saved.geographic)
    for it in group:
        if it.is_ring:
            title = shown([it.known.name]) if it.known and it.known.name else ''
            return Panel(it.ring, layers, frame, is_map, title=title, touches=touches, vertex=it.vertex)
    return Panel([], layers, frame, is_map)


def svg(ring: Sequence[Point], answer: Answer, frame: Optional[Frame] = None, geographic: bool = False) -> str:
    """Returns the picture of a polygon and an answer about it, for notebooks. Its title says what it shows, and how much of an answer of
    more than 20,000 points it leaves out."""
    drawn, left_out = limited(answer)
    parts = [f'{len(ring):,} vertices'] + ([WORDS[answer.word](answer)] if answer.word in WORDS else [])
    layers = [(it, Entry(text, colour)) for it, text, colour in zip((Answer('polygon'), drawn), parts, (GREY, COLOURS[0]))]
    return composed([Panel(ring, layers, frame, geographic)], '; '.join(parts + [f'{left_out:,} left out'] * (left_out > 0)))


def limited(answer: Answer) -> Tuple[Answer, int]:
    """Returns an answer of at most so many points as a notebook shows, and how many places, paths or lines are left out."""
    fit = MOST // 2 if answer.word == 'tree' else MOST
    if answer.word == 'paths':
        fit = bisect_right(list(accumulate(answer.told)), MOST)
    asked = [] if answer.word in NUMBERED else answer.asked[:MOST]
    each = 2 if answer.word == 'sights' else 1
    return answer._replace(asked=asked, told=answer.told[:fit]), max(0, len(answer.told) - fit) // each


def many(count: int, word: str) -> str:
    return f'{count:,} {word}' + 's' * (count != 1)


# what a notebook calls an answer
WORDS: dict[str, Callable[[Answer], str]] = {
    **dict.fromkeys(('inside', 'places'), lambda it: many(len(it.told), 'place')),
    **dict.fromkeys(('path', 'reach', 'pair'), lambda it: f'a path of {many(len(it.points), "point")}'),
    'paths': lambda it: many(len(it.told), 'path'), 'tree': lambda it: 'a shortest path tree', 'see': lambda it: 'a visibility polygon',
    'check': lambda it: f'not a taut path, by point {it.told[1]}' if it.told[0] else 'a taut path',
    'kernel': lambda it: f'a kernel of {many(len(it.corners), "corner")}', 'hull': lambda it: 'a relative hull',
    'round': lambda it: f'{many(len(it.told), "point")} around a relative hull', 'guards': lambda it: many(len(it.told), 'guard'),
    'sights': lambda it: f'{many(len(it.told) // 2, "pair")} of vertices that see each other',
}


def composed(panels: Sequence[Panel], title: str = '') -> str:
    """Returns the picture of panels, one below the other, with their legends to the right."""
    outlined = [panel.page for panel in panels if panel.ring]
    sides = [page.margins() for page in outlined] or [(0.0, 0.0)]
    left = max(side for side, _ in sides) + 8
    right = left + max((page.width for page in outlined), default=-GAP) + max(GAP, max(side for _, side in sides) + 8)
    body, top, widest = [], 10.0, 0.0
    for panel in panels:
        page = panel.page
        page.left, page.top = left, top + GAP / 2
        lines, long, high = legend([entry for _, entry in panel.layers], panel.title)
        body += [*panel.drawn(), f'<g transform="translate({short(right)} {short(top)})">', *lines, '</g>']
        widest = max(widest, long)
        top = max(page.bottom + page.apart + GAP if panel.ring else top, top + high) + GAP / 2
    head = f'<svg xmlns="http://www.w3.org/2000/svg" width="{math.ceil(right + widest + 8)}" height="{math.ceil(top)}">'
    titles = [f'<title>{escape(title)}</title>'] if title else []
    return '\n'.join([head, *titles, f'<style>{STYLE}</style>', *body, '</svg>', ''])
