"""The pictures that notebooks show."""
from __future__ import annotations

import re
import unittest
from typing import Any, Callable, List, Optional, Tuple
from xml.etree import ElementTree

import geo_exact
from geo_exact import Frame, Session
from geo_exact.drawing import Answer, svg
from .rings import L

SVG = '{http://www.w3.org/2000/svg}'
BLUE = '#0072b2'
SOURCE, NOTHING = 0xffff_fffe, 0xffff_ffff
SQUARE = [(0, 0), (2, 0), (2, 2), (0, 2)]
VIEW = [(0, 0), (4, 0), (4, 0), (4, 2), (4, 2), (2, 2), (2, 2), (2, 2), (0, 3), (0, 0)]
HULL = [(4, 2), (2, 2), (2, 4), (2, 4), (1, 2), (1, 2), (2, 2), (4, 2)]

Spot = Tuple[float, float]
Shapes = List[Tuple[str, Any]]


class Pictures(unittest.TestCase):
    """Pictures of the L after each query, by its title, its shapes and the points that these are at."""

    def shapes(self, answer: Answer, frame: Optional[Frame] = None) -> Tuple[str, Shapes]:
        """Returns the title, and the kind and the points of each shape between the outline and the numbers of the vertices."""
        root = ElementTree.fromstring(svg(L, answer, frame))
        title, outline = root[0].text or '', next(it for it in root if it.get('class') == 'ring')
        (left, low), = self.points(outline)[:1]
        scale = max(left for left, _ in self.points(outline)) - left
        found: Shapes = []
        for shape in list(root)[list(root).index(outline) + 1:]:
            if shape.tag not in (f'{SVG}g', f'{SVG}text'):
                kind = 'hollow' if shape.get('fill') == 'white' else shape.get('class') or shape.tag[len(SVG):]
                found.append((kind, [(round(4 * (x - left) / scale, 1), round(4 * (low - y) / scale, 1)) for x, y in self.points(shape)]))
            elif shape.get('fill'):
                found.append(('dots', len(shape)))
        return title, found

    def points(self, shape: ElementTree.Element) -> List[Spot]:
        written = (shape.get('points') or shape.get('transform') or ' '.join(re.findall(r'[ML][\d.]+,[\d.]+', shape.get('d') or ''))
                   or f'{shape.get("cx")},{shape.get("cy")}')
        return [(float(x), float(y)) for x, y in re.findall(r'([\d.]+)[, ]([\d.]+)', written)]

    def test_each_query(self) -> None:
        ways = [((0, 0), (1, 1)), ((4, 1), (2, 2), (1, 4))]
        cases: List[Tuple[Answer, str, Shapes]] = [
            (Answer('inside', [(1, 1)], [1]), '1 place', [('circle', [(1, 1)])]),
            (Answer('inside', [(3, 2)], [2]), '1 place', [('hollow', [(3, 2)])]),
            (Answer('inside', [(3, 3)], [0]), '1 place', [('path', [(3, 3)])]),
            (Answer('places', [(1, 1), (3, 3), (1, 2), (3, 2)], b'\1\0\1\2'), '4 places', [
                ('path', [(1, 1), (1, 2), (3, 2)]), ('path', [(3, 2)]), ('path', [(3, 3)])]),
            (Answer('path', [(4, 1), (1, 4)], (), ways[1]), 'a path of 3 points', [
                ('way', [*ways[1]]), ('hollow', [(4, 1)]), ('circle', [(1, 4)])]),
            (Answer('pair', [(0, 2)], (), [(0, 0), (4, 2)]), 'a path of 2 points', [
                ('way', [(0, 0), (4, 2)]), ('hollow', [(0, 0)]), ('circle', [(4, 2)])]),
            (Answer('paths', (), [2, 3], [*ways[0], *ways[1]]), '2 paths', [('branch', [*ways[0], *ways[1]])]),
            (Answer('check', ways[1], [0]), 'a taut path', [('way', [*ways[1]])]),
            (Answer('check', [(4, 0), (2, 2), (0, 4)], [3, 1]), 'not a taut path, by point 1', [
                ('way', [(4, 0), (2, 2), (0, 4)]), ('path', [(2, 2)])]),
            (Answer('tree', [(0, 0)], [NOTHING, SOURCE, SOURCE, SOURCE, 3, SOURCE]), 'a shortest path tree', [
                ('branch', [(4, 0), (0, 0), (4, 2), (0, 0), (2, 2), (0, 0), (2, 4), (2, 2), (0, 4), (0, 0)]), ('hollow', [(0, 0)])]),
            (Answer('see', [(4, 1)], [0, 1, 2, 3, 5], (), VIEW), 'a visibility polygon', [
                ('seen', [(0, 0), (4, 0), (4, 2), (2, 2), (0, 3)]), ('part', [(0, 0), (4, 0), (4, 2), (2, 2), (2, 2), (0, 3), (0, 0)]),
                ('circle', [(4, 1)])]),
            (Answer('kernel', (), (), (), SQUARE), 'a kernel of 4 corners', [
                ('seen', SQUARE), ('branch', [*SQUARE, (0, 0)]), *(('circle', [corner]) for corner in SQUARE)]),
            (Answer('kernel'), 'a kernel of 0 corners', [('branch', [])]),
            (Answer('hull', [(4, 2), (2, 4), (1, 2)], [0, 1, 3, 1, 2, 2, 2, 0, 3], HULL), 'a relative hull', [
                ('way', HULL[:3]), ('way', HULL[3:5]), ('way', HULL[5:]), *(('circle', [point]) for point in [(4, 2), (2, 4), (1, 2)])]),
            (Answer('round', [(0, 0), (1, 1), (2, 4)], [0, 2]), '2 points around a relative hull', [
                ('circle', [(0, 0)]), ('hollow', [(1, 1)]), ('circle', [(2, 4)])]),
            (Answer('guards', (), [3]), '1 guard', [('dots', 1)]),
            (Answer('sights', (), [0, 1, 1, 2]), '2 pairs of vertices that see each other', [('sight', [(0, 0), (4, 0), (4, 2)])]),
        ]
        for answer, words, shapes in cases:
            self.assertEqual(self.shapes(answer), (f'6 vertices; {words}', shapes), answer.word)
        self.assertEqual(self.shapes(Answer('')), ('6 vertices', []))

    def test_axes_and_legend(self) -> None:
        found = svg(L, Answer('guards', (), [3]))
        for text in ('>6 vertices<', '>1 guard<', '>4</text>', f'fill="{BLUE}"'):
            self.assertIn(text, found)
        framed = svg(L, Answer('guards', (), [3]), Frame((8, 49), 10))
        self.assertTrue('>8.4</text>' in framed and '>49.4</text>' in framed, framed)
        self.assertEqual(self.shapes(Answer('guards', (), [3]), Frame((8, 49), 10)), self.shapes(Answer('guards', (), [3])))

    def test_points_outside_are_on_the_page(self) -> None:
        root = ElementTree.fromstring(svg(L, Answer('places', [(-4, -4), (1, 1)], b'\0\1')))
        outline = next(it for it in root if it.get('class') == 'ring')
        self.assertEqual(max(x for x, _ in self.points(outline)) - self.points(outline)[0][0], 220)

    def test_longitude_and_latitude(self) -> None:
        square = [(0, 0), (200, 0), (200, 200), (0, 200)]
        for geographic, wide in ((False, 440), (True, 220)):
            root = ElementTree.fromstring(svg(square, Answer('guards', (), [0]), Frame((8, 59), 100), geographic))
            xs = [x for x, _ in self.points(next(it for it in root if it.get('class') == 'ring'))]
            self.assertAlmostEqual(max(xs) - min(xs), wide)

    def test_what_is_left_out(self) -> None:
        cases: List[Tuple[Answer, str, int]] = [
            (Answer('places', [(1, 1)] * 20_000, bytes(20_001)), '20,001 places; 1 left out', 20_000),
            (Answer('places', [(1, 1)] * 20_000, bytes(20_000)), '20,000 places', 20_000),
            (Answer('paths', (), [3] * 7_000, [(4, 1), (2, 2), (1, 4)] * 6_667), '7,000 paths; 334 left out', 3 * 6_666),
            (Answer('paths', (), [2] * 10_001, [(0, 0), (1, 1)] * 10_001), '10,001 paths; 1 left out', 20_000),
            (Answer('sights', (), [0, 1] * 10_003), '10,003 pairs of vertices that see each other; 3 left out', 20_000),
        ]
        for answer, words, count in cases:
            title, shapes = self.shapes(answer)
            self.assertEqual((title, [len(points) for _, points in shapes]), (f'6 vertices; {words}', [count]))


class Sessions(unittest.TestCase):
    """The pictures that sessions hand over."""

    def test_each_query(self) -> None:
        cases: List[Tuple[Callable[[Session], Any], str]] = [
            (lambda it: it.places([(1, 1), (3, 3)]), '2 places'), (lambda it: it.pair(2, 4), 'a path of 3 points'),
            (lambda it: (it.tree((4, 1)), it.reach((1, 4))), 'a path of 3 points'), (lambda it: it.tree((2, 2)), 'a shortest path tree'),
            (lambda it: it.paths([((4, 1), (1, 4)), ((0, 0), (1, 1))]), '2 paths'),
            (lambda it: it.view_polygon((4, 1)), 'a visibility polygon'), (lambda it: it.kernel(), 'a kernel of 4 corners'),
            (lambda it: it.check([(4, 0), (2, 2), (0, 4)]), 'not a taut path, by point 1'),
            (lambda it: it.hull_polygon([(4, 2), (2, 4), (1, 2)]), 'a relative hull'), (lambda it: it.guards(), '1 guard'),
            (lambda it: it.round([(0, 0), (1, 1), (2, 4), (4, 2)]), '3 points around a relative hull'),
            (lambda it: it.sights(), '12 pairs of vertices that see each other'),
        ]
        for ask, words in cases:
            with Session(L) as session:
                ask(session)
                self.assertIn(f'<title>6 vertices; {words}</title>', session._repr_svg_() or '')

    def test_what_is_no_answer(self) -> None:
        with Session() as session:
            self.assertIsNone(session._repr_svg_())
            session.polygon(L)
            session.path((4, 1), (1, 4))
            self.assertRaises(geo_exact.Outside, session.path, (4, 1), (3, 3))
            self.assertIn('<title>6 vertices</title>', session._repr_svg_() or '')
            session.see((1, 1))
            session.answer('inside,1,1')
            self.assertIn('<title>6 vertices</title>', session._repr_svg_() or '')
            session.answer('polygon,0,0,4,0,0,4')
            self.assertIsNone(session._repr_svg_())
            session.polygon(L)
        self.assertIsNone(session._repr_svg_())

    def test_frames(self) -> None:
        with Session([(x / 10, y / 10) for x, y in L], frame=Frame(scale=10)) as session:
            session.path((0.4, 0.1), (0.1, 0.4))
            self.assertIn('>0.4</text>', session._repr_svg_() or '')
