"""Regions: visibility polygons, kernels and relative hulls."""
from __future__ import annotations

import importlib
import random
import struct
import unittest
from fractions import Fraction
from typing import Any, List, Sequence, Tuple

import geo_exact as geo
from geo_exact import Frame, Place, Region, Session
from .rings import L, geojson, shapely, some, strip

wkt: Any = shapely and importlib.import_module('shapely.wkt')
wkb: Any = shapely and importlib.import_module('shapely.wkb')

SQUARE = [(0, 0), (4, 0), (4, 4), (0, 4)]
ROOMS = [(0, 0), (2, 0), (2, 1), (4, 1), (4, 2), (1, 2), (1, 1), (0, 1)]
U = [(0, 0), (6, 0), (6, 4), (4, 4), (4, 2), (2, 2), (2, 4), (0, 4)]
NOTCHED = [(9, -6), (9, -1), (0, 0), (9, 1), (9, 6), (-1, 6), (-1, -6)]
NOTCHED_TWICE = [(9, -6), (9, -1), (0, 0), (9, 1), (9, 5), (0, 6), (9, 7), (9, 12), (-1, 12), (-1, -6)]
PINWHEEL = [(2, 0), (4, 0), (-2, 2), (-4, 4), (-2, -2), (-4, -4)]
ZIGZAG = [(0, 0), (4, 6), (8, 0), (12, 6), (12, 8), (8, 2), (4, 8), (0, 2)]

Ring = Sequence[Tuple[int, int]]
Parts = List[Any]


class Regions(unittest.TestCase):
    """Regions of small polygons, worked out by hand."""

    def is_region(self, region: Region, polygons: Parts, lines: Parts, points: Parts, area: Any) -> None:
        self.assertEqual((region.polygons, region.lines, region.points, region.area), (polygons, lines, points, area))

    def test_views(self) -> None:
        window = [(0, 0), (5, 0), (5, 2), (3, 2), (3, 5), (0, 5)]
        cases: List[Any] = [
            (SQUARE, (2, 2), [SQUARE], [], 16),
            (L, (4, 1), [[(0, 0), (4, 0), (4, 2), (2, 2), (0, 3)]], [], 9),
            (L, (1, 4), [[(0, 0), (3, 0), (2, 2), (2, 4), (0, 4)]], [], 9),
            (L, (2, 2), [L], [], 12),
            (L, (4, 2), [[(0, 0), (4, 0), (4, 2), (0, 2)]], [], 8),
            (window, (5, 1), [[(0, 0), (5, 0), (5, 2), (3, 2), (0, Fraction(7, 2))]], [], Fraction(49, 4)),
            (ROOMS, (0, 1), [[(0, 0), (2, 0), (2, 1), (0, 1)]], [[(2, 1), (4, 1)]], 2),
            (ROOMS, (4, 1), [[(1, 1), (4, 1), (4, 2), (1, 2)]], [[(0, 1), (1, 1)]], 3),
        ]
        for ring, point, polygons, lines, area in cases:
            for given in ring, ring[::-1], ring[3:] + ring[:3]:
                with Session(given) as session:
                    self.is_region(session.view_polygon(point), polygons, lines, [], area)

    def test_kernels(self) -> None:
        cases: List[Any] = [
            (L, [[(0, 0), (2, 0), (2, 2), (0, 2)]], [], [], 4),
            (ROOMS, [], [[(1, 1), (2, 1)]], [], 0),
            (PINWHEEL, [], [], [(0, 0)], 0),
            (U, [], [], [], 0),
            ([(0, 0), (6, 0), (3, 1), (0, 5)], [[(0, 0), (Fraction(15, 4), 0), (3, 1), (0, 2)]], [], [], Fraction(39, 8)),
        ]
        for ring, polygons, lines, points, area in cases:
            for given in ring, ring[::-1]:
                with Session(given) as session:
                    self.is_region(session.kernel_polygon(), polygons, lines, points, area)

    def test_hulls(self) -> None:
        ends = [[(0, 0), (4, 6), (0, 2)], [(8, 2), (12, 6), (12, 8)]]
        lobes = [[(0, -5), (5, -5), (0, 0)], [(0, 0), (5, 3), (0, 6)], [(0, 6), (5, 11), (0, 11)]]
        mirrored = [[(-5, -5), (0, -5), (0, 0)], [(-5, 3), (0, 0), (0, 6)], [(-5, 11), (0, 6), (0, 11)]]
        cases: List[Any] = [
            (L, [(1, 1)], [], [], [(1, 1)], 0),
            (L, [(1, 1), (1, 1)], [], [], [(1, 1)], 0),
            (L, [(4, 0), (0, 0)], [], [[(0, 0), (4, 0)]], [], 0),
            (L, [(4, 2), (2, 4)], [], [[(2, 4), (2, 2), (4, 2)]], [], 0),
            (L, [(3, 0), (0, 0), (1, 0), (3, 0)], [], [[(0, 0), (3, 0)]], [], 0),
            (L, [(4, 2), (2, 4), (1, 2)], [[(1, 2), (2, 2), (2, 4)]], [[(2, 2), (4, 2)]], [], 1),
            (L, [(4, 2), (2, 4), (0, 0), (1, 1)], [[(0, 0), (4, 2), (2, 2), (2, 4)]], [], [], 4),
            (ZIGZAG, [(12, 8), (0, 0), (0, 2), (12, 6)], ends, [[(4, 6), (8, 2)]], [], 8),
            (ZIGZAG, [(12, 8), (0, 0), (0, 2)], ends[:1], [[(4, 6), (8, 2), (12, 8)]], [], 4),
            (NOTCHED, [(0, -5), (5, -5), (5, 5), (0, 5)], [[(0, -5), (5, -5), (0, 0)], [(0, 0), (5, 5), (0, 5)]], [], [], 25),
            (NOTCHED_TWICE, [(0, -5), (5, -5), (5, 3), (5, 11), (0, 11)], lobes, [], [], 40),
            ([(-x, y) for x, y in NOTCHED_TWICE], [(0, -5), (-5, -5), (-5, 3), (-5, 11), (0, 11)], mirrored, [], [], 40),
        ]
        for ring, asked, polygons, lines, points, area in cases:
            for wide in False, True:
                for given in ring, ring[::-1]:
                    with Session(given, wide=wide) as session:
                        self.is_region(session.hull_polygon(asked), polygons, lines, points, area)

    def test_after_text(self) -> None:
        with Session() as session:
            session.answer('polygon,' + ','.join(f'{x},{y}' for x, y in NOTCHED))
            self.assertEqual(session.hull_polygon([(0, -5), (5, -5), (5, 5), (0, 5)]).area, 25)

    def test_refusals(self) -> None:
        with Session() as session:
            for ask in (lambda: session.view_polygon((1, 1))), session.kernel_polygon, (lambda: session.hull_polygon([(1, 1)])):
                self.assertRaises(geo.NoPolygon, ask)
            session.polygon(L)
            self.assertRaises(geo.Outside, session.view_polygon, (3, 3))
            self.assertRaises(geo.Outside, session.hull_polygon, [(1, 1), (3, 3)])
            self.assertRaises(geo.Few, session.hull_polygon, [])
            self.assertRaises(geo.Range, session.hull_polygon, [(1_000_001, 1)])
            self.assertRaises(geo.NotWhole, session.view_polygon, (0.5, 1))

    def test_frames(self) -> None:
        ring = [(100 + x / 10, 20 + y / 10) for x, y in L]
        polygon = [(100.0, 20.0), (100.4, 20.0), (100.4, 20.2), (100.2, 20.2), (100.0, 20.3)]
        with Session(ring, frame=Frame((100, 20), 10)) as session:
            self.is_region(session.view_polygon((100.4, 20.1)), [polygon], [], [], 0.09)
            line = [(100.2, 20.4), (100.2, 20.2), (100.4, 20.2)]
            self.is_region(session.hull_polygon([(100.4, 20.2), (100.2, 20.4)]), [], [line], [], 0.0)
            self.is_region(session.hull_polygon([(100.1, 20.1)]), [], [], [(100.1, 20.1)], 0.0)
        with Session(ring, frame=Frame((100, 20), 10, exact=True)) as session:
            square = [(100 + Fraction(x, 20), 20 + Fraction(y, 20)) for x, y in SQUARE]
            self.is_region(session.kernel_polygon(), [square], [], [], Fraction(4, 100))


class Walks(unittest.TestCase):
    """Regions from closed walks, wherever they begin."""

    def is_same(self, walk: List[Tuple[int, int]], polygons: Parts, lines: Parts, points: Sequence[Any] = ()) -> None:
        for k in range(len(walk)):
            for turned in walk[k:] + walk[:k], (walk[k:] + walk[:k])[::-1]:
                region = Region.of_walk(turned)
                self.assertEqual((region.polygons, region.lines, region.points), (polygons, lines, list(points)), turned)

    def test_spikes(self) -> None:
        self.is_same([(0, 0), (4, 0), (4, 2), (9, 2), (4, 2), (4, 4), (0, 4)], [SQUARE], [[(4, 2), (9, 2)]])
        self.is_same([(0, 0), (4, 0), (7, 0), (9, 0), (8, 0), (4, 0), (4, 4), (0, 4)], [SQUARE], [[(4, 0), (9, 0)]])
        self.is_same([(0, 0), (4, 0), (4, 9), (4, 4), (0, 4)], [SQUARE], [[(4, 4), (4, 9)]])
        self.is_same([(0, 0), (4, 0), (9, 0), (9, 3), (9, 0), (4, 0), (4, 4), (0, 4)], [SQUARE], [[(4, 0), (9, 0), (9, 3)]])

    def test_lines_part_at_corners(self) -> None:
        self.is_same([(0, 0), (4, 0), (4, 4), (9, 4), (4, 4), (4, 9), (4, 4), (0, 4)], [SQUARE], [[(4, 4), (4, 9)], [(4, 4), (9, 4)]])

    def test_loops(self) -> None:
        self.is_same([(0, 0), (2, 1), (0, 2), (0, 0), (-2, -1), (0, -2)], [[(-2, -1), (0, -2), (0, 0)], [(0, 0), (2, 1), (0, 2)]], [])
        around = [(0, 0), (1, 0), (5, 0), (7, -1), (7, 1), (5, 0), (2, 0), (0, 3)]
        self.is_same(around, [[(0, 0), (2, 0), (0, 3)], [(5, 0), (7, -1), (7, 1)]], [[(2, 0), (5, 0)]])
        self.is_same([(0, 0), (3, 0), (5, -1), (5, 1), (3, 0), (1, 0)], [[(3, 0), (5, -1), (5, 1)]], [[(0, 0), (3, 0)]])
        round_a_hole = Region.of_walk([(0, 0), (4, 0), (2, 1), (0, 0), (2, -3), (4, 0), (2, -1)])
        self.assertEqual(round_a_hole.polygons, [[(0, 0), (2, -3), (4, 0), (2, -1)], [(0, 0), (4, 0), (2, 1)]])

    def test_lines(self) -> None:
        self.is_same([(0, 0), (1, 2), (0, 0), (3, 0), (0, 0), (-1, -1)], [], [[(-1, -1), (0, 0)], [(0, 0), (1, 2)], [(0, 0), (3, 0)]])
        self.is_same([(0, 0), (1, 1), (3, 3), (2, 2)], [], [[(0, 0), (3, 3)]])
        self.is_same([(0, 0), (0, 0), (5, 1), (5, 1), (7, 7), (5, 1)], [], [[(0, 0), (5, 1), (7, 7)]])
        self.is_same([(2, 2), (2, 2), (2, 2)], [], [], [(2, 2)])
        self.assertEqual(Region.of_walk([]), Region())

    def test_straight_corners_are_left_out(self) -> None:
        self.is_same([(0, 0), (1, 0), (4, 0), (4, 4), (0, 4), (0, 3), (0, 1)], [SQUARE], [])


class Shapes(unittest.TestCase):
    """Regions as values, and in GeoJSON."""

    def test_values(self) -> None:
        square = Region.of_walk(SQUARE)
        self.assertEqual(square, Region.of_walk([(4, 2), (4, 0), (0, 0), (0, 4), (4, 4)]))
        self.assertNotEqual(square, Region.of_walk(SQUARE[:3]))
        self.assertNotEqual(square, Region.of_walk([*SQUARE, (-1, 4), (0, 4)]))
        self.assertNotEqual(square, SQUARE)
        self.assertNotEqual(Region.of_walk([(1, 2)]), Region.of_walk([(1, 3)]))
        self.assertTrue(square and Region.of_walk(SQUARE[:2]) and Region.of_walk(SQUARE[:1]))
        self.assertFalse(Region())
        self.assertEqual(repr(square), '<Region: a polygon of 4 vertices>')
        self.assertEqual(repr(Region()), '<Region: empty>')
        self.assertEqual(repr(Region.of_walk([(1, 2)])), '<Region: the point (1, 2)>')
        star = [point for k in range(5) for point in [(0, 0), (k, 9 - k)]]
        self.assertEqual(repr(Region.of_walk(star)), '<Region: a line of 2 points, a line of 2 points, a line of 2 points, 2 more>')

    def test_geojson_wkt_and_wkb(self) -> None:
        closed = [*SQUARE, SQUARE[0]]
        line, ends = [(0, 0), (1, 2), (3, 0)], [(-1, -1), (1, 2), (3, 0)]
        lobes = [[(-2, -1), (0, -2), (0, 0)], [(0, 0), (2, 1), (0, 2)]]
        cases: List[Any] = [
            (SQUARE, geojson('Polygon', [closed])),
            ([*lobes[0], *lobes[1], (0, 0)], geojson('MultiPolygon', [[[*lobe, lobe[0]]] for lobe in lobes])),
            (line, geojson('Polygon', [[(0, 0), (3, 0), (1, 2), (0, 0)]])),
            (line[:2], geojson('LineString', [(0, 0), (1, 2)])),
            ([*line, (1, 2)], geojson('LineString', line)),
            ([point for tip in ends for point in ((0, 0), tip)], geojson('MultiLineString', [sorted([(0, 0), tip]) for tip in ends])),
            ([(1, 2)], geojson('Point', (1, 2))),
            ([*SQUARE[:3], (9, 4), *SQUARE[2:]], {
                'type': 'GeometryCollection', 'geometries': [geojson('Polygon', [closed]), geojson('LineString', [(4, 4), (9, 4)])]}),
            ([], geojson('Polygon', [])),
        ]
        for walk, shape in cases:
            region = Region.of_walk([(Fraction(x), Fraction(y)) for x, y in walk])
            self.assertEqual(region.__geo_interface__, shape)
            if wkb:
                self.assertEqual(shapely.mapping(wkb.loads(region.wkb)), shapely.mapping(shapely.shape(region)))
                self.assertTrue(wkt.loads(region.wkt).equals(shapely.shape(region)) or not region)
                found = shapely.shape(region)
                self.assertTrue(found.is_valid, walk)
                self.assertEqual((type(found), found.area, found.is_empty), (getattr(shapely, shape['type']), region.area, not region))
        third, two = Region.of_walk([(Fraction(1, 3), 2)]), Region(points=[(0, 0), (1, 2)])
        self.assertEqual(third.__geo_interface__, geojson('Point', (1 / 3, 2.0)))
        self.assertEqual(third.wkb, struct.pack('<BIdd', 1, 1, 1 / 3, 2))
        self.assertEqual(geojson('MultiPoint', [(0, 0), (1, 2)]), two.__geo_interface__)
        self.assertEqual(two.wkb, struct.pack('<BIIBIddBIdd', 1, 4, 2, 1, 1, 0, 0, 1, 1, 1, 2))
        mixed = Region(polygons=[SQUARE], lines=[[(4, 4), (Fraction(19, 2), 4)], [(4, 4), (4, 9)]])
        self.assertEqual([it.wkt for it in (third, two, mixed, Region())], [
            'POINT (0.3333333333333333 2)', 'MULTIPOINT ((0 0), (1 2))', 'GEOMETRYCOLLECTION (POLYGON ((0 0, 4 0, 4 4, 0 4, 0 0)), '
            'MULTILINESTRING ((4 4, 9.5 4), (4 4, 4 9)))', 'POLYGON EMPTY'])


class Strips(unittest.TestCase):
    """Regions of random strips, against what else tells the same."""

    def questions(self, draw: random.Random, ring: Ring, session: Session) -> List[Tuple[int, int]]:
        return [point for point in some(draw, list(ring), 12) if session.inside(point) is not Place.OUTSIDE]

    def test_views(self) -> None:
        for seed in range(40):
            draw = random.Random(seed)
            ring = strip(draw)
            with Session(ring if seed % 2 else ring[::-1], wide=seed % 3 == 0) as session:
                for q in self.questions(draw, ring, session):
                    region = session.view_polygon(q)
                    sum_of_triangles = sum(abs(double_area(q, part.first, part.last)) for part in session.see(q)) / 2
                    self.assertEqual((region.area, len(region.polygons), region.points), (sum_of_triangles, 1, []), (seed, q))

    def test_hulls(self) -> None:
        is_parted = 0
        for seed in range(80):
            draw = random.Random(seed)
            ring = strip(draw)
            with Session(ring) as narrow, Session(ring[::-1], wide=True) as wide:
                asked = self.questions(draw, ring, narrow)[:8]
                if not asked:
                    continue
                region = narrow.hull_polygon(asked)
                self.assertEqual(region, wide.hull_polygon(asked), (seed, asked))
                paths = {side.start: side.path for side in narrow.hull(asked)}
                walk = [point for start in narrow.round(asked) for point in paths[start][:-1]]
                self.assertEqual(region.area, sum((double_area((0, 0), a, b) for a, b in zip(walk, walk[1:] + walk[:1])), Fraction(0)) / 2)
                is_parted += len(region.polygons) + len(region.lines) > 1
        self.assertGreater(is_parted, 4)

    @unittest.skipIf(shapely is None, 'without Shapely')
    def test_shapely(self) -> None:
        for seed in range(40):
            draw = random.Random(seed)
            ring = strip(draw)
            polygon = shapely.Polygon(ring)
            with Session(ring) as session:
                asked = self.questions(draw, ring, session)
                views = [shapely.shape(session.view_polygon(q)) for q in asked]
                hull = shapely.shape(session.hull_polygon(asked[:8])) if asked else shapely.Polygon()
                for found in [*views, hull]:
                    self.assertTrue(found.is_valid, seed)
                    self.assertLess(found.difference(polygon.buffer(1e-9)).length, 1e-6, seed)
                for q in asked[:8]:
                    self.assertLess(hull.distance(shapely.Point(q)), 1e-9, seed)
                seen_by_all = polygon
                for vertex in ring:
                    seen_by_all = seen_by_all.intersection(shapely.shape(session.view_polygon(vertex)).buffer(0))
                self.assertAlmostEqual(seen_by_all.area, float(session.kernel_polygon().area), 6, str(seed))


def double_area(a: Any, b: Any, c: Any) -> Fraction:
    """Twice the area of a triangle, above 0 where it turns to the left."""
    return Fraction((b[0] - a[0]) * (c[1] - a[1]) - (b[1] - a[1]) * (c[0] - a[0]))
