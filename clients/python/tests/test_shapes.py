"""Points, lists and rings in other forms than pairs of integers."""
from __future__ import annotations

import json
import pickle
import struct
import unittest
from decimal import Decimal
from fractions import Fraction
from typing import Any, Callable, List, Tuple, Type

import geo_exact as geo
from geo_exact import Frame, Place, Session
from .rings import L, Shape, comb, geojson, numpy, shapely


def wkb(kind: int, coordinates: Any, order: str = '<', srid: int = 0) -> bytes:
    """A Point or a Polygon as WKB, or as EWKB with an SRID."""
    head = struct.pack(order + 'BI', order == '<', kind + (srid and 0x2000_0000)) + (struct.pack(order + 'I', srid) if srid else b'')
    if kind == 1:
        return head + struct.pack(order + '2d', *coordinates)
    rings = (struct.pack(f'{order}I{2 * len(ring)}d', len(ring), *(c for point in ring for c in point)) for ring in coordinates)
    return head + struct.pack(order + 'I', len(coordinates)) + b''.join(rings)


class Shapes(unittest.TestCase):
    """Points, lists and rings in other forms than pairs of integers."""

    def setUp(self) -> None:
        self.session = Session()
        self.addCleanup(self.session.close)

    def ask(self, ring: Any, point: Any, points: Any) -> None:
        self.assertEqual(self.session.polygon(ring), 6)
        self.assertEqual(self.session.inside(point), Place.EDGE)
        self.assertEqual(self.session.path(point, point), [(2, 3)])
        self.assertEqual(self.session.round(points), [0, 1, 2])

    def refuses(self, kind: Type[geo.NotTaken], place: int, ask: Callable[..., object], *given: Any) -> geo.NotTaken:
        with self.assertRaises(geo.NotTaken) as refused:
            ask(*given)
        self.assertEqual((type(refused.exception), refused.exception.place), (kind, place), given)
        self.assertIn(f'at place {place}: ', str(refused.exception))
        return refused.exception

    def test_numbers(self) -> None:
        self.ask(([float(x), y] for x, y in L), (2.0, Fraction(3)), iter([(4, 2), (2, 4), (0, 0)]))
        cases: List[Any] = [
            (0.5, 4, self.session.polygon, [(0, 0), (4, 0.5)]),
            (Fraction(7, 2), 1, self.session.inside, (Fraction(7, 2), 1)),
            (float('nan'), 1, self.session.inside, (float('nan'), 1)),
            (float('inf'), 2, self.session.see, (1, float('inf'))),
        ]
        for number, place, ask, given in cases:
            self.assertEqual(str(self.refuses(geo.NotWhole, place, ask, given).given), str(number))

    def test_no_numbers(self) -> None:
        inside, path, paths, polygon = self.session.inside, self.session.path, self.session.paths, self.session.polygon
        cases: List[Any] = [
            (geo.NotANumber, 1, inside, ('1', '2')),
            (geo.NotANumber, 2, inside, (1, None)),
            (geo.NotWhole, 4, path, (1, 1), (1, Decimal('0.5'))),
            (geo.NotANumber, 5, polygon, [(0, 0), (4, 0), (1j, 4)]),
            (geo.NotAPoint, 1, inside, 7),
            (geo.NotAPoint, 1, inside, None),
            (geo.NotAPoint, 1, inside, (1,)),
            (geo.NotAPoint, 3, path, (1, 1), (1, 2, 3)),
            (geo.NotAPoint, 5, polygon, [(0, 0), (4, 0), (4, 2, 7)]),
            (geo.NotAPoint, 3, polygon, [(0, 0), 4, 0]),
            (geo.NotAPoint, 5, paths, [((1, 1), (1, 1)), (1, 1, 2)]),
            (geo.NotAPoint, 7, paths, [((1, 1), (1, 1)), ((1, 1), (1, 1, 1))]),
        ]
        for kind, place, ask, *given in cases:
            self.refuses(kind, place, ask, *given)

    def test_texts(self) -> None:
        closed = ', '.join(f'{x} {y}' for x, y in L + L[:1])
        for ring in f'POLYGON (({closed}))', f'SRID=25832;POLYGON Z (({closed.replace(",", " 7,")} 7))', json.dumps(geojson('Polygon', [L])):
            self.ask(ring, 'POINT (2.0 3)', 'LINESTRING (4 2, 2 4, 0 0)')
        self.ask(wkb(3, [L + L[:1]]), wkb(1, (2, 3)), 'MULTIPOINT ((4 2), (2 4), (0 0))')
        self.ask(wkb(3, [L], order='>', srid=4326).hex(), wkb(1, (2, 3), order='>').hex().upper(), 'MULTIPOINT (4 2, 2 4, 0 0)')
        cases: List[Any] = [
            (1, self.session.inside, 'POLYGON ((0 0, 1 0, 0 1))', 'is a Polygon, and a Point is expected'),
            (1, self.session.polygon, 'POINT (1 2)', 'is a Point, and a Polygon or LinearRing is expected'),
            (1, self.session.polygon, 'POLYGON ((0 0, 4 0', 'line 1, column 11: WKT breaks off, since a parenthesis is not closed'),
            (1, self.session.polygon, wkb(3, [L])[:-1], 'WKB breaks off'),
            (1, self.session.polygon, 'POINT (1 2) POINT (3 4)', 'has 2 geometries, and one is expected'),
            (1, self.session.hull, b'1,2', 'is not WKT, WKB or GeoJSON'),
            (3, self.session.polygon, [(0, 0), 'POINT (1'], 'is not WKT, WKB or GeoJSON'),
        ]
        for place, ask, given, said in cases:
            self.assertIn(said, str(self.refuses(geo.NotAShape, place, ask, given)))

    def test_points_that_are_left_out(self) -> None:
        closed = L + L[:1]
        forms: List[Any] = [closed, tuple(closed), [list(point) for point in closed], iter(closed)]
        for ring in forms:
            self.assertEqual(self.session.polygon(ring), 6)
            self.assertEqual(self.session.ring, L)
        cases: List[Tuple[Any, Tuple[int, ...]]] = [(closed, (6,)), (closed + L[:1], (6, 7)), (L[:2] + L[1:2] + L[1:], (2, 3)), (L, ())]
        for points, left_out in cases:
            self.session.polygon(points)
            self.assertEqual((self.session.ring, self.session.left_out), (L, left_out))
        near = [(0, 0), (.04, 0), (4, 0), (4, 4.01), (4, 4), (0, .02)]
        with Session(near, frame=Frame(scale=10, snap=True)) as session:
            self.assertEqual(session.left_out, (1, 4, 5), 'after the frame was applied')
        repeated = [point for point in comb(4096) for _ in (0, 1)]
        self.assertEqual(self.session.polygon(repeated), 4096, 'the limit counts vertices')
        forms = [[], [(1, 1)], [(1, 1), (1, 1)]]
        for ring in forms:
            with self.assertRaises(geo.Few):
                self.session.polygon(ring)

    def test_geojson(self) -> None:
        closed = L + L[:1]
        for kind in geojson, Shape:
            for listed in 'LineString', 'MultiPoint':
                self.ask(kind('Polygon', [closed]), kind('Point', (2.0, 3.0)), kind(listed, [[4, 2], [2, 4], [0, 0]]))
        with_heights = [(x, y, 7) for x, y in closed]
        self.ask(geojson('Polygon', [with_heights]), geojson('Point', (2, 3, 7)), geojson('LineString', [(4, 2, 7), (2, 4, 7), (0, 0, 7)]))
        self.ask(geojson('Polygon', [[list(it) for it in with_heights]]), geojson('Point', [2, 3, 7]), [Shape('Point', it) for it in [(4, 2), (2, 4), (0, 0)]])
        feature = {'type': 'Feature', 'properties': {}, 'geometry': geojson('Polygon', [closed])}
        self.assertEqual(self.session.polygon(feature), 6)

    def test_shapes_that_are_no_ring(self) -> None:
        closed = L + L[:1]
        cases: List[Any] = [
            (geo.Holes, geojson('Polygon', [[(0, 0), (9, 0), (0, 9), (0, 0)], [(1, 1), (2, 1), (1, 2), (1, 1)]])),
            (geo.NotAShape, geojson('Polygon', [])),
            (geo.NotAShape, geojson('Polygon', None)),
            (geo.NotAShape, geojson('LinearRing', [])),
            (geo.NotAShape, geojson('MultiPolygon', [[L]])),
            (geo.NotAShape, geojson('Point', L[0])),
            (geo.NotAShape, {'type': 'Feature', 'geometry': None}),
            (geo.NotAShape, {'type': 'Polygon'}),
            (geo.NotAShape, {'coordinates': [closed]}),
            (geo.NotAShape, {}),
            (geo.NotAShape, None),
            (geo.NotAShape, 7),
            (geo.NotAShape, geojson('Polygon', closed)),
            (geo.NotAPoint, geojson('Polygon', [[[closed]]])),
            (geo.NotANumber, geojson('Polygon', [[(0, 0), (4, 'x')]])),
        ]
        for kind, given in cases:
            place = {geo.NotANumber: 4}.get(kind, 1)
            self.refuses(kind, place, self.session.polygon, given)
        self.refuses(geo.NotAShape, 1, self.session.inside, geojson('Point', []))
        self.refuses(geo.NotAShape, 1, self.session.check, geojson('LineString', []))
        with self.assertRaises(geo.Few):
            self.session.check(geojson('MultiPoint', []))

    def test_errors_go_through_pickle(self) -> None:
        for error in geo.NotWhole(0.5, 3), geo.NotAShape('x', 1, 'a reason'), geo.Holes({}, cause='two holes'), geo.Clash(3, 4), geo.Few():
            again = pickle.loads(pickle.dumps(error))
            self.assertEqual((type(again), str(again), vars(again)), (type(error), str(error), vars(error)))

    @unittest.skipIf(numpy is None, 'without NumPy')
    def test_numpy(self) -> None:
        for kind in 'int16', 'int64', 'float32', 'float64':
            self.ask(numpy.array(L, kind), numpy.array((2, 3), kind), numpy.array([(4, 2), (2, 4), (0, 0)], kind))

    @unittest.skipIf(shapely is None, 'without Shapely')
    def test_shapely(self) -> None:
        for ring in shapely.Polygon(L), shapely.LinearRing(L):
            self.ask(ring, shapely.Point(2, 3), shapely.LineString([(4, 2), (2, 4), (0, 0)]))
        self.ask(shapely.Polygon(L), shapely.Point(2, 3), shapely.MultiPoint([(4, 2), (2, 4), (0, 0)]))
        with self.assertRaises(geo.Holes):
            self.session.polygon(shapely.Point(0, 0).buffer(9).difference(shapely.Point(0, 0).buffer(3)))
        for empty in shapely.Polygon(), shapely.LinearRing(), shapely.MultiPolygon():
            self.refuses(geo.NotAShape, 1, self.session.polygon, empty)
        self.refuses(geo.NotAShape, 1, self.session.inside, shapely.Point())
        self.assertEqual(self.session.polygon([shapely.Point(it) for it in L]), 6)
