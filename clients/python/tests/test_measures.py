"""Lengths, distances, near points and graphs in floats; paths as shapes; and frames that a session proposes."""
from __future__ import annotations

import importlib
import math
import random
import sys
import unittest
from typing import Any, List
from unittest import mock

import geo_exact as geo
from geo_exact import Frame, Path, Place, Session, area, length
from .rings import L, shapely, strip


def module(name: str) -> Any:
    try:
        return importlib.import_module(name)
    except ImportError:
        return None


geopandas, networkx = module('geopandas'), module('networkx')
ROOM = [(x / 10 + 8.4, y / 10 + 49) for x, y in L]


class Measures(unittest.TestCase):
    def test_lengths_and_areas(self) -> None:
        self.assertEqual((length([(0, 0), (3, 4), (3, 5)]), length([(1, 1)]), length([])), (6, 0, 0))
        self.assertEqual((area(L), area(L[::-1]), area([])), (12, 12, 0))
        self.assertAlmostEqual(area(ROOM), 0.12)
        with Session(L) as session:
            self.assertEqual(area(L), session.view_polygon((1, 1)).area)

    def test_sees(self) -> None:
        for wide in (False, True):
            with Session(L, wide=wide) as session:
                pairs = [((4, 1), (1, 1)), ((4, 0), (0, 4)), ((4, 1), (1, 4)), ((1, 1), (1, 1)), ((4, 2), (2, 4))]
                self.assertEqual([session.sees(*pair) for pair in pairs], [True, True, False, True, False])
                with self.assertRaises(geo.Outside):
                    session.sees((3, 3), (1, 1))

    def test_distances(self) -> None:
        root = math.sqrt(5)
        with Session([(x * 10, y * 10) for x, y in L], frame=Frame(scale=10)) as session:
            session.polygon(L)
            self.assertEqual(session.distances([(4, 1), (1, 4), (0, 0)]), [
                [0, 2 * root, math.sqrt(17)], [2 * root, 0, math.sqrt(17)], [math.sqrt(17), math.sqrt(17), 0]])
            self.assertEqual(session.distances([(4, 1)], [(1, 4), (4, 0)]), [[2 * root, 1]])
            self.assertEqual((session.distances([]), session.distances([(1, 1)], [])), ([], [[]]))
            for given, place in [(([(3, 3)],), 1), (([(1, 1)], [(1, 1), (3, 3)]), 3)]:
                with self.assertRaises(geo.Outside) as refused:
                    session.distances(*given)
                self.assertEqual(refused.exception.places, (place,))

    def test_nearest_inside(self) -> None:
        with Session(L) as session:
            found = [session.nearest_inside(point) for point in [(1, 1), (3, 3), (-5, 1), (9, -9), (1, 10**4)]]
            self.assertEqual(found, [(1, 1), (3, 2), (0, 1), (4, 0), (1, 4)])
            self.assertEqual(session.nearest_inside((1, 10**30))[1], 4)
        with Session(ROOM, frame='auto', snap=True) as session:
            x, y = session.nearest_inside((8.5, 48.9))
            self.assertEqual((x, y), (8.5, 49.0))
        draw = random.Random(2)
        for _ in range(5):
            ring = strip(draw)
            with Session(ring) as session:
                for point in [(draw.randint(-20, 60), draw.randint(-20, 100)) for _ in range(6)]:
                    near = session.nearest_inside(point)
                    self.assertIsNot(session.inside(near), Place.OUTSIDE)
                    if shapely:
                        self.assertLess(math.dist(point, near), shapely.Polygon(ring).distance(shapely.Point(point)) + 2)
        with Session() as session:
            self.assertRaises(geo.NoPolygon, session.nearest_inside, (1, 1))
            session.answer('polygon,0,0,1,0,0,1\n')
            self.assertRaisesRegex(ValueError, 'set it by polygon', session.nearest_inside, (1, 1))

    def test_sights_graph(self) -> None:
        with Session(ROOM, frame='auto') as session:
            if networkx is None:
                with self.assertRaisesRegex(ImportError, 'pip install networkx'):
                    session.sights_graph()
                return
            graph = session.sights_graph()
            self.assertEqual(sorted(graph.edges), sorted(session.sights()))
            self.assertEqual(graph.nodes[3]['pos'], ROOM[3])
            self.assertAlmostEqual(networkx.shortest_path_length(graph, 2, 4, 'weight'), session.path(ROOM[2], ROOM[4]).length)
        with mock.patch.dict(sys.modules, networkx=None), Session(L) as session:
            self.assertRaises(ImportError, session.sights_graph)


class Paths(unittest.TestCase):
    def test_paths_are_shapes(self) -> None:
        with Session(L) as session:
            path, point = session.path((4, 1), (1, 4)), session.pair(1, 1)
            found = [session.paths([((4, 1), (1, 4))])[0], session.hull([(4, 1), (1, 4)])[0].path]
        self.assertEqual([type(it) for it in found], [Path, Path])
        self.assertEqual([path, path], found)
        self.assertEqual(path.__geo_interface__, {'type': 'LineString', 'coordinates': [(4, 1), (2, 2), (1, 4)]})
        self.assertEqual((path.wkt, point.wkt), ('LINESTRING (4 1, 2 2, 1 4)', 'POINT (4 0)'))
        self.assertAlmostEqual(path.length, 2 * math.sqrt(5))
        if shapely:
            read = importlib.import_module('shapely.wkb').loads(path.wkb)
            self.assertEqual((list(read.coords), read.length), (path, path.length))


class Frames(unittest.TestCase):
    def test_a_session_proposes_a_frame(self) -> None:
        with Session(iter(ROOM), frame='auto') as session:
            self.assertEqual((session.frame, session.ring), (Frame.of(ROOM), ROOM))
            self.assertEqual(session.path(ROOM[2], ROOM[4]), [ROOM[2], ROOM[3], ROOM[4]])
            frame, bowtie = session.frame, [(0.25, 0), (4, 4), (4, 0), (0, 4)]
            self.assertRaises(geo.Clash, session.polygon, bowtie)
            self.assertEqual((session.frame, session.ring), (frame, ROOM), 'a refusal changes nothing')
            self.assertRaises(geo.NotWhole, session.inside, (1 / 3, 0))
        with Session(ROOM, frame='auto', snap=True) as session:
            self.assertIs(session.inside((8.4 + 1 / 7, 49 + 1 / 7)), Place.INSIDE)
        with Session([(0, 0), (120, 0), (120, 80), (0, 80)], frame='auto', snap=True) as session:
            self.assertIs(session.inside((120.4, 40)), Place.OUTSIDE, 'queries snap to finer steps than those of the vertices')
            self.assertEqual(session.distances([(10.4, 10)], [(10.6, 10)]), [[0.2]])
        wrong: List[Any] = [{'snap': True}, {'frame': 'centred'}, {'frame': Frame(scale=10), 'snap': True}]
        for how in wrong:
            self.assertRaisesRegex(ValueError, "frame='auto'", Session, ROOM, **how)

    def test_a_float_ring_without_a_frame_names_the_remedy(self) -> None:
        self.assertRaisesRegex(geo.NotWhole, "frame='auto'", Session, ROOM)

    def test_left_out(self) -> None:
        with Session(L[:2] + L[1:] + L[:1]) as session:
            self.assertEqual((session.ring, session.left_out), (L, (2, 7)))
            session.polygon(L)
            self.assertEqual(session.left_out, ())


class Series(unittest.TestCase):
    @unittest.skipIf(geopandas is None or shapely is None, 'without GeoPandas')
    def test_places(self) -> None:
        series = geopandas.GeoSeries([shapely.Point(1, 1), shapely.Point(3, 3), shapely.Point(2, 3)], index=['a', 'b', 'c'])
        with Session(L) as session:
            self.assertEqual(session.places(series).to_dict(), {'a': 1, 'b': 0, 'c': 2})
            self.assertEqual(session.places(geopandas.GeoDataFrame(geometry=series)).to_dict(), {'a': 1, 'b': 0, 'c': 2})
            mixed = geopandas.GeoSeries([shapely.Point(1, 1), shapely.Point(), shapely.Point(2, 3)])
            self.assertRaisesRegex(geo.NotAPoint, 'at place 3', session.places, mixed)


if __name__ == '__main__':
    unittest.main()
