"""Many questions in one call."""
from __future__ import annotations

import random
import unittest
from typing import Any, Callable, List

import geo_exact as geo
from geo_exact import Place, Session
from .rings import L, comb, geojson, numpy, some, strip


class Many(unittest.TestCase):
    """Many questions in one call."""

    def setUp(self) -> None:
        self.session = Session(L)
        self.addCleanup(self.session.close)

    def refuses(self, refused: geo.Refusal, question: int, ask: Callable[..., object], *given: Any) -> None:
        with self.assertRaises(type(refused)) as raised:
            ask(*given)
        self.assertEqual((raised.exception.places, raised.exception.question), (refused.places, question))
        self.assertTrue(str(raised.exception).endswith(f', of question {question}'))

    def test_places(self) -> None:
        self.assertEqual(self.session.places([(1, 1), (3.0, 3), (2, 3)]), [Place.INSIDE, Place.OUTSIDE, Place.EDGE])
        self.assertEqual(self.session.places(point for point in [(1, 1)]), [Place.INSIDE])
        self.assertEqual(self.session.places(geojson('MultiPoint', [[1, 1], [3, 3]])), [Place.INSIDE, Place.OUTSIDE])
        self.assertEqual(self.session.places([]), [])

    def test_paths(self) -> None:
        self.assertEqual(self.session.paths([((4, 1), (1, 4)), [(1.0, 1), geojson('Point', [1, 1])]]), [[(4, 1), (2, 2), (1, 4)], [(1, 1)]])
        self.assertEqual(self.session.paths([]), [])

    def test_random_rings(self) -> None:
        for seed in range(20):
            draw = random.Random(seed)
            ring = strip(draw)
            with self.subTest(seed), Session(ring, wide=seed % 2 == 1) as session:
                points = some(draw, ring, 50)
                places = session.places(points)
                self.assertEqual(places, [session.inside(point) for point in points])
                inner = [point for point, place in zip(points, places) if place != Place.OUTSIDE]
                pairs = [(draw.choice(inner), draw.choice(inner)) for _ in range(50)]
                self.assertEqual(session.paths(pairs), [session.path(*pair) for pair in pairs])

    def test_more_points_than_the_library_is_given_room_for_at_once(self) -> None:
        with Session(comb(4096)) as session:
            pairs = [((0, 1), (4 * 2047, 7 - k % 2)) for k in range(50)]
            self.assertEqual(session.paths(pairs), [session.path(*pair) for pair in pairs])
            self.refuses(geo.Outside(2), 49, session.paths, pairs[:-1] + [((0, 1), (0, 9))])
        with Session(comb(16_384), wide=True) as session:
            pairs = [((0, 0), (4 * 8191, 8)), ((0, 0), (0, 1)), ((4 * 8191, 6), (0, 2))]
            self.assertEqual(session.paths(pairs), [session.path(*pair) for pair in pairs])

    def test_refusals(self) -> None:
        places, paths = self.session.places, self.session.paths
        self.assertEqual(places([(3, 3), (1, 10**40), (1, 1), (1_000_001, 1)]), [Place.OUTSIDE, Place.OUTSIDE, Place.INSIDE, Place.OUTSIDE])
        self.refuses(geo.Range(3), 2, paths, [((1, 1), (2, 1)), ((1, 1), (1, 1)), ((3, 3), (-1_000_001, 3))])
        self.refuses(geo.Outside(1), 0, paths, [((3, 3), (1, 1)), ((1, 1), (3, 3))])
        self.refuses(geo.Outside(2), 1, paths, [((1, 1), (1, 1)), ((1, 1), (3, 3))])
        with self.assertRaises(geo.NotWhole) as raised:
            paths([((1, 1), (1, 1)), ((1, 1), (1, 0.5))])
        self.assertEqual(raised.exception.place, 8)
        others: List[Any] = [(places, [1, 2]), (places, [(1, 2, 3)]), (paths, [(1, 1)]), (paths, [((1, 1), (1, 1), (1, 1))]), (paths, None)]
        for ask, given in others:
            with self.assertRaises(geo.NotTaken):
                ask(given)
        with Session() as session:
            self.refuses(geo.NoPolygon(), 1, session.places, [(10**9, 1), (1, 1)])
            with self.assertRaises(geo.NoPolygon):
                session.places([(10**9, 1)])
            self.refuses(geo.NoPolygon(), 0, session.paths, [((1, 1), (1, 1))])
        self.assertIsNone(geo.Few().question)

    def test_they_leave_the_session_as_it_was(self) -> None:
        self.session.tree((4, 1))
        parts = self.session.see((4, 1))
        self.session.paths([((1, 1), (1, 4))])
        self.session.places([(1, 1)])
        self.assertEqual(self.session.reach((1, 4)), [(4, 1), (2, 2), (1, 4)])
        self.assertEqual(len(list(parts)), 5)

    @unittest.skipIf(numpy is None, 'without NumPy')
    def test_numpy(self) -> None:
        points, pairs = [(1, 1), (3, 3), (2, 3)], [((4, 1), (1, 4)), ((1, 1), (1, 1)), ((1, 1), (2, 1))]
        for kind in 'int8', 'uint16', '>i4', 'int64', 'uint64', 'float16', 'float32', 'float64', 'longdouble', 'object':
            for order in 'C', 'F':
                found = self.session.places(numpy.array(points, kind, order=order))
                self.assertEqual((found.dtype, found.tolist()), ('uint8', [1, 0, 2]))
                path_points, offsets = self.session.paths(numpy.array(pairs, kind, order=order), arrays=True)
                self.assertEqual((path_points.dtype, offsets.dtype, offsets.tolist()), ('int64', 'int64', [0, 3, 4, 6]))
                self.assertEqual(path_points.tolist(), [[4, 1], [2, 2], [1, 4], [1, 1], [1, 1], [2, 1]])
        self.assertEqual(self.session.places(numpy.array(points)[::2]).tolist(), [1, 2])
        self.assertEqual(self.session.paths(numpy.array(pairs)), self.session.paths(pairs))
        self.assertEqual(self.session.paths(pairs, arrays=True)[1].tolist(), [0, 3, 4, 6])
        for empty in numpy.array([]), numpy.empty((0, 2)):
            self.assertEqual(self.session.places(empty).shape, (0,))
        path_points, offsets = self.session.paths(numpy.empty((0, 2, 2)), arrays=True)
        self.assertEqual((path_points.shape, offsets.tolist()), ((0, 2), [0]))

    @unittest.skipIf(numpy is None, 'without NumPy')
    def test_numpy_refusals(self) -> None:
        places, paths = self.session.places, self.session.paths
        cases: List[Any] = [((1 << 64) - 1, 'uint64'), (-1e300, 'f8'), (-(1 << 63), 'i8')]
        for far, kind in cases:
            self.assertEqual(places(numpy.array([(1, 1), (far, 1)], kind)).tolist(), [1, 0])
        self.refuses(geo.Outside(2), 1, paths, numpy.array([((1, 1), (1, 1)), ((1, 1), (3, 3))]))
        for number in 0.5, float('nan'), float('inf'):
            with self.assertRaises(geo.NotWhole) as raised:
                places(numpy.array([(1, 1), (1, number)]))
            self.assertEqual((str(raised.exception.given), raised.exception.place), (str(number), 4))
        others = [numpy.ones(shape) for shape in (2, (2, 3), (2, 2, 2), ())] + [numpy.array([('a', 'b')])]
        for other in others:
            with self.assertRaises(geo.NotTaken):
                places(other)
            with self.assertRaises(geo.NotTaken):
                self.session.polygon(other)
        for other in numpy.ones((2, 4)), numpy.ones((2, 2)), numpy.ones((2, 2, 3)), numpy.ones((2, 3, 2)):
            with self.assertRaises(geo.NotTaken):
                paths(other)
