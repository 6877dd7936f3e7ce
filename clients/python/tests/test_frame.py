"""Points in other units than whole numbers."""
from __future__ import annotations

import random
import unittest
from decimal import Decimal
from fractions import Fraction
from typing import Any, List

import geo_exact as geo
from geo_exact import Before, Frame, Place, Session
from .rings import L, geojson, numpy, shapely

# an L of some centimetres, far from the origin
FAR = 3_500_000.25, -0.75
SMALL = [(FAR[0] + x / 100, FAR[1] + y / 100) for x, y in L]
CENTIMETRES = Frame(FAR, 100)


class Frames(unittest.TestCase):
    def test_answers_in_the_units_of_the_questions(self) -> None:
        points = dict(zip(L, SMALL))
        start, goal, bend = (FAR[0] + .04, FAR[1] + .01), (FAR[0] + .01, FAR[1] + .04), points[2, 2]
        with Session(SMALL, frame=CENTIMETRES) as session:
            self.assertEqual(session.ring, SMALL)
            self.assertEqual(session.frame, CENTIMETRES)
            self.assertEqual(session.path(start, goal), [start, bend, goal])
            self.assertEqual(session.paths([(start, goal), (goal, goal)]), [[start, bend, goal], [goal]])
            self.assertEqual(session.tree(start), 4 * [Before.SOURCE] + [3, 3])
            self.assertEqual((session.source, session.reach(goal)), (start, [start, bend, goal]))
            self.assertEqual(session.kernel(), [points[0, 0], (FAR[0] + .02, FAR[1]), bend, (FAR[0], FAR[1] + .02)])
            self.assertEqual(session.pair(2, 4), [points[4, 2], bend, points[2, 4]])
            self.assertEqual(session.see(points[0, 0])[1], (1, points[4, 0], points[4, 2]))
            self.assertEqual(session.hull([points[4, 2], points[2, 4], points[0, 0]])[0].path, [points[4, 2], bend, points[2, 4]])
            self.assertEqual(session.places([start, (FAR[0] + .03, FAR[1] + .03)]), [Place.EDGE, Place.OUTSIDE])
            self.assertEqual(session.answer('inside,4,1'), b'edge\n')

    def test_exact_answers(self) -> None:
        thirds = Frame((Fraction(1, 7), 0), 3, exact=True)
        ring = [(Fraction(1, 7) + Fraction(x, 3), Fraction(y, 3)) for x, y in [(0, 0), (6, 0), (3, 1), (0, 5)]]
        with Session(ring, frame=thirds) as session:
            self.assertEqual(session.ring, ring)
            self.assertEqual(session.kernel()[1], (Fraction(1, 7) + Fraction(15, 4) / 3, 0))
        with Session(ring, frame=Frame((Fraction(1, 7), 0), 3)) as session:
            self.assertEqual(session.kernel()[1], (float(Fraction(1, 7) + Fraction(15, 4) / 3), 0.0))

    def test_what_lies_between_two_steps(self) -> None:
        tenths, nearest = Frame(scale=10), Frame(scale=10, snap=True)
        taken: List[Any] = [0.3, .1 + .2, .25, .35, -.25, 1e-9, Decimal('0.3'), Decimal('0.31'), Fraction(3, 10), Fraction(1, 3), 2, 1e300,
                            float('inf')]
        snapped = [3, 3, 3, 3, -2, 0, 3, 3, 3, 3, 20, 1 << 62, None]
        exact = [3, None, None, None, None, None, 3, None, 3, None, 20, 1 << 62, None]
        for number, near, whole in zip(taken, snapped, exact):
            for frame, wanted in (nearest, near), (tenths, whole):
                if wanted is None:
                    with self.assertRaises(geo.NotWhole):
                        frame.take(number, 1)
                else:
                    self.assertEqual(frame.take(number, 1), wanted, (number, frame))
        with self.assertRaisesRegex(geo.NotWhole, 'at place 4: 0.25 lies between two steps of 0.1; snap=True takes the nearest step'):
            Session([(0, 0), (1, .25)], frame=tenths)
        for given in '0.3', None, 1j:
            with self.assertRaises(geo.NotANumber):
                nearest.take(given, 1)

    def test_each_step_is_taken_back(self) -> None:
        draw = random.Random(1)
        for _ in range(2000):
            scale: Any = draw.choice([1, 100, .001, 3, Fraction(7, 9), 1000])
            frame = Frame([draw.uniform(-1e7, 1e7), round(draw.uniform(-9, 9), 3)], scale)
            point = draw.randint(-10**6, 10**6), draw.randint(-10**6, 10**6)
            x, y = frame.give(point)
            self.assertEqual((frame.take(x, 1), frame.take(y, 2)), point, frame)

    def test_proposed(self) -> None:
        ring = [(0, 0), (12.5, 0), (12.5, 7.25)]
        self.assertEqual(Frame.of(ring, digits=2), Frame(scale=100))
        self.assertEqual(Frame.of(geojson('Polygon', [ring + ring[:1]]), 2, snap=True), Frame(scale=100, snap=True))
        self.assertEqual(Frame.of(ring), Frame(scale=100), 'as many digits as there are')
        noise = [(x / 3, y / 3) for x, y in ring]
        self.assertEqual(Frame.of(noise), Frame(scale=100_000), 'as many as there is room for')
        self.assertEqual(Frame.of(noise, wide=True).scale, 1_000_000)
        far = [(x + 3_512_345.5, y - 70_000) for x, y in ring]
        self.assertEqual(Frame.of(far, digits=2), Frame((3_510_000, -70_000), 100))
        self.assertEqual(Frame.of(far, digits=1), Frame((3_500_000, 0), 10))
        for frame in Frame.of(far, digits=2), Frame.of(far), Frame.of(far, 4, wide=True):
            with Session(far, frame=frame, wide=True) as session:
                self.assertEqual(session.ring, far)
        with self.assertRaisesRegex(geo.NotWhole, r'place 3: 12.5 is not an integer; .*Frame.of\(ring\)'):
            Session(ring)
        with self.assertRaisesRegex(ValueError, '2,500,000 steps .* 2,000,000'):
            Frame.of([(0, 0), (25, 0), (0, 1)], digits=5)
        self.assertEqual(Frame.of('POLYGON ((0 0, 1.25 0, 0 1.5))'), Frame(scale=100))
        text: Any = 'POLYGON EMPTY'
        with self.assertRaises(geo.NotAShape):
            Frame.of(text)
        with self.assertRaises(ValueError):
            Frame.of([])

    def test_proposed_with_room_on_all_sides(self) -> None:
        """A tenth of the box if the limit allows it, else what there is; the origin is a round number."""
        for low, high, origin in [(0, 900_000, 0), (0, 1_000_000, 500_000), (-1_000_000, 1_000_000, 0), (100, 2_000_100, 1_000_100),
                                  (7_000_001, 8_000_001, 7_500_000), (-3_000_000, -1_200_000, -2_100_000)]:
            frame = Frame.of([(low, 0), (high, 0), (low, 1)])
            self.assertEqual(frame, Frame((origin, 0)), (low, high))
            room = min((high - low) // 10, max(0, 999_999 - (high - low) // 2))
            self.assertTrue(all(abs(frame.take(x, 1)) <= 1_000_000 for x in (low - room, high + room)))
        degrees = [(8.4041, 49.0132), (8.4067, 49.0132), (8.4067, 49.0151)]
        self.assertEqual(Frame.of(degrees, 7), Frame((8.4, 49), 10**7))
        draw = random.Random(2)
        for _ in range(200):
            left, size = draw.uniform(-1e6, 1e6), draw.uniform(.001, 1e5)
            frame = Frame.of([(left, left), (left + size, left), (left, left + size)], snap=True)
            found = [frame.take(x, 1) for x in (left - size / 20, left + size * 1.05)]
            self.assertTrue(max(found[1], -found[0]) <= 1_000_000 or size * frame.scale > 1_800_000, (left, size))

    def test_decimals_take_a_short_way(self) -> None:
        draw = random.Random(3)
        for _ in range(500):
            number = Decimal(draw.randint(-10**9, 10**9)).scaleb(-draw.randint(0, 6))
            scales: List[Any] = [1, 10, Decimal('0.01'), Fraction(1, 3)]
            for scale in scales:
                frame = Frame((Decimal('0.5'), 7), scale, snap=True)
                whole = frame.take(Fraction(number), 1), frame.take(Fraction(number), 2)
                self.assertIn(frame.placed([(number, number)], wide=True), [[whole], None], (number, scale))
                self.assertEqual(frame.off([(number, number)], [whole]), frame.off([(Fraction(number), number)], [whole]))
        halves = Frame((0, Decimal('18.5')), 2)
        for text, found in [('12.5', [(25, -12)]), ('12', [(24, -13)]), ('12.25', None), ('1e99999', None), ('9999999', None)]:
            self.assertEqual(halves.placed([(Decimal(text), Decimal(text))], wide=True), found)

    def test_what_is_no_frame(self) -> None:
        for origin, scale in ((0, 0), 0), ((0, 0), -1), ((0,), 1), ((0, float('nan')), 1):
            with self.assertRaises(ValueError):
                Frame(origin, scale)
        self.assertNotEqual(Frame(), Frame(snap=True))
        self.assertEqual(len({Frame(), Frame((0, 0), 1), Frame(scale=1.0)}), 1)
        self.assertEqual(repr(Frame((.1, 2), 10, snap=True)), 'Frame((1/10, 2), 10, snap=True)')

    @unittest.skipIf(numpy is None, 'without NumPy')
    def test_arrays(self) -> None:
        start, goal = (FAR[0] + .04, FAR[1] + .01), (FAR[0] + .01, FAR[1] + .04)
        for frame in CENTIMETRES, Frame(FAR, 100, exact=True):
            with Session(numpy.array(SMALL), frame=frame) as session:
                self.assertEqual(session.places(numpy.array(SMALL)).tolist(), 6 * [2])
                points, offsets = session.paths(numpy.array([(start, goal), (goal, goal)]), arrays=True)
                self.assertEqual([[tuple(it) for it in points.tolist()]], [sum(session.paths([(start, goal), (goal, goal)]), [])])
                self.assertEqual(offsets.tolist(), [0, 3, 4])
        with self.assertRaises(geo.NotWhole) as raised:
            Session(numpy.array([(0, .5), (1, .25)]), frame=Frame(scale=2))
        self.assertEqual(raised.exception.place, 4)

    @unittest.skipIf(shapely is None, 'without Shapely')
    def test_shapely(self) -> None:
        disc = shapely.Point(3.14, 2.72).buffer(1)
        with self.assertRaises(geo.NotWhole):
            Session(disc, frame=Frame.of(disc, digits=3))
        with Session(disc, frame=Frame.of(disc, digits=3, snap=True)) as session:
            ring = session.ring or []
            self.assertEqual(len(ring), len(disc.exterior.coords) - 1)
            for snapped, given in zip(ring, disc.exterior.coords):
                for here, there in zip(snapped, given):
                    self.assertEqual(here, round(there, 3))
