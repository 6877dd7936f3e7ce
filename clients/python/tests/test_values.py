"""What each method gives for a ring."""
from __future__ import annotations

import unittest
from fractions import Fraction

from geo_exact import Before, Clash, Part, Place, Rule, Session, Side, Verdict
from .rings import L, comb, exact


class Values(unittest.TestCase):
    """What each method gives for the L."""

    def setUp(self) -> None:
        self.session = Session(L)
        self.addCleanup(self.session.close)

    def test_points(self) -> None:
        self.assertEqual([self.session.inside(p) for p in [(1, 1), (3, 3), (2, 3)]], [Place.INSIDE, Place.OUTSIDE, Place.EDGE])
        self.assertEqual(self.session.kernel(), [(0, 0), (2, 0), (2, 2), (0, 2)])
        self.session.polygon([(0, 0), (6, 0), (3, 1), (0, 5)])
        self.assertEqual(self.session.kernel()[1], (Fraction(15, 4), 0))

    def test_paths(self) -> None:
        self.assertEqual(self.session.path((4, 1), (1, 4)), [(4, 1), (2, 2), (1, 4)])
        self.assertEqual(self.session.tree((4, 1)), 4 * [Before.SOURCE] + [3, 3])
        self.assertEqual(self.session.reach((1, 4)), [(4, 1), (2, 2), (1, 4)])
        self.assertEqual(self.session.tree((2, 2))[3], Before.NOTHING)
        self.assertEqual(self.session.pair(2, 4), [(4, 2), (2, 2), (2, 4)])

    def test_a_wide_session_tells_what_a_path_touches(self) -> None:
        self.assertEqual(self.session.path((4, 0), (0, 4)), [(4, 0), (0, 4)])
        with Session(L, wide=True) as wide:
            self.assertEqual(wide.path((4, 0), (0, 4)), [(4, 0), (2, 2), (0, 4)])
            self.assertEqual(wide.polygon([(0, 0), (8_388_607, 0), (0, 8_388_607)]), 3)

    def test_a_path_of_many_points(self) -> None:
        with Session(comb(4096)) as session:
            path = session.path((0, 1), (4 * 2047, 7))
        self.assertEqual(path, [(0, 1)] + [(4 * i, 6 if i % 2 else 2) for i in range(1, 2047)] + [(4 * 2047, 7)])

    def test_verdicts(self) -> None:
        verdicts = [self.session.check(points) for points in ([(4, 1), (2, 2), (1, 4)], [(4, 0), (2, 2), (0, 4)])]
        self.assertEqual(verdicts, [Verdict(), Verdict(Rule.STRAIGHT, 1)])
        self.assertEqual(list(map(bool, verdicts)), [True, False])

    def test_long_answers_outlive_the_session(self) -> None:
        parts, sides, pairs = self.session.see((4, 1)), self.session.hull([(4, 2), (2, 4), (1, 2)]), self.session.sights()
        self.session.guards()
        self.session.close()
        self.assertEqual(list(parts)[3:], [Part(3, exact(2, 2), exact(2, 2)), Part(5, exact(0, 3), exact(0, 0))])
        self.assertEqual(sides[0], Side(0, 1, [(4, 2), (2, 2), (2, 4)]))
        self.assertEqual(list(pairs)[:5], [(0, j) for j in range(1, 6)])

    def test_numbers_of_points_and_vertices(self) -> None:
        self.assertEqual(self.session.round([(4, 2), (2, 4), (0, 0), (1, 1)]), [0, 1, 2])
        self.assertEqual(self.session.guards(), [3])

    def test_long_answers_are_sequences(self) -> None:
        parts, sides, pairs = self.session.see((4, 1)), self.session.hull([(4, 2), (2, 4), (1, 2)]), self.session.sights()
        self.assertEqual((len(parts), len(sides), len(pairs)), (5, 3, 12))
        self.assertEqual(parts[-1], list(parts)[4])
        self.assertEqual((pairs[:2], pairs[-1]), ([(0, 1), (0, 2)], (4, 5)))
        self.assertEqual(sides, list(sides))
        self.assertNotEqual(sides, list(sides)[:2])
        self.assertIn((0, 3), pairs)
        with self.assertRaises(IndexError):
            parts[5]
        self.assertEqual(repr(pairs), '[(0, 1), (0, 2), (0, 3), .. 9 more]')

    def test_what_a_session_says_of_itself(self) -> None:
        self.assertEqual((self.session.ring, self.session.source, self.session.wide, self.session.frame), (L, None, False, None))
        self.assertEqual(repr(self.session), '<geo_exact.Session: 6 vertices>')
        self.session.tree((4, 1))
        self.assertEqual((self.session.source, repr(self.session)), ((4, 1), '<geo_exact.Session: 6 vertices, source (4, 1)>'))
        with self.assertRaises(Clash):
            self.session.polygon([(0, 0), (4, 4), (4, 0), (0, 4)])
        self.assertEqual((self.session.ring, self.session.source), (L, (4, 1)), 'a refusal changes nothing')
        self.session.polygon(L[:3])
        self.assertEqual((self.session.ring, self.session.source), (L[:3], None))
        self.session.close()
        self.assertEqual(repr(self.session), '<geo_exact.Session: closed>')
        with Session(wide=True) as session:
            self.assertEqual((session.ring, repr(session)), (None, '<geo_exact.Session: no polygon, wide>'))

    def test_what_a_session_says_after_text(self) -> None:
        self.session.tree((4, 1))
        self.session.answer('inside,1,1\npolygon,0,0,1,1\ntree,9,9\n')
        self.assertEqual((self.session.ring, self.session.source), (L, (4, 1)), 'nothing was taken')
        self.session.answer('tree,1,1\n')
        self.assertEqual((self.session.ring, self.session.source), (L, None))
        self.session.tree((4, 1))
        self.session.answer('polygon,0,0,1,0,0,1\n')
        self.assertEqual((self.session.ring, self.session.source, self.session.wide), (None, None, False))
        with Session() as session:
            self.assertEqual(session.answer('geo,2\nguards\n'), b'geo,2\nbad,no_polygon\n')
            self.assertTrue(session.wide)
