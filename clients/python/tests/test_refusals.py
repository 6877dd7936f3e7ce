"""What is raised for questions that the library refuses."""
from __future__ import annotations

import unittest
from typing import Any, Callable, List, Tuple, Type

import geo_exact as geo
from geo_exact import Session
from .rings import TOP, L, comb


class Refusals(unittest.TestCase):
    def setUp(self) -> None:
        self.session = Session(L)
        self.addCleanup(self.session.close)

    def refuses(self, kind: Type[geo.Refusal], places: Tuple[int, ...], ask: Callable[..., object], *given: Any) -> None:
        with self.assertRaises(kind) as refused:
            ask(*given)
        self.assertEqual(refused.exception.places, places)
        self.assertIn(','.join(['bad', kind.word, *map(str, places)]), str(refused.exception))

    def test_points(self) -> None:
        far, path = 10**40, self.session.path
        cases: List[Any] = [
            (geo.Outside, (1,), path, (3, 3), (1, 1)),
            (geo.Outside, (2,), path, (1, 1), (3, 3)),
            (geo.Outside, (3,), self.session.hull, [(1, 1), (0, 0), (3, 3)]),
            (geo.Range, (1,), path, (1_000_001, far), (3, 3)),
            (geo.Range, (2,), path, (1, -far), (3, 3)),
            (geo.Range, (3,), path, (1, 1), (1 << 64, 3)),
            (geo.Range, (4,), path, (1, 1), (3, -(1 << 63))),
            (geo.Range, (2,), self.session.check, [(1, far)]),
            (geo.NoTree, (), self.session.reach, (1, 4)),
        ]
        for kind, places, ask, *given in cases:
            self.refuses(kind, places, ask, *given)

    def test_lists(self) -> None:
        square = [(0, 0), (4, 4), (4, 0), (0, 4)]
        self.refuses(geo.Clash, (0, 2), self.session.polygon, square)
        self.refuses(geo.Few, (), self.session.polygon, square[:2])
        self.refuses(geo.Few, (), self.session.check, [])
        self.refuses(geo.Many, (), self.session.round, 65 * [(1, 1)])
        self.refuses(geo.Many, (), self.session.polygon, comb(4098))
        self.assertEqual(self.session.guards(), [3], 'the polygon before stays')

    def test_a_far_point_is_outside(self) -> None:
        self.assertEqual([self.session.inside(point) for point in [(1, 1e300), (-10**40, 1)]], 2 * [geo.Place.OUTSIDE])
        with Session() as session:
            self.refuses(geo.NoPolygon, (), session.inside, (1, 1e300))

    def test_numbers_of_vertices(self) -> None:
        self.refuses(geo.Index, (2,), self.session.pair, 0, 6)
        self.refuses(geo.Index, (1,), self.session.pair, -1, 0)
        self.session.polygon(comb(1026))
        self.refuses(geo.Large, (), self.session.pair, 0, 6)
        self.refuses(geo.Large, (), self.session.sights)

    def test_no_polygon(self) -> None:
        with Session() as session:
            asked: List[Any] = [(session.inside, (1, 1)), (session.path, (1, 1), (2, 2)), (session.reach, (1, 1)), (session.kernel,)]
            for ask, *given in asked:
                self.refuses(geo.NoPolygon, (), ask, *given)
        with self.assertRaises(geo.Few):
            Session([(0, 0)])

    def test_records(self) -> None:
        cases: List[Any] = [
            (b'circle,0,0,5', geo.Word, ()), ('inside,1', geo.Fields, ()), ('inside,1,one', geo.Number, (2,)), ('pair,0,6', geo.Index, (2,)),
        ]
        for record, kind, places in cases:
            refused = geo.refusal(self.session.answer(record))
            assert refused
            self.assertEqual((type(refused), refused.places), (kind, places))
        self.assertIsNone(geo.refusal(self.session.answer('inside,1,1')))

    def test_each_refusal_of_the_table_of_errors_has_its_class(self) -> None:
        _, _, table = (TOP / 'docs/ERRORS.md').read_text().partition('## Refusals and statuses')
        rows = [line.split('`') for line in table.splitlines() if line.startswith('| `bad,')]
        named = [(row[1].split(',')[1], row[3]) for row in rows]
        self.assertEqual(sorted(named), sorted((kind.word, kind.__name__) for kind in geo.Refusal.__subclasses__()))

    def test_too_long(self) -> None:
        self.assertEqual(geo.answer_script(b'\n' * 8_388_608), b'')
        for ask in geo.answer_script, self.session.answer:
            with self.assertRaises(geo.TooLong):
                ask(b'\n' * 8_388_609)
        self.assertEqual(self.session.guards(), [3])

    def test_a_closed_session(self) -> None:
        self.session.close()
        self.session.close()
        asked: List[Callable[[], object]] = [
            self.session.guards, lambda: self.session.inside((1, 1)), lambda: self.session.path((1, 1), (2, 2))]
        for ask in asked:
            with self.assertRaises(ValueError):
                ask()
