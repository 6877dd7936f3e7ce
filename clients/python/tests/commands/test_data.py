"""From a file to a script: polygons, frames, repeated points, thinned outlines, and which question is asked of which polygon."""
from __future__ import annotations

import json
import random
import time
import unittest
from decimal import Decimal
from fractions import Fraction
from pathlib import Path
from tempfile import TemporaryDirectory
from typing import List, Tuple

from .common import PROGRAM, SQUARE, WITHOUT, L, Word, collection, feature, geojson, run
from geo_exact import Frame, Place, exact
from geo_exact.answers import saved
from geo_exact.commands import nesting, outline, records, thin
from geo_exact.frame import LIMITS
from geo_exact.reading.layer import Shape, read

Points = List[Tuple[str, str]]


def shape(points: Points) -> Shape:
    return Shape(1, 'the polygon', [[(Decimal(x), Decimal(y)) for x, y in points]])


class Shapes(unittest.TestCase):
    def test_kinds(self) -> None:
        square = [(0, 0), (4, 0), (4, 4), (0, 4)]
        polygon = geojson('Polygon', f'[{SQUARE}]')
        for text, count in [
            (polygon, 1),
            (geojson('MultiPolygon', f'[[{SQUARE}], [{SQUARE}]]'), 2),
            (feature(polygon, 'null'), 1),
            (collection(feature(polygon), feature(polygon)), 2),
            (f'{{"type": "GeometryCollection", "geometries": [{geojson("Point", "[1, 2]")}, {polygon}]}}', 1),
            (feature('null'), 0),
            (feature(polygon) + '\n\n' + feature(polygon), 2),
            ('\x1e' + feature(polygon) + '\n\x1e' + feature(polygon).replace(',', ',\n'), 2),
            ('POLYGON((0 0,4 0,4 4,0 4,0 0))', 1),
            ('SRID=25832; Polygon Z ((0 0 1, 4 0 1, 4 4 1, 0 4 1, 0 0 1));', 1),
            ('POLYGONZM ((0 0 1 9, 4 0 1 9, 4 4 1 9, 0 4 1 9))', 1),
            ('MULTIPOLYGON (((0 0, 4 0, 4 4, 0 4)), ((0 0, 4 0, 4 4, 0 4, 0 0)))\nPOINT (1 1)', 2),
            ('GEOMETRYCOLLECTION (MULTIPOINT ((1 1), (2 2)), POLYGON ((0 0, 4 0, 4 4, 0 4)), LINESTRING EMPTY)', 1),
        ]:
            self.assertEqual([it.rings for it in read(text).shapes], [[square]] * count, text)
            self.assertEqual(len(read(text.encode()).shapes), count)

    def test_names_and_ids(self) -> None:
        polygon = geojson('Polygon', f'[{SQUARE}]')
        found = read(collection(
            feature(polygon, '{"name": "yard", "id": 7}'), feature(geojson('MultiPolygon', f'[[{SQUARE}], [{SQUARE}]]'), '{"NAME": "isles"}'),
            f'{{"type": "Feature", "id": "a1", "properties": {{"name": null}}, "geometry": {polygon}}}'))
        self.assertEqual([(it.number, it.name, it.ident) for it in found.shapes],
                         [(1, 'yard', 7), (2, 'isles', None), (3, 'isles', None), (4, None, 'a1')])
        self.assertEqual([str(it) for it in found.shapes],
                         ['polygon 1 (yard)', 'polygon 2 (feature 2, part 1, isles)', 'polygon 3 (feature 2, part 2, isles)', 'polygon 4 (feature 3)'])

    def test_objects_with_an_interface(self) -> None:
        class Yard:
            __geo_interface__ = {'type': 'FeatureCollection', 'features': [{'type': 'Feature', 'properties': {'name': 'yard', 'size': 2.5},
                                 'geometry': {'type': 'Polygon', 'coordinates': [[(0.5, 0), (4, 0), (4, 4), (0.5, 0)], [(3, 1), (3, 2), (2, 1)]]}}]}
        found = read(Yard()).shapes
        self.assertEqual([(it.rings, it.name, it.properties) for it in found],
                         [([[(0.5, 0), (4, 0), (4, 4)], [(3, 1), (3, 2), (2, 1)]], 'yard', {'name': 'yard', 'size': 2.5})])

    def test_what_is_broken_is_listed(self) -> None:
        polygon = geojson('Polygon', f'[{SQUARE}]')
        for text, said in [
            ('\n'.join([feature(polygon), '{"type": ', feature(polygon)]), ['line 1, column 10: is not JSON: Expecting value']),
            (collection(feature(polygon), feature('{"type": "Polygon"}', '{"name": "yard"}'), feature(polygon)),
             ['feature 2 (yard): the coordinates of the Polygon are missing']),
            (geojson('MultiPolygon', f'[[{SQUARE}], [[[0, 0], [1, null], [1, 1]]], [[]], [{SQUARE}]]'),
             ['part 2, ring 1, vertex 1: null is not a number', 'part 3, ring 1: the ring is empty']),
            (f'{L} CURVEPOLYGON (CIRCULARSTRING (0 0, 1 1, 2 0, 0 0)) {L}',
             ['geometry 2: is curved, a CURVEPOLYGON; ogr2ogr -nlt CONVERT_TO_LINEAR makes it straight']),
            (f'SRID=25832;{L};SRID=25833;{L};{L}', ['geometry 2: names another CRS than the data before it; ogr2ogr -t_srs projects it to one']),
        ]:
            found = read(text)
            self.assertEqual((len(found.shapes), [str(it) for it in found.unusable]), (2, said))

    def test_longitude_and_latitude(self) -> None:
        ring = '[[[8.40421, 49.1], [8.5, 49.1], [8.5, 49.2]]]'
        crs = ', "crs": {"type": "name", "properties": {"name": "%s"}}}'
        for text, degrees in [(geojson('Polygon', ring), True), (geojson('Polygon', f'[{SQUARE}]'), False),
                              (geojson('Polygon', ring)[:-1] + crs % 'urn:ogc:def:crs:EPSG::25832', False),
                              (geojson('Polygon', f'[{SQUARE}]')[:-1] + crs % 'urn:ogc:def:crs:OGC:1.3:CRS84', True),
                              (f'SRID=4326;{L}', True), ('POLYGON ((8.40421 49.1, 8.5 49.1, 8.5 49.2))', False)]:
            with TemporaryDirectory() as folder:
                made = run('records', '--save', Path(folder) / 'frame', text=text)
                self.assertEqual('longitude and latitude' in made.stderr, degrees, text)
                self.assertEqual(saved.load(f'{folder}/frame').geographic, degrees)

    def test_what_is_passed_over_is_counted(self) -> None:
        made = run('records', text=f'{L} POINT (1 1) POINT Z (1 1 1) LINESTRING (0 0, 1 1)')
        self.assertEqual(made.stderr, 'records: passed over: 2 Points, 1 LineString\n')
        made = run('records', text='POLYGON Z ((0 0 1, 4 0 1, 4 4 1))')
        self.assertEqual((made.returncode, made.stderr), (0, 'records: passed over: 3 heights\n'))

    def test_the_crs(self) -> None:
        named = '{"type": "name", "properties": {"name": "urn:ogc:def:crs:EPSG::25832"}}'
        polygon = geojson('Polygon', f'[{SQUARE}]')
        for text, crs in [(f'SRID=25832;{L}', json.loads(named)), (L, None), (polygon[:-1] + f', "crs": {named}}}', json.loads(named))]:
            self.assertEqual(read(text).crs, crs)


class Numbers(unittest.TestCase):
    def test_texts(self) -> None:
        for value, written, places, rounded, nearest in [
            ('7/2', '3.5', 0, '4', '3.5'), ('1/3', '1/3', 4, '0.3333', '0.3333333333333333'), ('-2/3', '-2/3', 2, '-0.67', '-0.6666666666666666'),
            ('12', '12', 3, '12', '12'), ('-0.05', '-0.05', 1, '0', '-0.05'),
        ]:
            self.assertEqual(exact.text(Fraction(value)), written)
            self.assertEqual(exact.decimal(Fraction(value), places), rounded)
            self.assertEqual(exact.nearest(Fraction(value)), nearest)

    def test_numbers(self) -> None:
        for text, value in [('+.5', Fraction(1, 2)), ('5.', Fraction(5)), ('-1e-3', Fraction(-1, 1000)), ('1E2', Fraction(100)), ('007', Fraction(7))]:
            self.assertEqual(exact.number(text), value)
        for text in '1_0', ' 1', '', '.', 'e5', '1e', '0x1', '\u0661', 'inf', '1/2':
            with self.assertRaises(exact.NoNumber):
                exact.number(text)
        self.assertEqual(exact.ratio('1/3'), Fraction(1, 3))


class Frames(unittest.TestCase):
    def test_decimals_are_exact(self) -> None:
        made = run('records', '--origin', '8.4,49', '--scale', '10000000', text='POLYGON((8.404 49.013, 8.4060001 49.013, 8.406 49.0136))')
        self.assertEqual(made.stdout, 'polygon,40000,130000,60001,130000,60000,136000\n')

    def test_values_that_begin_with_a_minus_sign(self) -> None:
        made = run('records', '--origin', '-75.5,45', '--scale', '10', text='POLYGON((-75.5 45, -75 45, -75 46))')
        self.assertEqual((made.stdout, made.stderr), ('polygon,0,0,5,0,5,10\n', ''))

    def test_version_2_goes_farther(self) -> None:
        words: list[Word] = ['--two', '--origin', '0,0', '--scale', '1000', '--ask', 'path,0,0,8388.607,0', '--ask', 'kernel']
        made = run('records', *words, text='POLYGON((0 0, 8388.607 0, 0 1))')
        self.assertEqual(made.stdout, 'geo,2\npolygon,0,0,8388607,0,0,1000\npath,0,0,8388607,0\nkernel\n')

    def test_a_scale_without_an_origin_has_one_that_does(self) -> None:
        for text, first in [('POLYGON((0 0, 900000 0, 0 1))', '0,0,900000,0'), ('POLYGON((0 0, 1000000 0, 0 1))', '-500000,0,500000,0'), ('POLYGON((0 0, 1000001 0, 0 1))', '-500000,0,500001,0'),
                            ('POLYGON((5.5 0, 6.5 0, 5.5 1))', '0,0,1,0')]:
            self.assertIn(f'polygon,{first}', run('records', '--scale', '1', text=text).stdout)

    def test_rounding_is_asked_for_and_told(self) -> None:
        made = run('records', '--scale', '1', '--round', text='POLYGON((0.7 0, 9 0, 0 9.2))')
        self.assertEqual((made.stdout, made.stderr), ('polygon,1,0,9,0,0,9\n', 'records: rounded to steps of 1: coordinates are off by up to 0.3\n'))

    def test_questions_do_not_change_the_frame(self) -> None:
        plain = run('records', '--round', text='POLYGON((0 0, 9.5 0, 0 9.2))').stdout
        asked = run('records', '--round', '--ask', 'see,1.06,1', text='POLYGON((0 0, 9.5 0, 0 9.2))')
        self.assertEqual(asked.stdout, plain + 'see,11,10\n')
        self.assertEqual(asked.stderr, 'records: rounded to steps of 0.1: points of questions are off by up to 0.04\n')

    def test_proposals(self) -> None:
        cases: list[Tuple[Points, bool, int, int]] = [
            ([('0', '0'), ('1.25', '7')], False, 1, 100),
            ([('456300.25', '5429000.5'), ('456312.75', '5429012')], False, 1, 100),
            ([('8.4042001', '49.0131999'), ('8.406', '49.0142')], False, 1, 10**7),
            ([('0', '0'), ('3.123456789', '1')], True, 1, 10**5),
            ([('0', '0'), ('3.123456789', '1')], True, 2, 10**6),
            ([('0', '0'), ('2400', '800.125')], False, 2, 1000),
            ([('-1000000', '0'), ('1000000', '1')], False, 1, 1),
        ]
        for points, rounds, version, scale in cases:
            fitted, (whole,) = outline.fitted([shape(points)], outline.Terms(snap=rounds, wide=version == 2))
            self.assertEqual(fitted.scale, scale)
            self.assertTrue(all(abs(c) <= LIMITS[version == 2] for point in whole for c in point))
            if not rounds:
                self.assertEqual([fitted.back(point) for point in whole], shape(points).rings[0])

    def test_what_is_advised_would_do(self) -> None:
        for text in ['POLYGON ((0 0, 3000000 0, 0 1000001))', 'POLYGON ((0 0, 1 0.00000000001, 1 1))', 'POLYGON ((0 0, 99999999 1, 1 99999999))']:
            said = run('records', text=text).stderr
            ways = said.split('; ', 1)[1].split(', or ')
            for way in ways:
                words = way.split(' would')[0].split()
                self.assertEqual(run('records', *words, text=text).returncode, 0, words)

    def test_a_frame_is_kept(self) -> None:
        kept = Frame((8.4, Fraction(1, 3)), 10)
        self.assertEqual(saved.loads(saved.dumps(kept)).frame, kept)


    def test_data_without_options(self) -> None:
        script, kept = records.script_of_data(f'{L} {L}'.encode(), version=2, rounds=True)
        self.assertEqual(script.count(b'polygon,'), 2)
        self.assertEqual(len(saved.loads(kept).polygons.popitem()[1]), 2)
        with self.assertRaisesRegex(Exception, 'WKT breaks off'):
            records.script_of_data(b'POLYGON ((0 0')


class Questions(unittest.TestCase):
    def test_numbers_of_vertices_have_no_scale(self) -> None:
        made = run('records', '--scale', '10', '--ask', 'pair,0,2', '--ask', 'round,0.5,0.1,1,0', text='POLYGON((0 0, 1 0, 0 1))')
        self.assertEqual(made.stdout, 'polygon,0,0,10,0,0,10\npair,0,2\nround,5,1,10,0\n')

    def test_numbers_of_vertices_are_those_of_the_data(self) -> None:
        made = run('records', '--scale', '1', '--ask', 'pair,1,4', '--ask', 'pair,3,9', text='POLYGON((0 0, 0 0, 9 0, 9 0, 9 9, 0 0))')
        self.assertEqual(made.stdout, 'polygon,0,0,9,0,9,9\npair,0,2\npair,1,7\n')
        self.assertEqual(made.stderr, 'records: left out 2 points of polygon 1, the same as a neighbour\n')


class RepeatedPoints(unittest.TestCase):
    def test_neighbours_and_closing_points(self) -> None:
        text = 'POLYGON((0 0, 0.1 0, 4 0, 4 4.4, 4.2 4, 0 4, 0 0.2, 0 0, 0 0))'
        made = run('records', '--scale', '1', '--round', text=text)
        self.assertEqual(made.stdout, 'polygon,0,0,4,0,4,4,0,4\n')
        self.assertIn('records: left out 4 points of polygon 1, the same as a neighbour\n', made.stderr)

    def test_spikes_and_crossings_stay(self) -> None:
        ring = [(0, 0), (4, 0), (9, 0), (4, 0), (4, 4)]
        self.assertEqual(outline.outline(Shape(1, '', [ring]), ring, None).points, ring)


class Thin(unittest.TestCase):
    def test_the_least_areas_go_first(self) -> None:
        self.assertEqual(thin.thinned([(0, 0), (50, 1), (100, 0), (100, 50), (103, 100), (0, 100)], 4), [0, 2, 4, 5])

    def test_no_edge_is_crossed(self) -> None:
        """A needle reaches through the triangle of the vertex that would go first."""
        ring = [(0, 0), (40, -10), (80, 0), (80, 80), (41, 79), (40, -4), (39, 79), (0, 80)]
        for most in range(3, 8):
            kept = [ring[i] for i in thin.thinned(ring, most)]
            self.assertEqual(len(kept), most)
            self.assertTrue(is_simple(kept), kept)

    def test_wild_outlines(self) -> None:
        draw = random.Random(7)
        for _ in range(5):
            ring = grown(draw, 40)
            for most in 25, 12, 5, 3:
                kept = [ring[i] for i in thin.thinned(ring, most)]
                self.assertTrue(len(kept) == most and is_simple(kept))


def grown(draw: random.Random, count: int) -> list[Tuple[int, int]]:
    """A simple polygon: a triangle, of which edges are broken at random points as long as it stays simple."""
    ring = [(0, 0), (1000, 0), (0, 1000)]
    while len(ring) < count:
        i = draw.randrange(len(ring))
        more = [*ring[:i], (draw.randint(-500, 1500), draw.randint(-500, 1500)), *ring[i:]]
        if is_simple(more):
            ring = more
    return ring


def is_simple(ring: list[Tuple[int, int]]) -> bool:
    """Whether no two edges share a point but neighbours their common vertex."""
    edges = list(zip(ring, ring[1:] + ring[:1]))
    for i, (a, b) in enumerate(edges):
        for j in range(i + 1, len(edges)):
            c, d = edges[j]
            beside = j == i + 1 or (i == 0 and j == len(edges) - 1)
            shared = b if j == i + 1 else a
            others = (a, d) if j == i + 1 else (b, c)
            if beside and thin.turn(others[0], shared, others[1]) == 0 and dot(shared, *others) >= 0:
                return False
            if not beside and meet(a, b, c, d):
                return False
    return True


def dot(o: Tuple[int, int], a: Tuple[int, int], b: Tuple[int, int]) -> int:
    return (a[0] - o[0]) * (b[0] - o[0]) + (a[1] - o[1]) * (b[1] - o[1])


def meet(a: Tuple[int, int], b: Tuple[int, int], c: Tuple[int, int], d: Tuple[int, int]) -> bool:
    """Whether two segments share a point."""
    turns = [thin.turn(a, b, c), thin.turn(a, b, d), thin.turn(c, d, a), thin.turn(c, d, b)]
    signs = [(t > 0) - (t < 0) for t in turns]
    if signs[0] * signs[1] < 0 and signs[2] * signs[3] < 0:
        return True
    ends = [(0, a, b, c), (1, a, b, d), (2, c, d, a), (3, c, d, b)]
    return any(signs[k] == 0 and thin.between(p, q, r) for k, p, q, r in ends)


class Nested(unittest.TestCase):
    """A hole that comes as a polygon of its own."""

    def test_a_polygon_in_another_stops_the_run(self) -> None:
        text = 'POLYGON ((0 0, 100 0, 100 50, 0 50)) POLYGON ((40 20, 60 20, 60 30, 40 30)) POLYGON ((200 0, 300 0, 300 50))'
        made = run('records', '--ask', 'path,10,25,90,25', text=text)
        self.assertEqual((made.returncode, made.stdout), (1, ''))
        self.assertEqual(made.stderr, 'records: polygon 2 lies in polygon 1: a hole? --outer leaves out the inner polygon, --skip both, and --separate takes them as '
                                      'polygons that are apart\n')
        for option, left, said in [('--skip', ['200'], 'polygon 2 lies in polygon 1: a hole?'),
                                   ('--outer', ['0', '200'], 'polygon 2: left out, since it lies in polygon 1'), ('--separate', ['0', '40', '200'], '')]:
            made = run('records', option, text=text)
            self.assertEqual((made.returncode, [row.split(',')[1] for row in made.stdout.splitlines()]), (0, left), option)
            self.assertIn(said, made.stderr)

    def test_shapes_that_share_boxes(self) -> None:
        square, diamond = [(0, 0), (8, 0), (8, 8), (0, 8)], [(4, 0), (8, 4), (4, 8), (0, 4)]
        notch = [(0, 0), (20, 0), (20, 20), (11, 20), (11, 2), (9, 2), (9, 20), (0, 20)]  # a U, whose gap has the last one
        for rings, pairs in [([diamond, square], [(1, 2)]), ([square, diamond], [(2, 1)]), ([square, square], [(2, 1)]),
                             ([notch, [(9, 3), (11, 3), (11, 9), (9, 9)]], []), ([[(1, 1), (2, 1), (2, 2)], square, notch], [(1, 2), (1, 3), (2, 3)])]:
            found = nesting.nested([outline.outline(Shape(k, '', [ring]), ring, None) for k, ring in enumerate(rings, 1)])
            self.assertEqual(sorted((inner.number, outer.number) for inner, outer in found), pairs)

    def test_a_point_inside(self) -> None:
        draw = random.Random(5)
        for ring in [grown(draw, n) for n in (3, 4, 6, 9, 15, 25)] + [[(0, 0), (9, -9), (3, 0), (9, 9)], [(0, 0), (9, 9), (3, 0), (9, -9)]]:
            for turned in ring, ring[::-1], ring[2:] + ring[:2]:
                point = nesting.interior_point(turned)
                self.assertEqual(nesting.place(point, [(6 * x, 6 * y) for x, y in turned]), Place.INSIDE)

    def test_many(self) -> None:
        squares = [[(x, y), (x + 9, y), (x + 9, y + 9), (x, y + 9)] for x in range(0, 700, 10) for y in range(0, 700, 10)]
        for rings in squares, [[(0, y), (9, y), (9, y + 1), (0, y + 1)] for y in range(0, 10_000, 2)]:
            outlines = [outline.outline(Shape(k, '', [ring]), ring, None) for k, ring in enumerate(rings)]
            start = time.process_time()
            self.assertEqual(list(nesting.nested(outlines)), [])
            self.assertLess(time.process_time() - start, 2)


@unittest.skipUnless(PROGRAM, WITHOUT)
class Several(unittest.TestCase):
    """Two squares side by side, and a bow tie."""

    data = collection(
        feature(geojson('Polygon', f'[{SQUARE}]'), '{"name": "west"}'),
        feature(geojson('Polygon', '[[[0, 0], [4, 4], [4, 0], [0, 4], [0, 0]]]'), '{"name": "tie"}'),
        feature(geojson('Polygon', '[[[4, 0], [8, 0], [8, 4], [4, 4], [4, 0]]]'), '{"name": "east", "id": 3}'))

    def asked(self, *words: Word) -> list[str]:
        """The records that are asked of each polygon."""
        made = run('records', '--scale', '1', '--skip', *words, text=self.data)
        self.assertEqual(made.returncode, 0, made.stderr)
        self.assertIn("polygon 2 (tie): the edge from vertex 0 (0, 0) to vertex 1 (4, 4) and the edge from vertex 2 (4, 0) to "
                      "vertex 3 (0, 4) share a point where they must not; ", made.stderr)
        return [text.replace('\n', ' ').strip().split(' ', 1)[-1] if ' ' in text.replace('\n', ' ').strip() else ''
                for text in made.stdout.split('polygon,')[1:]]

    def test_a_point_is_asked_of_the_polygon_that_has_it(self) -> None:
        self.assertEqual(self.asked('--ask', 'see,1,1', '--ask', 'kernel', '--ask', 'inside,4,2', '--ask', 'path,5,1,7,1'),
                         ['see,1,1 kernel inside,4,2', 'kernel inside,4,2 path,5,1,7,1'])

    def test_of_each(self) -> None:
        self.assertEqual(self.asked('--all', '--ask', 'see,1,1'), ['see,1,1', 'see,1,1'])
        self.assertEqual(self.asked('--ask', 'inside,9,9', '--ask', 'pair,0,2'), ['inside,9,9 pair,0,2', 'inside,9,9 pair,0,2'])

    def test_reach_follows_the_tree(self) -> None:
        self.assertEqual(self.asked('--ask', 'tree,5,1', '--ask', 'reach,1,1'), ['', 'tree,5,1 reach,1,1'])

    def test_a_point_of_no_polygon(self) -> None:
        for question, said in [('see,9,9', 'no polygon has the point (9, 9); --all asks each'),
                               ('path,1,1,5,1', 'no polygon has all of its points; --all asks each')]:
            made = run('records', '--skip', '--ask', question, text=self.data)
            self.assertEqual((made.returncode, made.stdout), (1, ''))
            self.assertIn(f'--ask {question}: {said}', made.stderr)

    def test_all_are_refused(self) -> None:
        tie = 'POLYGON((0 0, 4 4, 4 0, 0 4));POLYGON((0 0, 4 0, 0 0))'
        made = run('records', '--ask', 'kernel', text=tie)
        self.assertEqual((made.returncode, made.stdout), (1, ''))
        self.assertIn('polygon 2: has 2 different points, and a polygon needs at least 3', made.stderr)
        made = run('records', '--round', '--scale', '1', text='POLYGON((0 0, .1 0, 0 .1))')
        self.assertIn('has 1 different point after rounding to steps of 1, and', made.stderr)

    def test_all_that_can_not_be_used_are_listed(self) -> None:
        data = self.data[:-2] + ', ' + feature(geojson('MultiPolygon', f'[[{SQUARE}, [[1, 1], [2, 1], [2, 2], [1, 1]]]]'), '{"name": "ring"}') + ']}'
        made = run('records', text=data)
        self.assertEqual((made.returncode, made.stdout), (1, ''))
        lines = made.stderr.splitlines()
        self.assertIn('polygon 4 (feature 4, part 1, ring): has 1 hole, and a polygon of geo has one ring; --outer takes the outer ring', lines[0])
        self.assertIn('polygon 2 (tie): the edge from', lines[1])
        self.assertEqual(lines[2:], ['records: 2 of 4 polygons can not be used; --skip goes on without them'])
        made = run('records', '--skip', '--outer', '--separate', text=data)
        self.assertEqual((made.returncode, made.stdout.count('polygon')), (0, 3))
        self.assertIn('records: polygon 4 (feature 4, part 1, ring): left out 1 hole\n', made.stderr)

    def test_a_clash_that_comes_from_rounding(self) -> None:
        """A notch that is narrower than a step."""
        text = 'POLYGON ((0 0, 9 0, 9 9, 4.54 9, 4.52 1, 4.5 9, 0 9))'
        for more, said in [('', '--scale 100 would do'), (' POLYGON ((150000 0, 150001 0, 150001 1))', '--two --scale 100 would do'),
                           (' POLYGON ((180000 0, 190001 0, 190001 1))', 'a step of 0.01 would do, for which there is room if it is alone in the file')]:
            made = run('records', '--scale', '10', '--round', '--two' if 'alone' in said else '--outer', text=text + more)
            self.assertEqual(made.returncode, 1)
            self.assertIn('vertex 4 (4.52, 1) to vertex 5 (4.5, 9)', made.stderr)
            self.assertIn(f'it comes from rounding to steps of 0.1: {said}', made.stderr)
        self.assertEqual(run('records', '--scale', '100', '--round', text=text).returncode, 0)

    def test_thinned_outlines_are_looked_at(self) -> None:
        with TemporaryDirectory() as folder:
            kept = Path(folder) / 'frame'
            made = run('records', '--thin', '4', '--save', kept, '--ask', 'pair,0,4', text='POLYGON((0 0, 50 1, 100 0, 100 50, 103 100, 0 100))')
            self.assertEqual(made.stderr, 'records: polygon 1: 4 of 6 vertices are left\n')
            self.assertEqual(made.stdout.splitlines()[1], 'pair,0,2')
            self.assertEqual(saved.load(str(kept)).polygons.popitem()[1][0].numbers, [0, 2, 4, 5])
        made = run('records', '--thin', '4', '--ask', 'pair,0,1', text='POLYGON((0 0, 50 1, 100 0, 100 50, 103 100, 0 100))')
        self.assertIn('vertex 1 of polygon 1 was thinned out', made.stderr)
        made = run('records', '--thin', '4', text='POLYGON((0 0, 90 90, 90 0, 1 90, 0 89))')
        self.assertEqual((made.returncode, made.stdout), (1, ''))
        self.assertIn('share a point where they must not', made.stderr)
