"""From a script and its answers to GeoJSON: what each record becomes, and which answers do not fit a script."""
from __future__ import annotations

import importlib
import itertools
import json
import unittest
from fractions import Fraction
from pathlib import Path
from tempfile import TemporaryDirectory
from typing import Any, List, Optional, Sequence, Tuple

from .common import PROGRAM, TOP, WITHOUT, Word, run
from geo_exact import Frame
from geo_exact.answers import answered, saved
from geo_exact.backends import Recorded, chosen
from geo_exact.commands import geojson
from geo_exact.commands.features import TYPES
from geo_exact.commands.outline import checksum
from geo_exact.fault import Fault
from geo_exact.region import Region, turn

try:
    shapely: Any = importlib.import_module('shapely.geometry')
except ImportError:
    shapely = None

SCRIPT = b'\xef\xbb\xbfkernel\r\n\r\npolygon , 0,0,"4",0,4,4\nsee,4,1\ninside,9,9\n'
OUTPUT = b'bad,no_polygon\npolygon,3\nsee,3\npart,0,1/3,0,4,0\npart,1,4,0,4,4\npart,2,4,4,1/3,1/3\noutside\n'

SCRIPT_2 = b' geo , 2\npolygon,0,0,4,0,4,2,2,2,2,4,0,4\npath,4,0,0,4\ngeo,2\n'
OUTPUT_2 = b'geo,2\npolygon,6\npath,3,4,0,2,2,0,4\nbad,word\n'

SCRIPT_3 = b'polygon,0,0,4,0,4,4\nguards\npair,2,1\nsights\npair,0,3\ntree,4,4\npath,1,1,1,1\nkernel\n'
OUTPUT_3 = (b'polygon,3\nguards,1,0\npath,2,4,4,4,0\nsights,3\nsight,0,1\nsight,0,2\nsight,1,2\nbad,index,2\ntree,3\nfrom,0,s\nfrom,1,2\n'
            b'from,2,-\npath,1,1,1\nkernel,2\ncorner,0,0\ncorner,1/3,1/3\n')

# awkward polygons, with rays that touch a tooth from each side
POLYGONS = {
    'L': [(0, 0), (4, 0), (4, 2), (2, 2), (2, 4), (0, 4)],
    'L from its end': [(0, 4), (2, 4), (2, 2), (4, 2), (4, 0), (0, 0)],
    'teeth': [(-2, -3), (3, -3), (4, 0), (5, -3), (8, -3), (8, 3), (3, 3), (2, 0), (1, 3), (-2, 3)],
    'rooms': [(0, 0), (2, 0), (2, 1), (4, 1), (4, 2), (1, 2), (1, 1), (0, 1)],
    'flat vertices': [(0, 0), (2, 0), (4, 0), (4, 1), (4, 2), (3, 2), (3, 9), (2, 2), (0, 2), (0, 1)],
    'comb': [(0, 0), (9, 0), (9, 5), (8, 5), (8, 1), (7, 1), (7, 5), (5, 5), (5, 1), (4, 1), (4, 5), (2, 5), (2, 1), (0, 1)],
    'spiral': [(0, 0), (7, 0), (7, 7), (1, 7), (1, 2), (5, 2), (5, 5), (3, 5), (3, 4), (4, 4), (4, 3), (2, 3), (2, 6), (6, 6), (6, 1),
               (0, 1)],
}


class Scripts(unittest.TestCase):
    def test_each_record_has_its_lines(self) -> None:
        rows = answered.paired(SCRIPT, OUTPUT)
        self.assertEqual([(row.word, len(row.lines), row.is_refused) for row in rows],
                         [('kernel', 1, True), ('polygon', 1, False), ('see', 4, False), ('inside', 1, False)])
        self.assertEqual(rows[1].points, [(0, 0), (4, 0), (4, 4)])

    def test_answers_in_numbers(self) -> None:
        guards, pair, sights, _, tree, path, kernel = (row.answer for row in answered.paired(SCRIPT_3, OUTPUT_3)[1:])
        self.assertEqual([guards.told, sights.told, tree.told], [[0], [0, 1, 0, 2, 1, 2], [0xffff_fffe, 2, 0xffff_ffff]])
        self.assertEqual([pair.asked, pair.points, path.points], [[], [(4, 4), (4, 0)], [(1, 1)]])
        self.assertEqual(list(map(str, kernel.corners[1])), ['1/3', '1/3'])

    def test_version_2(self) -> None:
        rows = answered.paired(SCRIPT_2, OUTPUT_2)
        self.assertEqual([answered.version(rows), answered.version(rows[1:]), answered.version(rows[3:])], [2, 1, 1])

    def test_more_digits_than_python_reads(self) -> None:
        self.assertEqual(answered.pairs(['+' + '0' * 5000 + '7', '-' + '0' * 5000]), [(7, 0)])

    def test_answers_that_do_not_fit(self) -> None:
        cases: List[Any] = [
            (SCRIPT, OUTPUT[:-8], "record 4 of the script, 'inside,9,9', has no answer: the answers end after 3 of 4 records"),
            (SCRIPT, OUTPUT + b'outside\n', 'there are more answers than the 4 records'),
            (SCRIPT, OUTPUT_2, "record 1 of the script, 'kernel', has no answer: 'geo,2' does not answer it"),
            (SCRIPT, OUTPUT.replace(b'polygon,3', b'polygon,4'), "record 2 of the script, 'polygon,0,0,4,0,4,4', has no answer"),
            (SCRIPT, OUTPUT[:-27], "record 3 of the script, 'see,4,1', has no answer: 'see,3' does not answer it"),
            (SCRIPT, OUTPUT.replace(b'4,4,1/3', b'4,4'), "record 3 of the script, 'see,4,1', has no answer: 'see,3' does not answer it"),
            (SCRIPT, b'\xff\n', "record 1 of the script, 'kernel', has no answer: 'ÿ' does not answer it"),
            (SCRIPT_2, OUTPUT_2.replace(b'2,2,0,4', b'2,2,0'), "record 3 of the script, 'path,4,0,0,4', has no answer"),
            (SCRIPT_3, OUTPUT_3.replace(b'guards,1,0', b'guards,1,3'), "the answer to record 2 of the script, 'guards', has a vertex"),
            (SCRIPT_3, OUTPUT_3.replace(b'3\nfrom,0,s\n', b'2\n'), "the answer to record 6 of the script, 'tree,4,4', has a vertex"),
            (SCRIPT_3, OUTPUT_3.replace(b'path,1,1,1', b'path,0'), "record 7 of the script, 'path,1,1,1,1', has no answer"),
            (b'round,0,0,4,0\n', b'round,2,0,2\n', "the answer to record 1 of the script, 'round,0,0,4,0', has a vertex or a point"),
            (SCRIPT_3, OUTPUT_3.replace(b'1/3', b'1/0'), "record 8 of the script, 'kernel', has no answer"),
            (b'collection\n', b'collection\n', "record 1 of the script, 'collection', has no answer"),
        ]
        for script, output, message in cases:
            with self.assertRaises(Fault) as raised:
                geojson.collection(script, output, saved.Saved(Frame()))
            self.assertTrue(str(raised.exception).startswith(message), raised.exception)


class Answers(unittest.TestCase):
    """Answers as GeoJSON, from a file."""

    def setUp(self) -> None:
        folder = TemporaryDirectory()
        self.addCleanup(folder.cleanup)
        self.frame, self.answers = Path(folder.name) / 'frame', Path(folder.name) / 'answers'
        self.answers.write_bytes(OUTPUT)
        self.keep('GeoJSON', None)

    def keep(self, form: str, crs: Any, polygons: str = '') -> None:
        text = saved.dumps(Frame((8, 0), 10), form, crs)
        self.frame.write_text(text.replace('"polygons": []', f'"polygons": [{polygons}]'))

    def collection(self, *words: Word, text: bytes = SCRIPT) -> Any:
        made = run('geojson', '--frame', self.frame, '--answers', self.answers, *words, text=text)
        self.assertEqual(made.returncode, 0, made.stderr)
        return json.loads(made.stdout)

    def features(self, *words: Word, text: bytes = SCRIPT) -> List[Any]:
        found: List[Any] = self.collection(*words, text=text)['features']
        return found

    def test_in_the_units_of_the_data(self) -> None:
        found = self.features()
        self.assertEqual([it['geometry'] and it['geometry']['type'] for it in found], [None, 'Polygon', 'Polygon', 'Point'])
        self.assertEqual(found[0]['properties'], {'question': 1, 'record': 'kernel', 'refused': 'no_polygon'})
        self.assertEqual(found[1]['properties'], {'question': 2, 'record': 'polygon', 'polygon': 1, 'vertices': 3})
        self.assertEqual(found[1]['geometry']['coordinates'], [[[8, 0], [8.4, 0], [8.4, 0.4], [8, 0]]])
        self.assertEqual(found[2]['properties']['parts'][0], [0, '241/30', '0', '8.4', '0'])
        self.assertEqual(found[2]['properties']['viewpoint'], 'POINT (8.4 0.1)')
        self.assertEqual(found[2]['geometry']['coordinates'][0][0], [241 / 30, 0])
        self.assertEqual(self.features('--digits', '2')[2]['geometry']['coordinates'][0][0], [8.03, 0])
        frame = saved.load(str(self.frame))
        self.assertEqual(json.loads(geojson.collection(SCRIPT, OUTPUT, frame, digits=2))['features'], self.features('--digits', '2'))

    def test_lines_and_points_with_their_numbers(self) -> None:
        self.answers.write_bytes(OUTPUT_3)
        found = self.features(text=SCRIPT_3)
        rows = [(it['properties']['record'], it['geometry'] and it['geometry']['type']) for it in found]
        self.assertEqual(rows, [
            ('polygon', 'Polygon'), ('guards', 'Point'), ('pair', 'LineString'), *3 * [('sights', 'LineString')], ('pair', None),
            *2 * [('tree', 'LineString')], ('tree', 'Point'), ('path', 'Point'), ('kernel', 'LineString')])
        ends = [(it['properties']['from'], it['properties']['to']) for it in found if 'from' in it['properties']]
        self.assertEqual(ends, [(2, 1), (0, 1), (0, 2), (1, 2), ('s', 0), (2, 1), ('-', 2)])
        self.assertEqual(found[7]['geometry']['coordinates'], [[8.4, 0.4], [8, 0]])

    def test_one_command_has_one_type(self) -> None:
        self.answers.write_bytes(OUTPUT_3)
        tree = self.features('--only', 'tree', text=SCRIPT_3)
        self.assertEqual([it['geometry'] and it['geometry']['type'] for it in tree], ['LineString', 'LineString', None])
        self.assertEqual(tree[2]['properties']['wkt'], 'POINT (8.4 0.4)')
        kernel = self.features('--only', 'kernel', text=SCRIPT_3)
        self.assertEqual(kernel[0]['properties']['wkt'], 'LINESTRING (8 0, 8.033333333333333 0.03333333333333333)')
        self.assertEqual(kernel[0]['properties']['corners'], [['8', '0'], ['241/30', '1/30']])

    def test_the_crs(self) -> None:
        self.assertNotIn('crs', self.collection())
        self.keep('WKT', None)
        self.assertEqual([self.collection()[key] for key in ('crs', 'crs_of_data')], [None, 'none is named'])
        crs = {'type': 'name', 'properties': {'name': 'urn:ogc:def:crs:EPSG::25832'}}
        self.keep('WKT', crs)
        self.assertEqual([self.collection()[key] for key in ('crs', 'crs_of_data')], [crs, 'urn:ogc:def:crs:EPSG::25832'])

    def test_names_and_numbers_of_the_data(self) -> None:
        points = checksum([(0, 0), (4, 0), (4, 4)])
        entries = [{'polygon': number, 'name': '"@1@', 'id': 'x', 'points': points, 'vertices': [0, 2, 7]} for number in (5, 6)]
        self.keep('WKT', None, ','.join(map(json.dumps, entries)))
        self.answers.write_bytes(OUTPUT_3)
        found = self.features(text=SCRIPT_3)
        self.assertEqual(found[1]['properties'], {
            'question': 2, 'record': 'guards', 'polygon': 5, 'name': '"@1@', 'id': 'x', 'guard': 1, 'of': 1, 'vertex': 0})
        self.assertEqual([(it['properties']['from'], it['properties']['to']) for it in found[3:6]], [(0, 2), (0, 7), (2, 7)])
        kept = saved.load(str(self.frame))
        for _ in range(2):  # equal polygons are known in their order, each time
            found = json.loads(geojson.collection(3 * b'polygon,0,0,4,0,4,4\n', 3 * b'polygon,3\n', kept))['features']
            self.assertEqual([it['properties']['polygon'] for it in found], [5, 6, 6])

    def test_the_frame_of_another_script_is_named(self) -> None:
        answers = {answer.name: answer for answer in (TOP / 'examples').glob('*.stdout')}
        for script, said in [('bracket', ''), ('lake', 'is it the frame of another script?')]:
            made = run('geojson', TOP / 'examples' / script, '--frame', TOP / 'examples/bracket.frame', '--answers', answers[f'{script}.stdout'])
            self.assertEqual((made.returncode, said in made.stderr, bool(said)), (0, True, bool(made.stderr)))

    def test_a_rejected_polygon_is_named(self) -> None:
        points = checksum([(0, 0), (4, 4), (4, 0), (0, 4)])
        self.keep('WKT', None, json.dumps({'polygon': 1, 'name': 'tie', 'id': None, 'points': points, 'vertices': [0, 2, 3, 4]}))
        self.answers.write_bytes(b'bad,clash,0,2\nbad,no_polygon\n')
        for tool in 'geojson', 'draw':
            made = run(tool, '--frame', self.frame, '--answers', self.answers, text='polygon,0,0,4,4,4,0,0,4\nkernel\n')
            self.assertEqual(made.returncode, 1)
            self.assertEqual(made.stderr, f'{tool}: polygon 1 (tie) is rejected: the edge from vertex 0 (8, 0) to vertex 2 (8.4, 0.4) '
                             'and the edge from vertex 3 (8.4, 0) to vertex 4 (8, 0.4) share a point where they must not\n')
        self.answers.write_bytes(b'bad,clash,0,2\npolygon,3\nbad,clash,0,2\nkernel,0\n')
        found = self.features(text=b'polygon,0,0,4,4,4,0,0,4\npolygon,0,0,4,0,4,4\npolygon,0,0,4,4,4,0,0,4\nkernel\n')
        self.assertEqual([it['properties']['polygon'] for it in found], [1, 2, 1, 2])

    def test_answers_from_standard_input(self) -> None:
        script = self.frame.with_name('script')
        script.write_bytes(SCRIPT_2)
        for tool in 'geojson', 'draw':
            made = run(tool, script, '--frame', self.frame, '--answers', '-', text=OUTPUT_2)
            self.assertEqual((made.returncode, made.stderr), (0, ''))
            cases: List[Tuple[Sequence[Word], int, str]] = [
                ((script, '--answers', '-'), 1, "record 2 of the script, 'polygon,0,0,4,0,4,2,2,2,2,4,0,4', has no answer"),
                (('--answers', '-'), 2, '--answers -: the script comes from standard input already'),
                ((script, '--answers', '-', '--program', 'geo'), 2, '--answers and --program: give one of them'),
                ((script, '--answers', script / 'none'), 1, f'{script}/none: not a directory')]
            for words, status, message in cases:
                failed = run(tool, '--frame', self.frame, *words, text='geo,2\n')
                self.assertEqual((failed.returncode, failed.stdout), (status, ''))
                self.assertTrue(failed.stderr.startswith(f'{tool}: {message}'), failed.stderr)


@unittest.skipUnless(PROGRAM, WITHOUT)
class Views(unittest.TestCase):
    def test_each_is_the_union_of_its_triangles(self) -> None:
        """From each point of a grid in each polygon, also on edges and vertices."""
        lines = 0
        for name, ring in POLYGONS.items():
            xs, ys = zip(*ring)
            places = itertools.product(range(min(xs), max(xs) + 1), range(min(ys), max(ys) + 1))
            rows: List[List[object]] = [['polygon', *itertools.chain(*ring)], *(['see', *place] for place in places)]
            for row in answered.ask(answered.bytes_of(rows), chosen(PROGRAM))[1:]:
                viewpoint, corners = row.points[0], row.answer.corners
                seen = Region.of_walk(corners)
                triangles = sum((abs(Fraction(turn(viewpoint, a, b))) for a, b in zip(corners[::2], corners[1::2])), Fraction(0))
                self.assertEqual(2 * seen.area, triangles, (name, viewpoint))
                self.assertTrue(shapely is None or shapely.shape(seen).is_valid, (name, viewpoint))
                lines += len(seen.lines)
        self.assertEqual(lines, 11)


@unittest.skipUnless(PROGRAM, WITHOUT)
class Hulls(unittest.TestCase):
    """The GeoJSON of hulls and rounds in an L."""

    def geometries(self, *records: str, is_recorded: bool = False) -> List[Optional[str]]:
        script = ('polygon,0,0,4,0,4,2,2,2,2,4,0,4\n' + '\n'.join(records)).encode()
        program = chosen(PROGRAM)
        found = geojson.collection(script, program.answer_script(script), saved.Saved(Frame()), backend=None if is_recorded else program)
        return [json.dumps(it['geometry']['coordinates']) if it['geometry'] else None for it in json.loads(found)['features'][1:]]

    def test_polygons(self) -> None:
        ring = '[[[0, 0], [4, 1], [2, 2], [1, 4], [0, 0]]]'
        self.assertEqual(self.geometries('hull,0,0,4,1,1,4', 'round,0,0,4,1,1,4', 'geo,2', 'round,4,1,1,4,0,0'), [ring, ring, None, ring])

    def test_lines_and_points(self) -> None:
        self.assertEqual(self.geometries('hull,4,2,2,4', 'round,4,2,2,4', 'hull,1,1', 'round,1,1'),
                         2 * ['[[2, 4], [2, 2], [4, 2]]'] + 2 * ['[1, 1]'])

    def test_a_boundary_that_meets_itself(self) -> None:
        """It goes along the edge from (4, 2) to (2, 2) there and back, also where version 1 does not name (2, 2)."""
        ring = '[[[1, 2], [2, 2], [2, 4], [1, 2]]]'
        self.assertEqual(self.geometries('hull,4,2,2,4,1,2', 'round,4,2,2,4,1,2'), [ring, ring])
        rings = '[[[[1, 4], [2, 2], [2, 4], [1, 4]]], [[[2, 2], [4, 1], [4, 2], [2, 2]]]]'
        self.assertEqual(self.geometries('hull,4,1,4,2,2,4,1,4'), [rings])

    def test_a_round_without_a_program(self) -> None:
        self.assertEqual(self.geometries('round,4,1,1,4,0,0,1,1', 'round,1,1', is_recorded=True), ['[[4, 1], [1, 4], [0, 0]]', '[1, 1]'])


@unittest.skipUnless(PROGRAM, WITHOUT)
@unittest.skipIf(shapely is None, 'without Shapely')
class Valid(unittest.TestCase):
    """All answers to all examples, and those to one command, which have one type of geometry."""

    def test_shapely_calls_all_answers_valid(self) -> None:
        for example in sorted((TOP / 'examples').glob('*.stdout')):
            script, kept = example.with_suffix(''), example.with_suffix('.frame')
            if not script.exists() or not script.read_bytes():
                continue
            given = script.read_bytes(), example.read_bytes(), saved.load(str(kept)) if kept.exists() else saved.Saved(Frame())
            words = {row.word for row in answered.ask(given[0], Recorded(given[1]))}
            for only in [None, *sorted(words & set(TYPES))]:
                for it in json.loads(geojson.collection(*given, only, backend=chosen(PROGRAM)))['features']:
                    shape = shapely.shape(it['geometry']) if it['geometry'] else None
                    self.assertTrue(shape is None or shape.is_valid and not shape.is_empty, (example.stem, it['properties']))
                    self.assertTrue(shape is None or only is None or shape.geom_type == TYPES[only], (example.stem, it['properties']))
