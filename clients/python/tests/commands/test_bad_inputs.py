"""Inputs that are wrong: each gets one line that says what is wrong and where, and status 1, or 2 for a wrong option."""
from __future__ import annotations

import os
import subprocess
import sys
import unittest
from pathlib import Path
from tempfile import TemporaryDirectory
from typing import Tuple, Union

from .common import SQUARE, TOP, L, collection, feature, forked, geojson
from geo_exact.commands.outline import checksum

Case = Tuple[str, Union[str, bytes], int, str]  # words, standard input, status, what the line has


def ring(vertices: str) -> str:
    return geojson('Polygon', f'[[{vertices}]]')


def named(geometry: str) -> str:
    return collection(feature(geojson('Polygon', f'[{SQUARE}]')), feature(geometry, '{"name": "yard"}'))


FAR = 'POLYGON ((0 0, 3000000 0, 0 1))'
FINE = 'POLYGON ((0 0, 1 0.00000000001, 1 1))'
BOW = 'POLYGON ((0 0, 4 4, 4 0, 0 4))'

RECORDS: list[Case] = [
    # files
    ('records {folder}/none', '', 1, 'none: no such file'),
    ('records {folder}', '', 1, 'is a directory'),
    ('records', '', 1, 'standard input: is empty'),
    ('records', '  \n ', 1, 'is empty'),
    ('records {folder}/zip', '', 1, 'is a ZIP archive'),
    ('records {folder}/utf16', '', 1, 'is UTF-16'),
    ('records', b'\x1f\x8b\x08\x00', 1, 'is gzip'),
    ('records', b'SQLite format 3\x00', 1, 'is an SQLite database'),
    ('records', b'\x00\x00\x27\x0a\x00\x00', 1, 'is a Shapefile'),
    ('records', b'POLYGON ((0 0,\n1 \xe9 0, 0 1))', 1, 'line 2: is not in UTF-8: byte 0xe9'),
    ('records', b'\x00\x01', 1, 'neither GeoJSON nor WKT'),
    # JSON
    ('records', '{"type": "Polygon", "coordinates": [[[0, 0], [1,', 1, 'line 1, column 49: is not JSON: Expecting value'),
    ('records', '{"type": "Polygon"', 1, 'is not JSON'),
    ('records', '{"type": "Polygon",}', 1, 'is not JSON'),
    ('records', ring('[0, 0], [1, 0], [0, 1]') * 2, 1, 'is not JSON: Extra data'),
    ('records', '[' * 100_000, 1, 'nested too deep'),
    ('records', '[1, 2]', 1, 'standard input: is not GeoJSON: it has no type'),
    ('records', '"Polygon"', 1, 'standard input: is not GeoJSON: it has no type'),
    ('records', '{}', 1, 'standard input: is not GeoJSON: it has no type'),
    ('records', '{"type": 7}', 1, 'standard input: is not GeoJSON: it has no type'),
    ('records', '{"type": "Topology", "objects": {}}', 1, "there is no type 'Topology' of geometry"),
    ('records', '{"type": "Polygon"}', 1, 'the coordinates of the Polygon are missing'),
    ('records', '{"type": "MultiPolygon"}', 1, 'the coordinates of the MultiPolygon are missing'),
    ('records', '{"type": "FeatureCollection"}', 1, 'the features of the FeatureCollection are missing'),
    ('records', '{"type": "GeometryCollection"}', 1, 'the geometries of the GeometryCollection are missing'),
    ('records', '{"type": "FeatureCollection", "features": 3}', 1, 'the features of the FeatureCollection are no list'),
    ('records', collection('null'), 1, 'feature 1: is not GeoJSON'),
    ('records', '{"type": "Feature", "properties": {}}', 1, 'has no geometry'),
    ('records', '{"type": "Feature", "properties": [1], "geometry": null}', 1, 'the properties are no object'),
    ('records', feature('null'), 1, 'no polygon in the data; passed over: 1 feature without a geometry'),
    ('records', geojson('Point', '[1, 2]'), 1, 'no polygon in the data; passed over: 1 Point'),
    ('records', collection(), 1, 'no polygon in the data'),
    ('records', named('{"type": "Polygon"}'), 1, 'feature 2 (yard): the coordinates of the Polygon are missing; --skip'),
    ('records', geojson('Polygon', 'null'), 1, 'the coordinates of the Polygon are no list'),
    ('records', geojson('Polygon', '[]'), 1, 'the polygon has no ring'),
    ('records', geojson('Polygon', '[[]]'), 1, 'ring 1: the ring is empty'),
    ('records', geojson('Polygon', '[7]'), 1, 'ring 1: the ring is empty'),
    ('records', geojson('MultiPolygon', f'[[{SQUARE}], []]'), 1, 'part 2: the polygon has no ring'),
    ('records', named(geojson('Polygon', '[[]]')), 1, 'feature 2, ring 1 (yard): the ring is empty'),
    ('records', named(geojson('Polygon', f'[{SQUARE}, {SQUARE}]')), 1, 'polygon 2 (yard): has 1 hole, and a polygon of geo has one ring; --outer'),
    ('records', ring('[0, 0], [1], [0, 1]'), 1, 'ring 1, vertex 1: [1] is not a point'),
    ('records', ring('[0, 0], 7, [0, 1]'), 1, 'vertex 1: 7 is not a point'),
    ('records', ring('[0, 0], {}, [0, 1]'), 1, 'vertex 1: {} is not a point'),
    ('records', ring('[0, 0], [null, 1], [0, 1]'), 1, 'vertex 1: null is not a number'),
    ('records', ring('[0, 0], [1, "1"], [0, 1]'), 1, 'vertex 1: "1" is not a number'),
    ('records', ring('[0, 0], [1, [2]], [0, 1]'), 1, 'vertex 1: [2] is not a number'),
    ('records', ring('[0, 0], [1, true], [0, 1]'), 1, 'vertex 1: true is not a number'),
    ('records', ring('[0, 0], [NaN, 1], [0, 1]'), 1, 'vertex 1: NaN is not a number'),
    ('records', ring('[0, 0], [1, -Infinity], [0, 1]'), 1, 'vertex 1: -Infinity is not a number'),
    ('records', ring('[0, 0], [1, 1e99999999], [0, 1]'), 1, 'vertex 1: 1E+99999999 has more than 400 digits'),
    ('records', ring('[0, 0], [1, 1e-99999999], [0, 1]'), 1, 'vertex 1: 1E-99999999 has more than 400 digits'),
    ('records', ring(f'[0, 0], [1, {"1" * 500}], [0, 1]'), 1, '111... has more than 400 digits'),
    ('records', ring(f'[0, 0], [1, {"1" * 5000}], [0, 1]'), 1, 'digits'),
    ('records', '{"type": "FeatureCollection", "crs": "a", "features": [{"type": "Feature", "crs": "b", "geometry": null}]}', 1,
     'feature 1: names another CRS than the data before it'),
    # WKT
    ('records', 'POLYGON ((0 0, 1 0, 0 1)', 1, "line 1, column 25: WKT breaks off, since a parenthesis is not closed: the end of the text"),
    ('records', 'POLYGON ((0 0, 1 0, 0', 1, 'WKT breaks off'),
    ('records', 'POLYGON ((0 0, 1 0,', 1, 'line 1, column 11: WKT breaks off'),
    ('records', 'POLYGON', 1, "column 8: WKT is cut or wrong: '(' is expected: the end of the text"),
    ('records', 'POLYGON 1', 1, "line 1, column 9: WKT is cut or wrong: '(' is expected: '1'"),
    ('records', 'POLYGON EMPTY', 1, 'the polygon has no ring'),
    ('records', 'MULTIPOLYGON EMPTY', 1, 'geometry 1: the MultiPolygon is empty'),
    ('records', 'MULTIPOLYGON (((0 0, 1 0, 0 1)), EMPTY)', 1, 'part 2: the polygon has no ring'),
    ('records', 'POLYGON (EMPTY)', 1, 'ring 1: the ring is empty'),
    ('records', 'POLYGON (())', 1, 'ring 1, vertex 0: [] is not a point'),
    ('records', f'{L}\nPOLYGON ((0 0, 1, 0 1))', 1, 'geometry 2, ring 1, vertex 1: ["1"] is not a point'),
    ('records', 'POLYGON ((0 0, 1 nan, 0 1))', 1, 'vertex 1: "nan" is not a number'),
    ('records', 'POLYGON ((0 0, 1 1_0, 0 1))', 1, 'vertex 1: "1_0" is not a number'),
    ('records', 'POLYGON ((0 0, 1 0x1F, 0 1))', 1, '"0x1F" is not a number'),
    ('records', 'POLYGON ((0 0, 1 1e99999999, 0 1))', 1, 'vertex 1: 1E+99999999 has more than 400 digits'),
    ('records', 'POLYGON (0 0, 1 0, 0 1)', 1, 'ring 1, vertex 0: 0 is not a point'),
    ('records', 'POLYGON ((0 0, 9 0, 0 9), (1 1, 2 1, 1 2))', 1, 'polygon 1: has 1 hole, and a polygon of geo has one ring'),
    ('records', 'CURVEPOLYGON (CIRCULARSTRING (0 0, 1 1, 2 0, 1 -1, 0 0))', 1, 'is curved, a CURVEPOLYGON'),
    ('records', 'MULTISURFACE (CURVEPOLYGON ((0 0, 1 0, 0 1)))', 1, 'is curved'),
    ('records', 'TRIANGLE ((0 0, 1 0, 0 1, 0 0))', 1, "geometry 1: there is no type 'TRIANGLE' of geometry"),
    ('records', 'SRID=25832 POLYGON ((0 0, 1 0, 0 1))', 1, "column 5: WKT is cut or wrong"),
    ('records', 'SRID=x;POLYGON ((0 0, 1 0, 0 1))', 1, "column 5: WKT is cut or wrong"),
    ('records', 'SRID=1.5;POLYGON ((0 0, 1 0, 0 1))', 1, "column 5: WKT is cut or wrong"),
    ('records', f'SRID=1;{L};SRID=2;{L}', 1, 'geometry 2: names another CRS than the data before it'),
    ('records', 'GEOMETRYCOLLECTION (' * 40, 1, 'nested too deep'),
    ('records', 'LINESTRING ' + '(' * 40, 1, 'nested too deep'),
    ('records', 'id,wkt\n1,"POLYGON ((0 0, 1 0, 0 1))"', 1, "line 1, column 1: is neither GeoJSON nor WKT"),
    ('records', '<kml/>', 1, "line 1, column 1: is neither GeoJSON nor WKT: '<kml/>'"),
    ('records', f'{L} #', 1, "line 1, column 47: is neither GeoJSON nor WKT: '#'"),
    # the frame
    ('records', FAR, 1, 'polygon 1, vertex 2: 1 lies between two steps of 10, the finest for which version 1 has room; --two would do'),
    ('records', FINE, 1, 'vertex 1: 0.00000000001 lies between two steps of 0.000001, the finest for which version 1 has room; --round would'),
    ('records --scale 10', 'POLYGON ((0.25 0, 1 0, 0 1))', 1, 'vertex 0: 0.25 lies between two steps of 0.1; --scale 100 would do'),
    ('records --scale 1000000000', L, 1, 'steps of 0.000000001 from 2'),
    ('records --origin 9000000,0 --scale 1', L, 1, '9,000,000 steps of 1 from 9000000'),
    ('records --frame {folder}/frame', 'POLYGON ((0 0, 1 0.5, 0 1))', 1, 'vertex 1: 0.5 lies between two steps of 1; --round would take the nearest 1, or'),
    ('records --frame {folder}/frame', FAR, 1, 'and version 1 has room for 1,000,000; --two would do'),
    ('records --frame {folder}/none', L, 1, 'none: no such file'),
    ('records --frame {folder}', L, 1, 'is a directory'),
    ('records --frame {folder}/zip', L, 1, 'is a ZIP archive'),
    ('records --frame {folder}/cut', L, 1, 'cut is no frame'),
    ('records --frame {folder}/list', L, 1, 'list is no frame'),
    ('records --frame {folder}/scale0', L, 1, 'scale0 is no frame'),
    ('records --save {folder}/none/frame', L, 1, 'no such file'),
    ('records --save {folder}', L, 1, 'is a directory'),
    ('records', 'POLYGON ((' + ', '.join(f'{x} {x % 2}' for x in range(4097)) + '))', 1,
     'polygon 1: has 4,097 vertices, and version 1 takes 4,096 at most; --two takes them, or --thin 4096'),
    ('records --two', 'POLYGON ((' + ', '.join(f'{x} {x % 2}' for x in range(16_385)) + '))', 1,
     'has 16,385 vertices, and version 2 takes 16,384 at most; --thin 16384'),
    # questions
    ('records --ask see,0.5,1', L, 1, '--ask see,0.5,1: 0.5 lies between two steps of 1; --round'),
    ('records --ask see,5000000,1', L, 1, '--ask see,5000000,1: 5000000 is 5,000,000 steps of 1 from 0'),
    ('records --ask inside,1,1,2', L, 2, "--ask 'inside,1,1,2' has 3 numbers after the word, and inside takes 2"),
    ('records --ask guards,5', L, 2, "'guards,5' has 1 numbers after the word, and guards takes none"),
    ('records --ask kernel,3', L, 2, 'kernel takes none'),
    ('records --ask hull,1,1,2', L, 2, 'hull takes an even count from 2 to 128'),
    ('records --ask check', L, 2, 'check takes an even count from 2 to 32,768'),
    ('records --ask path,1,1', L, 2, 'path takes 4'),
    ('records --ask inside,1_0,1', L, 2, "at place 1, '1_0' is no number"),
    ('records --ask inside,1,one', L, 2, "at place 2, 'one' is no number"),
    ('records --ask inside,1,', L, 2, "at place 2, '' is no number"),
    ('records --ask inside,1/0,1', L, 2, "'1/0' divides by 0"),
    ('records --ask inside,nan,1', L, 2, "'nan' is no number"),
    ('records --ask inside,\u0661,1', L, 2, 'is no number'),
    ('records --ask inside,1e999999999,1', L, 2, 'is beyond all use'),
    ('records --ask pair,0', L, 2, 'pair takes 2'),
    ('records --ask pair,0,-1', L, 2, "at place 2, '-1' is no number of a vertex"),
    ('records --ask pair,0,1.5', L, 2, "'1.5' is no number of a vertex"),
    ('records --ask frob,1,1', L, 2, "there is no question 'frob': the words are inside, path"),
    ('records --ask Inside,1,1', L, 2, "there is no question 'Inside'"),
    ('records --ask polygon,0,0,1,0,0,1', L, 2, 'polygon is no question'),
    ('records --ask geo,2', L, 2, 'geo is no question'),
    ('records --ask=', L, 2, "there is no question ''"),
    # options
    ('records --frob', L, 2, 'unrecognized arguments: --frob'),
    ('records --ask', L, 2, '--ask: expected one argument'),
    ('records a b', L, 2, 'unrecognized arguments: b'),
    ('records --scale 0', L, 2, "--scale '0' is no scale"),
    ('records --scale -1', L, 2, "--scale '-1' is no scale"),
    ('records --scale x', L, 2, "--scale 'x' is no number"),
    ('records --scale 1/0', L, 2, 'divides by 0'),
    ('records --scale nan', L, 2, 'is no number'),
    ('records --scale 1e999999999', L, 2, 'is beyond all use'),
    ('records --scale 1 --scale 2', L, 2, '--scale is given twice'),
    ('records --origin 1', L, 2, "--origin '1': two numbers"),
    ('records --origin 1,2,3', L, 2, 'two numbers'),
    ('records --origin a,b', L, 2, 'two numbers'),
    ('records --origin -1,b', L, 2, "--origin '-1,b': two numbers"),
    ('records --frame {folder}/frame --scale 1', L, 2, '--frame has an origin and a scale'),
    ('records --frame {folder}/frame --origin 0,0', L, 2, '--frame has an origin and a scale'),
    ('records --round --round', L, 2, '--round is given twice'),
    ('records --rou', L, 2, 'unrecognized arguments: --rou'),
    ('records --all', L, 2, '--all is for questions'),
    ('records --thin 2', L, 2, "--thin '2': an integer from 3 to 4,096"),
    ('records --thin 5000', L, 2, 'from 3 to 4,096'),
    ('records --thin many', L, 2, "--thin 'many'"),
    # the program, which several polygons or --thin want
    ('records --thin 4 --program {folder}/none', L, 1, 'none\' can not be run: no such file'),
    ('records --thin 4 --program {folder}', L, 1, 'can not be run: permission denied'),
    ('records --thin 4 --program {folder}/list', L, 1, 'can not be run: permission denied'),
    ('records --thin 4 --program {folder}/noexec', L, 1, 'can not be run'),
    ('records --thin 4 --program {folder}/false', L, 1, 'the program ended with status 1'),
    ('records --thin 4 --program {folder}/long', L, 1, 'the program ended with status 3'),
    ('records --thin 4 --program {folder}/killed', L, 1, 'it was ended by signal 9'),
    ('records --thin 4 --program {folder}/babble', L, 1, 'are no answers of geo'),
    ('records --thin 4 --program {folder}/noise', L, 1, 'are no answers of geo'),
    ('records --thin 4 --program {folder}/quiet', L, 1, 'are no answers of geo to 1 polygons'),
    ('records --ask kernel --program {folder}/none', f'{L};{L}', 1, 'can not be run'),
]

ANSWERS: list[Case] = [
    ('geojson', 'kernel\n', 2, 'the following arguments are required: --frame'),
    ('geojson --frame {folder}/none', 'kernel\n', 1, 'none: no such file'),
    ('geojson --frame {folder}/cut', 'kernel\n', 1, 'is no frame'),
    ('geojson {folder}/none --frame {folder}/frame', '', 1, 'none: no such file'),
    ('geojson {folder} --frame {folder}/frame', '', 1, 'is a directory'),
    ('geojson --frame {folder}/frame', '', 1, 'the script has no record'),
    ('geojson --frame {folder}/frame', '\n\n', 1, 'the script has no record'),
    ('geojson --frame {folder}/frame --digits x', 'kernel\n', 2, "--digits 'x': give an integer"),
    ('geojson --frame {folder}/frame --digits -1', 'kernel\n', 2, "--digits '-1': give an integer"),
    ('geojson --frame {folder}/frame --digits 9999999', 'kernel\n', 2, 'give an integer from 0 to 400'),
    ('geojson --frame {folder}/frame --only frob', 'kernel\n', 2, "--only 'frob': the commands are polygon, inside"),
    ('geojson --frame {folder}/frame --only', 'kernel\n', 2, 'expected one argument'),
    ('geojson --frame {folder}/frame --only see --only see', 'kernel\n', 2, '--only is given twice'),
    ('geojson --frame {folder}/frame --exact', 'kernel\n', 2, 'unrecognized arguments: --exact'),
    ('geojson --frame {folder}/frame --only see --program {folder}/bad', 'kernel\n', 1, 'the script has no record see'),
    ('geojson --frame {folder}/frame --program {folder}/none', 'kernel\n', 1, 'can not be run'),
    ('geojson --frame {folder}/frame --program {folder}/false', 'kernel\n', 1, 'ended with status 1'),
    ('geojson --frame {folder}/frame --program {folder}/babble', 'kernel\n', 1, "'kernel', has no answer: 'see,many' does not answer it"),
    ('geojson --frame {folder}/frame --program {folder}/short', 'polygon,0,0,1,0,0,1\nsee,0,0\n', 1, "'see,0,0', has no answer"),
    ('geojson --frame {folder}/names --program {folder}/bad', 'kernel\n', 1, 'names is no frame'),
    ('geojson --frame {folder}/vertices --program {folder}/bad', 'kernel\n', 1, 'vertices is no frame'),
    ('geojson --frame {folder}/few --program {folder}/three', 'polygon,0,0,1,0,0,1\n', 1, 'the frame has other vertices of polygon 1 than the script'),
    ('draw {folder}/none', '', 1, 'none: no such file'),
    ('draw', '', 1, 'the script has no record'),
    ('draw --frame {folder}/list', 'kernel\n', 1, 'is no frame'),
    ('draw --program {folder}/none', 'kernel\n', 1, 'can not be run'),
    ('draw --program {folder}/noise', 'kernel\n', 1, "'kernel', has no answer"),
    ('draw --size 3', 'kernel\n', 2, 'unrecognized arguments: --size'),
]


def frame_of(entry: str) -> bytes:
    """A frame with the polygon 0,0,1,0,0,1."""
    head = '{"origin": ["0", "0"], "scale": "1", "polygons": [{"polygon": 1, "points": "%s", ' % checksum([(0, 0), (1, 0), (0, 1)])
    return (head + entry + '}]}').encode()


FILES = {
    'zip': b'PK\x03\x04', 'utf16': L.encode('utf-16'), 'frame': b'{"origin": ["0", "0"], "scale": "1"}', 'cut': b'{"origin": ["0", ',
    'names': frame_of('"name": [1], "id": null'), 'vertices': frame_of('"name": null, "id": null, "vertices": ["a"]'),
    'few': frame_of('"name": null, "id": null, "vertices": [1, 2]'), 'list': b'[1, 2]', 'scale0': b'{"origin": ["0", "0"], "scale": "0"}',
}
PROGRAMS = {
    'false': b'#!/bin/sh\nexit 1\n', 'long': b'#!/bin/sh\nexit 3\n', 'killed': b'#!/bin/sh\nkill -9 $$\n', 'noexec': b'\x00\x01\x02',
    'babble': b'#!/bin/sh\ncat > /dev/null\nyes see,many | head\n', 'noise': b'#!/bin/sh\ncat > /dev/null\nprintf "\\377\\376"\n',
    'quiet': b'#!/bin/sh\ncat > /dev/null\n', 'bad': b'#!/bin/sh\ncat > /dev/null\necho bad,no_polygon\n',
    'three': b'#!/bin/sh\ncat > /dev/null\necho polygon,3\n',
    'short': b'#!/bin/sh\ncat > /dev/null\necho polygon,3\necho see,3\n',
}


class BadInputs(unittest.TestCase):
    def setUp(self) -> None:
        folder = TemporaryDirectory()
        self.addCleanup(folder.cleanup)
        self.folder = Path(folder.name)
        for name, content in {**FILES, **PROGRAMS}.items():
            (self.folder / name).write_bytes(content)
            if name in PROGRAMS:
                (self.folder / name).chmod(0o755)

    def test_the_table_has_a_hundred(self) -> None:
        self.assertGreaterEqual(len(set(RECORDS + ANSWERS)), 100)

    def test_each_gets_one_line_and_its_status(self) -> None:
        for line, given, status, said in RECORDS + ANSWERS:
            words = [word.format(folder=self.folder) for word in line.split(' ')]
            ended, out, err = forked(words, given.encode() if isinstance(given, str) else given)
            with self.subTest(line, given=given[:60]):
                self.assertEqual((ended, out), (status, ''), err)
                self.assertEqual(err.count('\n'), 1, err)
                self.assertTrue(err.startswith(words[0] + ': '), err)
                self.assertIn(said, err)

    def test_streams_that_take_or_give_nothing(self) -> None:
        tools = str(TOP / 'tools')
        for line, said in [
            (f'{tools}/records > /dev/full', 'standard output takes no more: no space left'),
            (f'{tools}/records >&-', 'standard output is closed'),
            (f'{tools}/records <&-', 'standard input'),
            (f'{{ sleep 0.5; cat; }} | {tools}/records --save frame | true; echo "records: standard output" >&2', 'standard output'),
        ]:
            ran = subprocess.run(['bash', '-c', line], input=L.encode(), cwd=self.folder, capture_output=True, check=False)
            self.assertNotIn(b'Traceback', ran.stderr)
            self.assertIn(said, ran.stderr.decode())

    def test_a_pipe_that_nobody_reads(self) -> None:
        reader, writer = os.pipe()
        os.close(reader)
        ran = subprocess.run([sys.executable, str(TOP / 'tools/records')], input=L.encode(), stdout=writer, stderr=subprocess.PIPE, check=False)
        os.close(writer)
        self.assertEqual((ran.returncode, ran.stderr.decode()), (1, 'records: standard output takes no more: broken pipe\n'))


if __name__ == '__main__':
    unittest.main()
