"""Questions about many polygons, in this process and on workers of Dask's, of which some are killed."""
from __future__ import annotations

import contextlib
import functools
import importlib
import io
import json
import logging
import os
import pickle
import random
import signal
import struct
import subprocess
import sys
import tempfile
import unittest
from concurrent.futures import ProcessPoolExecutor
from multiprocessing import get_context
from pathlib import Path
from typing import Any, Dict, Iterator, List
from unittest import mock

import geo_exact as geo
from geo_exact import Frame, Session, batch
from geo_exact.fault import Fault
from .rings import PACKAGE, L, Shape, comb, geojson, shapely, strip

try:
    distributed: Any = importlib.import_module('distributed')
except ImportError:
    distributed = None
try:
    geopandas: Any = importlib.import_module('geopandas')
except ImportError:
    geopandas = None

COUNT, MIDDLE, BATCH = 600, 300, 20
BOWTIE = [(0, 0), (4, 0), (0, 4), (4, 4)]
HOLES = geojson('Polygon', [comb(8), L])
TWO = geojson('MultiPolygon', [[L], [comb(8)]])


def feature(ident: Any, shape: Any, **properties: Any) -> Any:
    geometry = geojson('Polygon', [shape]) if isinstance(shape, list) else shape
    return {'type': 'Feature', 'id': ident, 'properties': properties, 'geometry': geometry}


def city() -> List[Any]:
    """Features of which one in ten is broken."""
    draw, broken = random.Random(1), [BOWTIE, L[:2], HOLES, TWO, [(0.5, 0), *L[1:]], None]
    return [feature(k, draw.choice(broken) if k % 10 == 9 else strip(draw)) for k in range(COUNT)]


def sequence(*texts: str) -> io.BytesIO:
    return io.BytesIO(''.join(texts).encode())


def by_digits(digits: int, shape: Any) -> Frame:
    return Frame.of(shape, digits)


def kill_once(mark: Path, session: batch.Taken) -> List[int]:
    """The guards. Who asks about the polygon in the middle first is killed."""
    if session.shape['id'] == MIDDLE and not mark.exists():
        mark.touch()
        os.kill(os.getpid(), signal.SIGKILL)
    return session.guards()


def kill_each(session: batch.Taken) -> List[int]:
    """The guards. Who asks about the polygon in the middle is killed."""
    if session.shape['id'] == MIDDLE:
        os.kill(os.getpid(), signal.SIGKILL)
    return session.guards()


def divide(session: batch.Taken) -> float:
    """What can't be told of the polygon in the middle."""
    return 1 / int(session.shape['id'] - MIDDLE)


class Pool:
    """What `answers` needs of a client, over a pool of processes."""

    def __init__(self, pool: ProcessPoolExecutor):
        self.pool = pool

    def submit(self, task: Any, *given: Any, pure: bool) -> Any:
        return self.pool.submit(task, *given)

    def nthreads(self) -> Dict[str, int]:
        return {'worker': 2}


class OneProcess(unittest.TestCase):
    def test_batches_travel_to_other_processes(self) -> None:
        with ProcessPoolExecutor(2, get_context('spawn')) as pool:
            for shapes in city()[:45], [], batch.read(sequence(*(f'{json.dumps(it)}\n' for it in city()[:45]))):
                given = list(shapes)
                found = list(batch.answers(given, Session.kernel, client=Pool(pool), batch=7, frame='auto'))
                self.assertEqual(found, list(batch.answers(given, Session.kernel, frame='auto')))

    def test_answers_come_in_order_with_their_idents(self) -> None:
        given = [feature('first', L), L, geojson('Polygon', [L + L[:1]]), Shape('Polygon', [comb(8)]), feature(7, L, door=(4, 1))]
        found = list(batch.answers(given, lambda session: (session.guards(), len(session.ring or []))))
        self.assertEqual(found, [batch.Answered(k, ident, answer) for k, (ident, answer) in enumerate(
            [('first', ([3], 6)), (None, ([3], 6)), (None, ([3], 6)), (None, (Session(comb(8)).guards(), 8)), (7, ([3], 6))], 1)])
        collection = {'type': 'FeatureCollection', 'features': given[-1:]}
        asked = batch.answers(collection, lambda session: session.path(session.shape['properties']['door'], (1, 4)))
        self.assertEqual(list(asked), [batch.Answered(1, 7, [(4, 1), (2, 2), (1, 4)])])

    def test_what_is_refused_is_named_in_its_place(self) -> None:
        cases: List[Any] = [
            (BOWTIE, 'Clash', (1, 3)), (L[:2], 'Few', ()), ([(0, 0), (1_000_001, 0), (0, 1)], 'Range', (3,)), (comb(4098), 'Many', ()),
            (HOLES, 'Holes', (1,)), (None, 'NotAShape', (1,)), ([(0, 0), (4, 0.5), (0, 4)], 'NotWhole', (4,)),
            ([(0, 0), (4, 'a'), (0, 4)], 'NotANumber', (4,)), ([(0, 0), (4,), (0, 4)], 'NotAPoint', (3,)),
            (geojson('Polygon', []), 'NotAShape', (1,)), (geojson('Point', (1, 1)), 'NotAShape', (1,)), (L, 'Outside', (2,)),
        ]
        found = list(batch.answers((feature(f'polygon {k}', shape) for k, (shape, *_) in enumerate(cases)),
                                  lambda session: session.path((1, 1), (3, 3))))
        self.assertEqual([(it.number, it.ident) for it in found], [(k + 1, f'polygon {k}') for k in range(len(cases))])
        refused = [it for it in found if isinstance(it, batch.Refused)]
        self.assertEqual([(it.kind, it.places) for it in refused], [(kind, places) for _, kind, places in cases])
        self.assertIn('bad,clash,1,3: these edges share a point', refused[0].cause)

    def test_what_is_no_shape_is_refused(self) -> None:
        texts = ['{}', '5', 'null', 'true', '"text"', '[]', '[[1,2]]', '{"type":"Feature"}', '{"type":"Feature","geometry":[1]}',
                 '{"type":"Feature","geometry":5}', '{"type":"Polygon"}', '{"type":"Polygon","coordinates":5}', '{"type":5}',
                 '{"type":"Polygon","coordinates":[5]}', '{"type":"Polygon","coordinates":[[5]]}', '[[NaN,0],[1,0],[0,1]]', '[' * 9999,
                 '{"a":\xff}']
        for frame in (None, functools.partial(by_digits, 1)):
            found = batch.answers(batch.read(sequence(*(f'{text}\n' for text in texts))), Session.guards, frame=frame)
            self.assertEqual([(it.number, type(it)) for it in found], [(k + 1, batch.Refused) for k in range(len(texts))])

    def test_frames(self) -> None:
        ring = [(x / 10 + 500_000, y / 10) for x, y in L]
        wide = [(0.1, 0), (10**9, 0), (0, 1)]
        given = [feature(0, ring), feature(1, wide), feature(2, [(0.25, 0.1), (1, 0), (0, 1)]), feature(3, [])]
        one, refused, between, empty = batch.answers(given, lambda session: session.path((500_000.4, 0.1), (500_000.1, 0.4)),
                                                    frame=functools.partial(by_digits, 1))
        self.assertEqual(one, batch.Answered(1, 0, [(500_000.4, 0.1), (500_000.2, 0.2), (500_000.1, 0.4)]))
        for it, number in zip((refused, between, empty), (2, 3, 4)):
            self.assertIsInstance(it, batch.Refused)
            self.assertEqual(it.number, number)
        halves = [(x / 2, y / 2) for x, y in L]
        hows: List[Any] = [{'frame': Frame(scale=2)}, {'frame': 'auto'}, {'frame': 'auto', 'snap': True}]
        for how in hows:
            self.assertEqual(list(batch.answers([halves], Session.guards, **how)), [batch.Answered(1, None, [3])])

    def test_wide(self) -> None:
        large = [(x * 1_000_000, y * 1_000_000) for x, y in L]
        found = [type(it) for wide in (False, True) for it in batch.answers([large], Session.guards, wide=wide)]
        self.assertEqual(found, [batch.Refused, batch.Answered])

    def test_another_exception_of_the_question_is_raised_with_the_number(self) -> None:
        found = []
        with self.assertRaisesRegex(batch.Stopped, f'^polygon {MIDDLE + 1}: (?s:.*)division by zero') as stopped:
            for it in batch.answers(city(), divide):
                found.append(it.number)
        self.assertEqual(sorted(set(found)), list(range(1, MIDDLE + 1)))
        self.assertEqual(stopped.exception.numbers, range(MIDDLE + 1, MIDDLE + 2))
        self.assertIsInstance(stopped.exception.__cause__, ZeroDivisionError)
        self.assertRaises(ValueError, batch.answers, [], divide, batch=0)

    def test_shapes_are_read_as_they_are_wanted(self) -> None:
        read: List[int] = []

        def endless() -> Iterator[Any]:
            while True:
                read.append(len(read))
                yield L

        asked = batch.answers(endless(), Session.guards)
        for count in range(1, 4):
            self.assertEqual(next(asked), batch.Answered(count, None, [3]))
            self.assertEqual(len(read), count)

    def test_exceptions_travel(self) -> None:
        of_many = geo.Outside(2)
        of_many.question = 4
        raised: List[Exception] = [
            geo.Clash(1, 3), of_many, geo.GeoMemoryError(b'inside'), geo.TooLong('long'), geo.NotWhole(0.5, 3),
            geo.Holes(HOLES, cause='has holes'), batch.NotJson('no JSON', 7), batch.Stopped(range(3, 5), 'lost'),
        ]
        for error in raised:
            found = pickle.loads(pickle.dumps(error))
            self.assertEqual((type(found), vars(found), str(found)), (type(error), vars(error), str(error)))

    def test_multi_polygons_are_taken_apart(self) -> None:
        bowtie = geojson('MultiPolygon', [[L], [BOWTIE]])
        given = [feature('both', TWO, height=3), bowtie, L, batch.Line(4, b'{'), feature(5, geojson('MultiPolygon', []))]
        found = list(batch.answers(given, lambda session: len(session.ring or [])))
        self.assertEqual([(it.number, it.part, it.ident, it.answer if isinstance(it, batch.Answered) else it.kind) for it in found], [
            (1, 1, 'both', 6), (1, 2, 'both', 8), (2, 1, None, 6), (2, 2, None, 'Clash'), (3, None, None, 6), (4, None, None, 'NotJson'),
            (5, None, 5, 'NotAShape')])
        texts = batch.answers(['MULTIPOLYGON (((0 0, 4 0, 0 4)), ((5 5, 9 5, 5 9)))', 'POLYGON ((0 0'], Session.guards)
        self.assertEqual([(it.number, it.part, type(it)) for it in texts],
                         [(1, 1, batch.Answered), (1, 2, batch.Answered), (2, None, batch.Refused)])
        heights = batch.answers(given[:1], lambda session: float(session.shape['properties']['height']))
        self.assertEqual([it.answer for it in heights if isinstance(it, batch.Answered)], [3, 3])


class Files(unittest.TestCase):
    square = json.dumps(feature('a', L))
    spread = json.dumps(feature('b', L), indent=1)

    def read(self, *texts: str) -> List[Any]:
        """What is answered about a sequence: an ident, or the line that is refused."""
        found = batch.answers(batch.read(sequence(*texts)), Session.guards)
        return [it.ident if isinstance(it, batch.Answered) else (it.kind, *it.places) for it in found]

    def test_lines(self) -> None:
        self.assertEqual(self.read(), [])
        self.assertEqual(self.read(self.square), ['a'])
        self.assertEqual(self.read(f'{self.square}\r\n\n \n{self.square[:-9]}\n', f'{self.square}\n'), ['a', ('NotJson', 4), 'a'])
        self.assertEqual(self.read(f'{{"type":\n{self.square}\n'), [('NotJson', 1), 'a'])
        self.assertEqual(self.read('\ufeff', f'{self.square}\n'), ['a'])

    def test_record_separators(self) -> None:
        self.assertEqual(self.read(f'\x1e{self.square}\n\x1e{self.square}\n'), ['a', 'a'])
        self.assertEqual(self.read(f'\x1e{self.spread}\n\x1e{self.square[:-9]}\n\x1e\n\x1e{self.spread}'),
                         ['b', ('NotJson', self.spread.count('\n') + 2), 'b'])

    def test_collections(self) -> None:
        collection = {'type': 'FeatureCollection', 'features': [feature('a', L), feature('b', L)]}
        for indent in (None, 1):
            self.assertEqual(self.read(json.dumps(collection, indent=indent)), ['a', 'b'])
        self.assertEqual(self.read(json.dumps(feature('c', L), indent=1)), ['c'])
        self.assertRaises(ValueError, self.read, json.dumps(collection)[:-9])

    def test_wkt_and_wkb(self) -> None:
        text = 'POLYGON ((0 0, 4 0, 4 2, 2 2, 2 4, 0 4, 0 0))'
        raw = '0103000000' + '01000000' + '04000000' + struct.pack('<8d', 0, 0, 4, 0, 0, 4, 0, 0).hex()
        for given, answers in [(f'{text}\nMULTIPOLYGON (((0 0, 1 0, 0 1)), ((5 5, 6 5, 5 6)))\n', [[3], [0], [0]]), (raw, [[0]])]:
            found = batch.answers(batch.read(sequence(given)), Session.guards, frame='auto')
            self.assertEqual([it.answer for it in found if isinstance(it, batch.Answered)], answers)

    def test_a_path(self) -> None:
        with tempfile.TemporaryDirectory() as folder:
            path = Path(folder) / 'city.geojsonl'
            path.write_text(self.square)
            self.assertEqual([it.ident for it in batch.answers(batch.read(path), Session.guards)], ['a'])


class Command(unittest.TestCase):
    def run_on(self, given: List[Any], *words: str) -> 'subprocess.CompletedProcess[bytes]':
        text = ''.join(f'{json.dumps(it)}\n' for it in given).encode()
        command = [sys.executable, '-m', 'geo_exact', 'batch', '-', *words]
        return subprocess.run(command, cwd=PACKAGE, input=text, capture_output=True)

    def test_answers_are_lines_of_json(self) -> None:
        given = [feature('a', L), feature('b', BOWTIE), feature('c', [(x + 0.126, y) for x, y in L]), feature('d', TWO)]
        cases: List[Any] = [([], {'refused': 'NotWhole', 'places': [1]}), (['--digits', '2'], {'answer': [3]})]
        for words, third in cases:
            ran = self.run_on(given, '--ask', 'guards', *words)
            a, b, c, d, e = map(json.loads, ran.stdout.splitlines())
            self.assertEqual(a, {'number': 1, 'id': 'a', 'answer': [3]})
            self.assertEqual({**b, 'cause': ''}, {'number': 2, 'id': 'b', 'refused': 'Clash', 'places': [1, 3], 'cause': ''})
            c.pop('cause', None)
            self.assertEqual(c, {'number': 3, 'id': 'c', **third})
            self.assertEqual([(it['number'], it['part'], it['id']) for it in (d, e)], [(4, 1, 'd'), (4, 2, 'd')])
            self.assertEqual(ran.stderr.decode(), f'geo-exact batch: {5 - len(third)} answered, {len(third)} refused\n')
            self.assertEqual(ran.returncode, 0)

    def test_long_answers(self) -> None:
        ran = self.run_on([L], '--ask', 'sights', '--wide')
        with Session(L) as session:
            self.assertEqual(json.loads(ran.stdout)['answer'], [list(pair) for pair in session.sights()])

    def said(self, *words: str) -> str:
        """What the command ends with."""
        with self.assertRaises(Fault) as ended:
            batch.main(words)
        return str(ended.exception)

    def test_what_is_missing_is_named(self) -> None:
        with mock.patch.dict(sys.modules, distributed=None, tqdm=None):
            for words in (['--processes', '2'], ['--scheduler', 'tcp://127.0.0.1:1']):
                self.assertIn('apt install python3-distributed', self.said(os.devnull, '--ask', 'guards', *words))
            self.assertIn('apt install python3-tqdm', self.said(os.devnull, '--ask', 'kernel', '--progress'))
        self.assertEqual(self.said('/none', '--ask', 'sights'), '/none: no such file or directory')
        self.assertIn('--ask: invalid choice', self.said('/none', '--ask', 'see'))


class Tables(unittest.TestCase):
    @unittest.skipIf(geopandas is None or shapely is None, 'GeoPandas is not there')
    def test_idents_are_the_index(self) -> None:
        shapes = [shapely.Polygon(L), shapely.Polygon(BOWTIE), None, shapely.Point(), shapely.Polygon(), shapely.Polygon(comb(8))]
        wanted = [6, 'Clash', 'NotAShape', 'NotAShape', 'NotAShape', 8]
        table = geopandas.GeoDataFrame({'height': range(6)}, geometry=shapes, index=[f'row {k}' for k in range(6)])
        for given in (table, table.geometry):
            found = batch.answers(given, lambda session: len(session.ring or []))
            kinds = [(it.number, it.ident, it.answer if isinstance(it, batch.Answered) else it.kind) for it in found]
            self.assertEqual(kinds, [(k + 1, f'row {k}', what) for k, what in enumerate(wanted)])


@unittest.skipIf(distributed is None, "Dask's distributed is not there")
class ManyProcesses(unittest.TestCase):
    cluster: Any
    client: Any
    alone: List[Any]

    @classmethod
    def setUpClass(cls) -> None:
        opened = contextlib.ExitStack()
        cls.addClassCleanup(opened.close)
        # how long answers may be looked for on a worker that is lost
        opened.enter_context(importlib.import_module('dask.config').set({'distributed.comm.timeouts.connect': '4s'}))
        quiet = {'dashboard_address': 'localhost:0', 'silence_logs': logging.CRITICAL}
        cls.cluster = opened.enter_context(distributed.LocalCluster(n_workers=2, threads_per_worker=1, **quiet))
        cls.client = opened.enter_context(distributed.Client(cls.cluster))
        cls.alone = list(batch.answers(city(), Session.guards))

    def test_a_question_kills_its_worker(self) -> None:
        with tempfile.TemporaryDirectory() as folder:
            mark = Path(folder) / 'killed'
            found = list(batch.answers(city(), functools.partial(kill_once, mark), client=self.client, batch=BATCH))
            self.assertTrue(mark.exists())
        self.assertEqual(found, self.alone)

    def test_a_worker_is_killed_with_answers_that_were_not_fetched(self) -> None:
        asked = batch.answers(city(), Session.guards, client=self.client, batch=BATCH)
        found = [next(asked)]
        os.kill(next(iter(self.client.run(os.getpid).values())), signal.SIGKILL)
        self.assertEqual(found + list(asked), self.alone)

    def test_a_question_kills_each_worker(self) -> None:
        with mock.patch.object(self.cluster.scheduler, 'allowed_failures', 0):
            found = []
            with self.assertRaisesRegex(batch.Stopped, 'KilledWorker') as stopped:
                for it in batch.answers(city(), kill_each, client=self.client, batch=BATCH):
                    found.append(it)
        first = stopped.exception.numbers[0]
        self.assertLessEqual(first, MIDDLE + 1)
        self.assertEqual((found, stopped.exception.numbers), ([it for it in self.alone if it.number < first], range(first, first + BATCH)))

    def test_another_exception_of_the_question(self) -> None:
        found = []
        with self.assertRaisesRegex(batch.Stopped, f'^polygon {MIDDLE + 1}: (?s:.*)division by zero'):
            for it in batch.answers(city(), divide, client=self.client, batch=BATCH):
                found.append(it.number)
        self.assertEqual(found, [it.number for it in self.alone if it.number <= MIDDLE])

    def test_long_answers_and_frames(self) -> None:
        how: Any = {'frame': functools.partial(by_digits, 0)}
        asks: List[Any] = [Session.sights, Session.kernel, lambda session: session.see(session.ring[0])]
        for ask in asks:
            alone = list(batch.answers(city()[:40], ask, **how))
            self.assertEqual(list(batch.answers(city()[:40], ask, client=self.client, batch=7, **how)), alone)

    def test_few_batches_are_under_way(self) -> None:
        read: List[int] = []

        def endless() -> Iterator[Any]:
            while True:
                read.append(len(read))
                yield L

        asked = batch.answers(endless(), Session.guards, client=self.client, batch=5)
        self.assertEqual([next(asked).number for _ in range(50)], list(range(1, 51)))
        self.assertLess(len(read), 50 + 5 * (2 + 2 * batch.AHEAD))


if __name__ == '__main__':
    unittest.main()
