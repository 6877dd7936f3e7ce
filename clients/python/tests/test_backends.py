"""The library and the program behind one interface: which one is chosen, and whether they answer alike."""
from __future__ import annotations

import os
import random
import subprocess
import sys
import tempfile
import unittest
from array import array
from pathlib import Path
from typing import Any, List
from unittest import mock

import geo_exact as geo
from geo_exact import Place, Session, backends
from geo_exact.backends.library import Library
from geo_exact.backends.program import Program
from geo_exact.fault import Fault
from .rings import PACKAGE, TOP, L, comb, numpy, some, strip

MADE = TOP / 'crates/geo/out/geo'
PROGRAM = os.environ.get('GEO_PROGRAM') or (str(MADE) if MADE.exists() else '')


def engines() -> List[backends.Engine]:
    """Returns the backends that are there."""
    found: List[backends.Engine] = [Program(PROGRAM)] * bool(PROGRAM)
    try:
        found.append(Library())
    except geo.LibraryMissing:
        pass
    return found


def outcome(ask: Any, *given: Any) -> Any:
    """Returns the answer to a question, or its refusal."""
    try:
        found = ask(*given)
        return list(found) if isinstance(found, geo.Listed) else found
    except geo.Refusal as refused:
        return type(refused), refused.places, refused.question


def asked(session: Session, seed: int) -> List[Any]:
    """Returns the answers to each command, about random points of a random ring, and to many points at once."""
    draw = random.Random(seed)
    ring = strip(draw)
    found = [outcome(session.path, (1, 1), (1, 1)), outcome(session.polygon, ring[:2]), outcome(session.polygon, ring), session.left_out]
    for _ in range(4):
        one, two, few = some(draw, ring, 1)[0], some(draw, ring, 2), some(draw, ring, draw.randint(0, 6))
        found += [outcome(getattr(session, word), one) for word in ('inside', 'reach', 'see', 'tree', 'reach', 'view_polygon')]
        found += [outcome(getattr(session, word), few) for word in ('check', 'hull', 'round', 'hull_polygon', 'places')]
        found += [outcome(session.path, *two), outcome(session.sees, *two), outcome(session.paths, [two, two[::-1]])]
        found += [outcome(session.pair, draw.randrange(len(ring)), draw.randrange(-1, len(ring) + 1)), outcome(session.inside, (1, 10**30))]
        found += [session.answer(f'tree,{one[0]},{one[1]}\nreach,{two[0][0]},{two[0][1]}\n'), session.nearest_inside(one)]
    return found + [session.kernel(), session.guards(), list(session.sights()), session.kernel_polygon(), session.wide, session.source]


class Answers(unittest.TestCase):
    def test_backends_answer_alike(self) -> None:
        given = engines()
        if len(given) < 2:
            self.skipTest('the library or the program is not there')
        for seed in range(12):
            with self.subTest(seed):
                one, other = [asked(Session(wide=seed % 2 == 1, backend=engine), seed) for engine in given]
                self.assertEqual(one, other)

    def test_text_in_pieces(self) -> None:
        """The version, the polygon and the tree hold from one call to the next, and a byte order mark is dropped at the front alone."""
        mark = '\ufeff'
        for engine in engines():
            with self.subTest(engine.name), Session(backend=engine) as session:
                self.assertEqual(session.answer(f'{mark}geo,2\npolygon,0,0,8000000,0,0,4\n'), b'geo,2\npolygon,3\n')
                self.assertEqual([session.answer(text) for text in ('', 'tree,0,0\n', 'reach,1,0\n', 'geo,2\n', f'{mark}kernel\n')],
                                 [b'', b'tree,3\nfrom,0,-\nfrom,1,s\nfrom,2,s\n', b'path,2,0,0,1,0\n', b'bad,word\n', b'bad,word\n'])
                self.assertEqual(session.reach((0, 4)), [(0, 0), (0, 4)])
            with self.subTest(engine.name), Session(backend=engine) as session:
                self.assertEqual([session.answer(text) for text in ('guards\n', 'geo,2\n')], [b'bad,no_polygon\n', b'bad,word\n'])
                self.assertFalse(session.wide)

    def test_a_first_refusal_fixes_version_1(self) -> None:
        for engine in engines():
            dialog = engine.opened()
            with self.subTest(engine.name), self.assertRaises(geo.NoPolygon):
                dialog.ask('guards', array('q'))
            self.assertEqual(dialog.answer(b'geo,2\n'), b'bad,word\n')
            dialog.close()
            with self.assertRaises(ValueError):
                dialog.answer(b'')

    def test_many_points_and_paths(self) -> None:
        for engine in engines():
            with self.subTest(engine.name), Session(comb(64), backend=engine) as session, \
                    mock.patch.dict('geo_exact.backends.program.AT_ONCE', inside=3, path=3):
                points = [(0, 1), (10**30, 0), (4, 7), (9, 99), (4, 8)]
                self.assertEqual(session.places(points), [Place.EDGE, Place.OUTSIDE, Place.INSIDE, Place.OUTSIDE, Place.EDGE])
                pairs = [((0, 1), (4 * k, 6 * (k % 2))) for k in range(8)]
                self.assertEqual(session.paths(pairs), [session.path(*pair) for pair in pairs])
                with self.assertRaises(geo.Outside) as refused:
                    session.paths([*pairs, ((9, 99), (0, 1))])
                self.assertEqual((refused.exception.places, refused.exception.question), ((1,), 8))
                if numpy:
                    self.assertEqual(session.places(numpy.array(points[2:])).tolist(), [1, 0, 2])


class Chosen(unittest.TestCase):
    def test_the_package_is_imported_without_a_backend(self) -> None:
        script = 'import geo_exact, sys\ntry: geo_exact.Session()\nexcept geo_exact.LibraryMissing as error: print(error)'
        kept = {name: value for name, value in os.environ.items() if name != 'GEO_PROGRAM'}
        with tempfile.TemporaryDirectory() as folder:
            os.symlink(PACKAGE / 'geo_exact', Path(folder) / 'geo_exact')
            for words in (['-c', script], ['-m', 'geo_exact', 'batch', '--help'], ['-m', 'geo_exact', 'explore', '--help']):
                ran = subprocess.run([sys.executable, *words], cwd=folder, env={**kept, 'GEO_LIBRARY': '/missing.so'}, capture_output=True,
                                     text=True)
                self.assertEqual((ran.returncode, ran.stderr), (0, ''), words)
                self.assertIn('/missing.so' if '-c' in words and not MADE.exists() else '', ran.stdout)

    def test_what_is_named_goes_first(self) -> None:
        with mock.patch.dict(os.environ, GEO_PROGRAM='/of the environment', GEO_LIBRARY='/missing.so'):
            self.assertEqual(backends.chosen().name, 'the program /of the environment')
            self.assertEqual(backends.chosen('/named').name, 'the program /named')
        with self.assertRaisesRegex(Fault, "'/named' can not be run: no such file"):
            Session(L, backend=Program('/named'))

    def test_statuses_of_a_program(self) -> None:
        cases: List[Any] = [(3, geo.TooLong, '8,388,608 bytes'), (5, geo.GeoMemoryError, ''), (4, Fault, 'could not write'), (9, Fault, 'status 9')]
        with tempfile.TemporaryDirectory() as folder:
            for status, kind, text in cases:
                program = Path(folder) / 'program'
                program.write_text(f'#!/bin/sh\ncat > /dev/null\nexit {status}\n')
                program.chmod(0o755)
                with self.assertRaisesRegex(kind, text):
                    Session(L, backend=Program(str(program)))


class Commands(unittest.TestCase):
    def test_words(self) -> None:
        cases: List[Any] = [(['--help'], 0, 0), ([], 2, 1), (['print'], 2, 1)]
        for words, status, stream in cases:
            ran = subprocess.run([sys.executable, '-m', 'geo_exact', *words], cwd=PACKAGE, capture_output=True, text=True)
            self.assertEqual(ran.returncode, status)
            self.assertIn('geo-exact records|geojson|draw|explore|batch', (ran.stdout, ran.stderr)[stream])

    def test_names_in_messages(self) -> None:
        ran = subprocess.run([sys.executable, '-m', 'geo_exact', 'batch', '/none', '--ask', 'guards'], cwd=PACKAGE, capture_output=True,
                             text=True)
        self.assertRegex(ran.stderr, '^geo-exact batch: ')
        ran = subprocess.run([sys.executable, TOP / 'tools/explore', '/none'], capture_output=True, text=True)
        self.assertRegex(ran.stderr, '^explore: .*')


if __name__ == '__main__':
    unittest.main()
