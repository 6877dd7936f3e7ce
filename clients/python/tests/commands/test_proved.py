"""`checks/proved` on a repository and a toolchain of a few lines: which files count as proved."""
from __future__ import annotations

import os
import shutil
import subprocess
import unittest
from pathlib import Path
from tempfile import TemporaryDirectory

from .common import TOP

KIT = '''
class Crate:
    def __init__(self, name, below):
        self.name, self.folder, self._below = name, f'{TOP}/crates/{name}', below

    def below(self):
        return self._below

    def stamp(self):
        return 'stamp'


def crates_below(top):
    global TOP
    TOP = top
    low = Crate('low', [])
    return [low, Crate('geo', [low]), Crate('geo_c', [low])]
'''
# A program that the proving run makes has the sources in it.
RT = '''#!/bin/sh
echo "$1" >> "$CALLS"
[ -z "$FAILS" ] || { echo "error: not proved"; exit 1; }
echo "rt: chose --jobs 2 for ${PWD##*/}"
[ -z "$EDITS" ] || echo edited > ../low/src/lib.rt
mkdir -p out
case $1 in run) made=geo ;; lib) made=libgeo_c.a ;; esac
cat ../low/src/lib.rt src/*.rt > "out/$made"
'''


class Proved(unittest.TestCase):
    def setUp(self) -> None:
        made = TemporaryDirectory()
        self.addCleanup(made.cleanup)
        self.folder = Path(made.name).resolve()
        self.write('kit/bin/rt', RT).chmod(0o755)
        self.write('kit/bin/rtlib.py', KIT)
        self.write('kit/KIT-ID', 'kit 1\n')
        self.write('top/crates.txt', 'geo: low\n')
        self.write('top/crates/geo/stdin', '')
        self.main = self.write('top/crates/geo/src/main.rt', 'main\n')
        self.write('top/crates/geo_c/src/lib.rt', 'calls\n')
        self.low = self.write('top/crates/low/src/lib.rt', 'low\n')
        self.program = self.folder / 'top/crates/geo/out/geo'
        self.library = self.folder / 'top/crates/low/out/rlib'
        shutil.copy(TOP / 'checks/proved', self.write('top/checks/proved', ''))

    def write(self, name: str, text: str) -> Path:
        path = self.folder / name
        path.parent.mkdir(parents=True, exist_ok=True)
        path.write_text(text)
        return path

    def run_it(self, *words: str, **environment: str) -> subprocess.CompletedProcess[str]:
        given = {**os.environ, 'PATH': f'{self.folder}/kit/bin:{os.environ["PATH"]}', 'CALLS': f'{self.folder}/calls', **environment}
        command = [self.folder / 'top/checks/proved', *(words or ['geo'])]
        return subprocess.run(command, env=given, capture_output=True, text=True, check=False)

    def runs(self) -> int:
        """Calls it, checks that its program is that of the sources, and returns how often it proved until now."""
        ended = self.run_it()
        self.assertEqual((ended.returncode, ended.stdout), (0, f'{self.program}\n'), ended.stderr)
        self.assertEqual(self.program.read_text(), self.low.read_text() + self.main.read_text())
        return len((self.folder / 'calls').read_text().split())

    def test_a_proved_file_is_made_once(self) -> None:
        self.assertEqual([self.runs(), self.runs()], [1, 1])
        self.assertEqual([self.run_it('geo_c').stdout for _ in range(2)], [f'{self.folder}/top/crates/geo_c/out/libgeo_c.a\n'] * 2)
        self.assertEqual((self.folder / 'calls').read_text(), 'run\nlib\n')

    def test_a_file_without_a_stamp_is_not_taken(self) -> None:
        self.write('top/crates/geo/out/geo', 'unproved\n')
        self.assertEqual(self.runs(), 1)

    def test_a_changed_file_is_not_taken(self) -> None:
        self.runs()
        self.program.write_text('unproved\n')
        self.assertEqual(self.runs(), 2)

    def test_changed_sources_are_proved_again(self) -> None:
        count = self.runs()
        for name in ('geo/src/main.rt', 'low/src/lib.rt', 'low/specs/New.antt', 'geo/proofs/New.antt', '../crates.txt', '../../kit/KIT-ID'):
            path = self.write(f'top/crates/{name}', f'changed {name}\n')
            os.utime(path, (0, 0))
            count += 1
            self.assertEqual(self.runs(), count, name)
        path.touch()
        self.main.touch()
        self.assertEqual(self.runs(), count)

    def test_a_run_that_fails_or_whose_sources_change_leaves_no_stamp(self) -> None:
        for said, environment in [('not proved', {'FAILS': '1'}), ('changed during', {'EDITS': '1'})]:
            ended = self.run_it(**environment)
            self.assertEqual((ended.returncode, ended.stdout), (1, ''))
            self.assertIn(said, ended.stderr)
            self.assertFalse(Path(f'{self.program}.proved').exists())

    def test_it_says_what_it_does(self) -> None:
        self.assertRegex(self.run_it().stderr, 'rt run proves geo: at most 2 of 2 crates .* up to 90 minutes\n.*: proving geo\n')
        self.library.mkdir(parents=True)
        (self.library / 'low.rlib').touch()
        self.program.unlink()
        self.assertRegex(self.run_it().stderr, 'at most 1 of 2 crates .* some minutes at most\n')
        self.assertEqual((self.library / 'stamp').read_text(), 'stamp')

    def test_help_builds_nothing(self) -> None:
        self.assertEqual([self.run_it('--help').returncode, self.run_it('other').returncode], [0, 2])
        self.assertFalse((self.folder / 'calls').exists())


if __name__ == '__main__':
    unittest.main()
