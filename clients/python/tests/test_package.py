"""The package as it is installed: its wheel, its source archive, its version, and what it reports if there is no library."""
from __future__ import annotations

import os
import shutil
import subprocess
import sys
import tarfile
import unittest
import zipfile
from email import message_from_bytes
from importlib.util import find_spec
from pathlib import Path
from tempfile import TemporaryDirectory
from typing import Any, List, Set

import geo_exact

CLIENT = Path(__file__).resolve().parents[1]
TOP = CLIENT.parents[1]
VERSION = (TOP / 'VERSION').read_text().strip()
LIBRARY = Path(os.environ.get('GEO_LIBRARY') or CLIENT / 'geo_exact' / 'libgeo_c.so').resolve()
ASKS = 'import geo_exact as g; print(g.__file__, g.Session([(0, 0), (4, 0), (4, 2), (2, 2), (2, 4), (0, 4)]).path((4, 1), (1, 4)))'


def lacking(*modules: str) -> str:
    """Returns why a test is skipped: a module that it needs is missing. Else returns an empty text."""
    return next((f'{sys.executable} has no {name}' for name in modules if find_spec(name) is None), '')


MISSING = '' if LIBRARY.exists() else f'there is no library {LIBRARY}'
PIP, SETUPTOOLS = MISSING or lacking('pip', 'setuptools', 'wheel'), MISSING or lacking('setuptools', 'wheel')
VENV = lacking('venv', 'ensurepip')
CLONE = next((f'there is no {name}' for name in ('git', 'objdump') if shutil.which(name) is None), '')
if not (TOP / '.git').exists():
    CLONE = 'the files are not those of a clone'


def run(words: List[Any], folder: Path, **environment: str) -> subprocess.CompletedProcess[str]:
    """Runs a program in a folder, where nothing of this environment names Python's folders, pip's index, the library or the program."""
    kept = {name: value for name, value in os.environ.items() if not name.startswith(('PYTHON', 'PIP_', 'GEO_', 'SOURCE_DATE'))}
    given = {**kept, 'PIP_CONFIG_FILE': os.devnull, 'PIP_NO_INDEX': '1', 'PYTHONDONTWRITEBYTECODE': '1', **environment}
    return subprocess.run([str(word) for word in words], cwd=folder, env=given, capture_output=True, text=True, timeout=120, check=False)


def files(folder: Path) -> Set[str]:
    return {str(path.relative_to(folder)) for path in folder.rglob('*')}


class Package(unittest.TestCase):
    """Works in a new folder."""

    def setUp(self) -> None:
        made = TemporaryDirectory()
        self.addCleanup(made.cleanup)
        self.folder = Path(made.name).resolve()

    def copy(self, *, whole: bool) -> Path:
        """Returns a copy of the client, with the library or without it."""
        client = self.folder / 'client'
        shutil.copytree(CLIENT, client, ignore=shutil.ignore_patterns('__pycache__', 'libgeo_c.so'))
        if whole:
            shutil.copy(LIBRARY, client / 'geo_exact' / 'libgeo_c.so')
        return client

    def succeeds(self, words: List[Any], **environment: str) -> str:
        ended = run(words, self.folder, **environment)
        self.assertEqual(ended.returncode, 0, ended.stdout + ended.stderr)
        return ended.stdout

    def answers_from(self, python: Any, folder: Path, **environment: str) -> None:
        """The package that this Python imports is in the folder, has the page, and answers."""
        where, answer = self.succeeds([python, '-c', ASKS], **environment).split(maxsplit=1)
        self.assertTrue(Path(where).is_relative_to(folder), where)
        self.assertEqual(answer, '[(4, 1), (2, 2), (1, 4)]\n')
        self.assertTrue(Path(where).with_name('web').joinpath('index.html').exists())


class Library(Package):
    def test_version(self) -> None:
        self.assertEqual(geo_exact.__version__, VERSION)

    def test_import(self) -> None:
        """The package can be imported without a library, and the first query names the place where it is missing."""
        client = self.copy(whole=False)
        imports = 'import geo_exact\ntry: geo_exact.Session()\nexcept ImportError as error: print(type(error).__name__, error)'
        for named, place in [('', f'{client}/geo_exact/libgeo_c.so'), ('GEO_LIBRARY=/missing/libgeo_c.so', '/missing/libgeo_c.so')]:
            said = self.succeeds(['env', *named.split(), sys.executable, '-c', imports], PYTHONPATH=str(client))
            self.assertRegex(said, f'^NoBackend .*{place}')
            self.assertIn('clients/python/build', said)

    def test_help(self) -> None:
        """Help needs neither the library nor a program."""
        client = self.copy(whole=False)
        for words in ['', 'records', 'geojson', 'draw', 'explore', 'batch']:
            said = self.succeeds([sys.executable, '-m', 'geo_exact', *words.split(), '--help'], PYTHONPATH=str(client))
            self.assertIn('usage: geo-exact', said)

    @unittest.skipIf(PIP, PIP)
    def test_install(self) -> None:
        client = self.copy(whole=False)
        before = files(client)
        ended = run([sys.executable, '-m', 'pip', 'install', '--no-build-isolation', '--target', 'installed', client], self.folder)
        self.assertNotEqual(ended.returncode, 0)
        self.assertIn('clients/python/build', ended.stderr)
        self.assertNotIn('Traceback', ended.stderr)
        self.assertEqual(files(client), before)


@unittest.skipIf(SETUPTOOLS or CLONE, SETUPTOOLS or CLONE)
class Archives(Package):
    def made(self, folder: str, mask: int = 0o022) -> List[Path]:
        """Returns the wheel and the source archive."""
        ended = subprocess.run([CLIENT / 'wheel', self.folder / folder, '--library', LIBRARY], umask=mask, capture_output=True, text=True,
                               timeout=120, check=False, env={**os.environ, 'PYTHON': sys.executable})
        self.assertEqual((ended.returncode, ended.stdout), (0, ''), ended.stderr)
        return sorted((self.folder / folder).iterdir())

    def test_what_is_in_them(self) -> None:
        wheel, source = self.made('made')
        tracked = subprocess.run(['git', 'ls-files', 'geo_exact'], cwd=CLIENT, capture_output=True, text=True, check=True).stdout.split()
        package = {**{name: (CLIENT / name).read_bytes() for name in tracked}, 'geo_exact/libgeo_c.so': LIBRARY.read_bytes()}
        package.update((f'geo_exact/web/{path.name}', path.read_bytes()) for path in (TOP / 'clients/web').glob('*.*'))
        with zipfile.ZipFile(wheel) as opened:
            held = {name: opened.read(name) for name in opened.namelist()}
        about = f'geo_exact-{VERSION}.dist-info'
        self.assertEqual({name: text for name, text in held.items() if not name.startswith(about)}, package)
        with tarfile.open(source) as archive:
            names = {str(Path(*Path(name).parts[1:])) for name in archive.getnames()}
        self.assertLessEqual({*package, 'pyproject.toml', 'setup.py', 'README.md'}, names)
        told, tagged = message_from_bytes(held[f'{about}/METADATA']), message_from_bytes(held[f'{about}/WHEEL'])
        self.assertEqual((told['Name'], told['Version'], told['Requires-Python']), ('geo-exact', VERSION, '>=3.9'))
        self.assertEqual((told['Description-Content-Type'], told.get_payload()), ('text/markdown', (CLIENT / 'README.md').read_text()))
        self.assertEqual(sorted(told.get_all('Provides-Extra', [])), ['arrays', 'cluster', 'graph', 'shapes'])
        self.assertEqual((tagged['Root-Is-Purelib'], f'geo_exact-{VERSION}-{tagged["Tag"]}.whl'), ('false', wheel.name))
        self.assertRegex(wheel.name, 'py3-none-manylinux_2_[0-9]+_x86_64')

    def test_the_same_files_give_the_same_bytes(self) -> None:
        one, two = ([path.read_bytes() for path in self.made(folder, mask)] for folder, mask in [('one', 0o022), ('two', 0o077)])
        self.assertEqual(one, two)

    @unittest.skipIf(PIP, PIP)
    def test_sources(self) -> None:
        """pip installs the folder, which it leaves as it was, and the source archive."""
        client = self.copy(whole=True)
        shutil.copytree(TOP / 'clients/web', client.parent / 'web')
        before = files(client)
        for source, target in [(client, 'first'), (self.made('made')[1], 'second')]:
            self.succeeds([sys.executable, '-m', 'pip', 'install', '--no-build-isolation', '--target', target, source])
            self.answers_from(sys.executable, self.folder / target, PYTHONPATH=target)
        self.assertEqual(files(client), before)

    @unittest.skipIf(VENV, VENV)
    def test_wheel(self) -> None:
        """A new environment installs the wheel without a network, with the command."""
        self.succeeds([sys.executable, '-m', 'venv', 'new'])
        self.succeeds(['new/bin/pip', 'install', self.made('made')[0]])
        self.answers_from('new/bin/python', self.folder / 'new')
        told = self.succeeds(['new/bin/python', '-c', 'from importlib.metadata import version; print(version("geo-exact"))'])
        self.assertEqual(told, VERSION + '\n')
        self.assertIn('usage: geo-exact', self.succeeds(['new/bin/geo-exact', '--help']))
