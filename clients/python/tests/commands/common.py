"""What the tests share: how a tool is run, and where the program is."""
from __future__ import annotations

import functools
import importlib
import os
import signal
import sys
import traceback
from pathlib import Path
from tempfile import TemporaryFile
from typing import IO, Callable, NamedTuple, NoReturn, Sequence, Tuple, Union

PACKAGE = Path(__file__).resolve().parents[2]
TOP = PACKAGE.parents[1]
sys.path.insert(0, str(PACKAGE))
sys.dont_write_bytecode = True
from geo_exact import fault

MADE = TOP / 'crates/geo/out/geo'
PROGRAM = os.environ.get('GEO_PROGRAM') or (str(MADE) if MADE.exists() else '')
WITHOUT = 'there is no crates/geo/out/geo, and GEO_PROGRAM names no other'

SQUARE = '[[0, 0], [4, 0], [4, 4], [0, 4], [0, 0]]'
L = 'POLYGON ((0 0, 4 0, 4 2, 2 2, 2 4, 0 4, 0 0))'

Word = Union[str, Path]


class Ran(NamedTuple):
    """How a tool ended, and what it wrote."""

    returncode: int
    stdout: str
    stderr: str


def run(tool: str, *words: Word, text: Union[str, bytes] = '') -> Ran:
    """Runs a tool on a text."""
    return Ran(*forked([tool, *map(str, words)], text.encode() if isinstance(text, str) else text))


def geojson(kind: str, coordinates: str) -> str:
    return f'{{"type": "{kind}", "coordinates": {coordinates}}}'


def feature(geometry: str, properties: str = '{}') -> str:
    return f'{{"type": "Feature", "properties": {properties}, "geometry": {geometry}}}'


def collection(*features: str) -> str:
    return f'{{"type": "FeatureCollection", "features": [{", ".join(features)}]}}'


def forked(words: list[str], given: bytes, seconds: int = 60) -> Tuple[int, str, str]:
    """Runs a tool in a copy of this process, which takes less time than a new one: its status, and what it wrote on both streams. One
    that does not end in time has the status -14."""
    name, *rest = words
    main = loaded(name)
    with TemporaryFile() as source, TemporaryFile() as out, TemporaryFile() as err:
        source.write(given)
        source.seek(0)
        child = os.fork()
        if child == 0:
            in_child(name, rest, main, (source, out, err), seconds)
        status = os.waitstatus_to_exitcode(os.waitpid(child, 0)[1])
        out.seek(0)
        err.seek(0)
        return status, out.read().decode(), err.read().decode('utf-8', 'replace')


def in_child(name: str, words: list[str], main: Callable[[list[str]], int], streams: Sequence[IO[bytes]], seconds: int) -> NoReturn:
    for number, stream in enumerate(streams):
        os.dup2(stream.fileno(), number)
    sys.stdin, sys.stdout, sys.stderr = open(0), open(1, 'w'), open(2, 'w')
    sys.argv = [name, *words]
    fault.TOOL = name
    signal.alarm(seconds)
    status = 1
    try:
        fault.run(main)
    except SystemExit as ended:
        status = int(ended.code or 0)
    except BaseException:
        traceback.print_exc()
    sys.stderr.flush()
    os._exit(status)


@functools.lru_cache(maxsize=None)
def loaded(name: str) -> Callable[[list[str]], int]:
    """What a tool runs."""
    module = importlib.import_module(f'geo_exact.commands.{name}')
    main: Callable[[list[str]], int] = module.main
    return main
