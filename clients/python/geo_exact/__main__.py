"""The commands of the package: `geo-exact records|geojson|draw|explore|batch`, or `python3 -m geo_exact ..`.

    records   makes a script of the polygons in GeoJSON, WKT or WKB
    geojson   writes the answers to a script as GeoJSON
    draw      draws a script and its answers as SVG
    explore   opens a page in which a polygon is asked about with the mouse
    batch     asks about each polygon of a file

Each has its own --help."""
from __future__ import annotations

import importlib
import sys
from typing import NoReturn, Optional

from . import fault

MODULES = {'records': 'commands.records', 'geojson': 'commands.geojson', 'draw': 'commands.draw', 'explore': 'commands.explore',
           'batch': 'batch'}


def main(name: Optional[str] = None) -> NoReturn:
    """Runs the command of this name, or the one that the first word of the command line names."""
    if name is None:
        name = named()
        fault.TOOL = f'geo-exact {name}'
        sys.argv[:2] = [fault.TOOL]
    fault.run(importlib.import_module(f'geo_exact.{MODULES[name]}').main)


def named() -> str:
    """Returns the command that the first word names."""
    word = sys.argv[1] if len(sys.argv) > 1 else ''
    if word in MODULES:
        return word
    is_help = word in ('-h', '--help')
    (sys.stdout if is_help else sys.stderr).write(f'usage: geo-exact {"|".join(MODULES)} ..\n\n{__doc__}\n')
    sys.exit(0 if is_help else 2)


if __name__ == '__main__':
    main()
