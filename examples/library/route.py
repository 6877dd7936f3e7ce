#!/usr/bin/env python3
"""Ways and views in an office, whose floor plan is the GeoJSON file beside this one, in millimetres."""
from __future__ import annotations

import itertools
import json
import math
import sys
from pathlib import Path
from typing import Iterable, Sequence, Tuple

HERE = Path(__file__).resolve().parent
sys.path.append(str(HERE.parents[1] / 'clients' / 'python'))  # used unless the package is installed
import geo_exact


def main() -> None:
    features = json.loads((HERE / 'office.geojson').read_text())['features']
    places = {feature['properties']['name']: feature['geometry'] for feature in features}
    with geo_exact.Session(places.pop('floor')) as office:
        print('From Ada to the printer:', way(office.path(places['Ada'], places['printer'])))

        office.tree(places['entrance'])
        print('\nFrom the entrance:')
        for name in ('Ada', 'Bo', 'Cleo'):
            print(f'  to {name}:', way(office.reach(places[name])))

        print('\nWho sees whom:')
        for (one, here), (other, there) in itertools.combinations(places.items(), 2):
            if office.check([here['coordinates'], there['coordinates']]):
                print(f'  {one} and {other}')

        print('\nWhat Bo sees of the lower wall of the corridor, which is edge 0:')
        for part in office.see(places['Bo']):
            if part.edge == 0:
                print(f'  from {exact(part.first)} to {exact(part.last)}')

        print('\nOne lamp lights all:', 'yes' if office.kernel() else 'no')
        print('Lamps at these corners do:', *office.guards())

        try:
            office.path(places['Ada'], (4000, 5000))
        except geo_exact.Outside as refused:
            print('\nInto the wall:', refused)


def way(path: Sequence[Tuple[int, int]]) -> str:
    """A path and its length, which alone is rounded."""
    length = sum(math.dist(a, b) for a, b in zip(path, path[1:]))
    return f'{length / 1000:.2f} m, ' + ' '.join(map(exact, path))


def exact(point: Iterable[object]) -> str:
    return '({}, {})'.format(*point)


if __name__ == '__main__':
    main()
