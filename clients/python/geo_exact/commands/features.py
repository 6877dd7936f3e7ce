"""Answers as features of GeoJSON, in the units of the data. A record becomes a feature; a tree, guards and sights become one for each
line or point. Fractions become decimals in coordinates, and stay exact in properties."""
from __future__ import annotations

import json
from fractions import Fraction
from typing import Any, Callable, Iterator, Mapping, Optional, Sequence, Tuple

from ..answers.about import About
from ..answers.answered import PLACES, SOURCE, NOTHING, Answer, Point, ask, bytes_of
from ..answers.saved import Saved
from ..backends import Backend
from ..exact import text
from ..fault import Fault
from ..region import Region, way_round, with_touches
from ..writing import DEPTHS, nested, wkt

Geometry = Optional[Mapping[str, Any]]
Feature = Tuple[dict[str, Any], Geometry]

# the one type of geometry that the features of a command have if they are the only ones
TYPES = {
    'polygon': 'Polygon', 'inside': 'Point', 'check': 'LineString', 'path': 'LineString', 'tree': 'LineString', 'reach': 'LineString',
    'see': 'Polygon', 'kernel': 'Polygon', 'hull': 'Polygon', 'round': 'Polygon', 'guards': 'Point', 'pair': 'LineString',
    'sights': 'LineString',
}


class Features:
    """The features of a script. `hulls` has the relative hulls of the records `round`, and `write` writes a coordinate of the data."""

    def __init__(self, saved: Saved, hulls: Mapping[int, Region], write: Callable[[Fraction], str]):
        self.saved, self.hulls, self.write = saved, hulls, write
        self.written: dict[Point, Tuple[str, str]] = {}  # features share many points

    def collection(self, found: Sequence[About], only: Optional[str] = None) -> str:
        """Returns the text of all features, or of those of one command."""
        if only and not any(it.row.word == only for it in found):
            raise Fault(f'--only {only}: the script has no record {only}')
        lines = [self.line(*feature, only) for it in found if only in (None, it.row.word) for feature in self.of(it)]
        return f'{{"type": "FeatureCollection", "name": "answers", {self.crs()}, "features": [\n' + ',\n'.join(lines) + '\n]}\n'

    def crs(self) -> str:
        """Returns the members that name the CRS. GeoJSON without a member `crs` is in longitude and latitude; null says that no CRS is
        known."""
        saved = self.saved
        if saved.crs is not None:
            return f'"crs": {json.dumps(saved.crs)}, "crs_of_data": {json.dumps(name_of(saved.crs))}'
        return ('' if saved.form == 'GeoJSON' else '"crs": null, ') + '"crs_of_data": "none is named"'

    def line(self, properties: dict[str, Any], geometry: Geometry, only: Optional[str]) -> str:
        """Returns the text of a feature. A geometry of another type than the one of `only` becomes the property `wkt`."""
        shown = 'null'
        if geometry and only in (None, *(word for word, kind in TYPES.items() if kind == geometry['type'])):
            coordinates = nested(geometry['coordinates'], DEPTHS[geometry['type']], lambda point: f'[{", ".join(self.both(point))}]')
            shown = f'{{"type": "{geometry["type"]}", "coordinates": {coordinates}}}'
        elif geometry:
            properties = {**properties, 'wkt': wkt(geometry, lambda point: ' '.join(self.both(point)))}
        return f'{{"type": "Feature", "properties": {json.dumps(properties)}, "geometry": {shown}}}'

    def both(self, point: Point) -> Tuple[str, str]:
        """Returns both coordinates of a point in the units of the data."""
        if point not in self.written:
            x, y = map(self.write, self.saved.frame.back(point))
            self.written[point] = x, y
        return self.written[point]

    def exact(self, *points: Point) -> list[str]:
        """Returns the coordinates of points in the units of the data, as decimals if these end and else as fractions."""
        return [text(c) for point in points for c in self.saved.frame.back(point)]

    def of(self, it: About) -> Iterator[Feature]:
        """Returns the features of an answer."""
        common: dict[str, Any] = {'question': it.place, 'record': it.row.word}
        if it.known:
            common['polygon'] = it.known.number
            common.update({key: value for key, value in (('name', it.known.name), ('id', it.known.ident)) if value is not None})
        if it.row.is_refused:
            yield {**common, 'refused': ','.join(it.row.lines[0][1:])}, None
            return
        for properties, geometry in getattr(self, it.row.word)(it, it.row.answer):
            yield {**common, **properties}, geometry

    def geo(self, it: About, answer: Answer) -> Iterator[Feature]:
        yield {'version': int(it.row.lines[0][1])}, None

    def polygon(self, it: About, answer: Answer) -> Iterator[Feature]:
        yield {'vertices': len(it.ring)}, {'type': 'Polygon', 'coordinates': [it.ring + it.ring[:1]]}

    def inside(self, it: About, answer: Answer) -> Iterator[Feature]:
        yield {'place': PLACES[answer.told[0]]}, line(answer.asked)

    def check(self, it: About, answer: Answer) -> Iterator[Feature]:
        yield {'verdict': ','.join(it.row.lines[0])}, line(answer.asked)

    def path(self, it: About, answer: Answer) -> Iterator[Feature]:
        yield {'points': len(answer.points)}, line(answer.points)

    reach = path

    def pair(self, it: About, answer: Answer) -> Iterator[Feature]:
        i, j = (it.vertex(int(field)) for field in it.row.record[1:])
        yield {'from': i, 'to': j, 'points': len(answer.points)}, line(answer.points)

    def tree(self, it: About, answer: Answer) -> Iterator[Feature]:
        for i, before in enumerate(answer.told):
            is_vertex = before not in (SOURCE, NOTHING)
            number = it.vertex(before) if is_vertex else 's' if before == SOURCE else '-'
            yield {'from': number, 'to': it.vertex(i)}, line([it.ring[before] if is_vertex else answer.asked[0], it.ring[i]])

    def see(self, it: About, answer: Answer) -> Iterator[Feature]:
        region = Region.of_walk(answer.corners)
        parts: list[Any] = [[it.vertex(edge), *self.exact(*answer.corners[2 * k:2 * k + 2])] for k, edge in enumerate(answer.told)]
        yield {'viewpoint': f'POINT ({" ".join(self.exact(*answer.asked))})', 'parts': parts, **self.beyond('spikes', region)}, area(region)

    def kernel(self, it: About, answer: Answer) -> Iterator[Feature]:
        yield {'corners': [self.exact(corner) for corner in answer.corners]}, area(Region.of_walk(answer.corners))

    def hull(self, it: About, answer: Answer) -> Iterator[Feature]:
        region = hull(answer)
        sides = [list(side) for side in zip(answer.told[::3], answer.told[1::3])]
        yield {'sides': sides, **self.beyond('twice', region)}, area(region)

    def round(self, it: About, answer: Answer) -> Iterator[Feature]:
        region = self.hulls.get(it.place) or Region(points=[answer.asked[i] for i in answer.told] or answer.asked[:1])
        yield {'round': ','.join(map(str, answer.told)), **self.beyond('twice', region)}, area(region)

    def beyond(self, name: str, region: Region) -> dict[str, Any]:
        """Returns a property with the lines that stick out of the polygons of a region."""
        return {name: [self.exact(*line) for line in region.lines]} if region.polygons and region.lines else {}

    def guards(self, it: About, answer: Answer) -> Iterator[Feature]:
        for k, i in enumerate(answer.told, 1):
            yield {'guard': k, 'of': len(answer.told), 'vertex': it.vertex(i)}, line([it.ring[i]])

    def sights(self, it: About, answer: Answer) -> Iterator[Feature]:
        for i, j in zip(answer.told[::2], answer.told[1::2]):
            yield {'from': it.vertex(i), 'to': it.vertex(j)}, line([it.ring[i], it.ring[j]])


def line(points: Sequence[Point]) -> Geometry:
    """Returns the line through points: a point if all are equal, and None if there is none."""
    if len(set(points)) < 2:
        return {'type': 'Point', 'coordinates': points[0]} if points else None
    return {'type': 'LineString', 'coordinates': points}


def area(region: Region) -> Geometry:
    """Returns the polygons of a region, or its lines or points if it has no area."""
    return next(iter(region.shapes()), None)


def hull(answer: Answer) -> Region:
    """Returns the region of an answer to `hull`."""
    return Region.of_walk(with_touches(way_round(answer.told, answer.points) or answer.asked[:1]))


def hulls(found: Sequence[About], backend: Backend) -> dict[int, Region]:
    """Returns the relative hull of the points of each `round` by the number of the record; the backend answers a script that asks for
    them."""
    rounds = [it for it in found if it.row.word == 'round' and not it.row.is_refused]
    rows: list[list[object]] = [['geo', 2]]
    for before, it in zip([None, *rounds], rounds):
        if before is None or it.ring is not before.ring:
            rows.append(['polygon', *(c for point in it.ring for c in point)])
        rows.append(['hull', *(c for point in it.row.points for c in point)])
    answered = [row.answer for row in ask(bytes_of(rows), backend) if row.word == 'hull'] if rounds else []
    return {it.place: hull(answer) for it, answer in zip(rounds, answered)}


def name_of(crs: Any) -> str:
    """Returns the name of a CRS of GeoJSON."""
    found = crs.get('properties', {}) if isinstance(crs, dict) else crs
    return str(found.get('name', found)) if isinstance(found, dict) else str(found)
