"""Paths, which are lists of points and lines of GeoJSON."""
from __future__ import annotations

from typing import Any, Dict, List

from . import measures, writing
from .values import Point


class Path(List[Point]):
    """The points of a path: its ends, and its bends between them. In a wide session it has the vertices that it touches, too.

    `shapely.geometry.shape` takes a path, as does all that reads `__geo_interface__`. There each coordinate is the nearest float."""

    @property
    def __geo_interface__(self) -> Dict[str, Any]:
        points = [(float(x), float(y)) for x, y in self]
        return {'type': 'LineString', 'coordinates': points} if len(points) > 1 else {'type': 'Point', 'coordinates': points[0]}

    @property
    def wkt(self) -> str:
        """The path as WKT: a LINESTRING, or the POINT where both ends are."""
        return writing.wkt(self.__geo_interface__)

    @property
    def wkb(self) -> bytes:
        """The path as WKB, little endian."""
        return writing.wkb(self.__geo_interface__)

    @property
    def length(self) -> float:
        """The length of the path, as a float."""
        return measures.length(self)
