"""Exact answers about one simple polygon with integer vertices, by the proved library `geo_c` or the program `geo`.

    import geo_exact

    with geo_exact.Session([(0, 0), (4, 0), (4, 2), (2, 2), (2, 4), (0, 4)]) as session:
        session.inside((2, 3))         # Place.EDGE
        session.path((4, 1), (1, 4))   # [(4, 1), (2, 2), (1, 4)]
        list(session.see((4, 1)))      # the parts of the edges that (4, 1) sees, with ends as fractions

A *point* is a pair of numbers, a GeoJSON Point, or an object whose `__geo_interface__` is one, such as a point of Shapely; WKT and WKB
are taken, too. A *list of points* is an iterable of points, or a LineString or MultiPoint; a *ring* is an iterable of points, or a
Polygon. A ring is taken without its closing point and without points that repeat the one before them. Numbers are integers of Python or NumPy, and floats such as 3.0. Other
floats raise NotWhole, for nothing is rounded unless a Frame says how. Vertices, edges and points of lists count from 0; features, parts and
polygons of a file count from 1.

A question that can't be answered raises a Refusal, and changes nothing: the polygon stays, and so does the tree.

The library is libgeo_c.so in the folder of the package, or the file that GEO_LIBRARY names in the environment. GEO_PROGRAM names a program
`geo` that answers instead, in a process for each question. The first session raises LibraryMissing if there is neither.
"""
from .backends import answer_script, refusal
from .errors import (Clash, Few, Fields, GeoMemoryError, Holes, Index, Large, LibraryMissing, Many, NoPolygon, NoTree, NotANumber,
                     NotAPoint, NotAShape, NotReadable, NotTaken, NotWhole, Number, Outside, Range, Refusal, TooFar, TooLong, Word)
from .frame import Frame
from .listed import Listed
from .measures import area, length
from .path import Path
from .region import Region
from .session import Session
from .values import Before, Part, Place, Rule, Side, Verdict

__version__ = '2.0.0'
__all__ = [
    'Before', 'Clash', 'Few', 'Fields', 'Frame', 'GeoMemoryError', 'Holes', 'Index', 'Large', 'LibraryMissing', 'Listed', 'Many',
    'NoPolygon', 'NoTree', 'NotANumber', 'NotAPoint', 'NotAShape', 'NotReadable', 'NotTaken', 'NotWhole', 'Number', 'Outside', 'Part',
    'Path', 'Place', 'Range', 'Refusal', 'Region', 'Rule', 'Session', 'Side', 'TooFar', 'TooLong', 'Verdict', 'Word', 'answer_script',
    'area', 'length', 'refusal',
]
