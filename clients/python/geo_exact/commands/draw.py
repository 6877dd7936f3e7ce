"""Answers a script, and draws the answers as an SVG picture.

    geo-exact draw [SCRIPT] [--frame FILE] [--program FILE | --answers FILE] > picture.svg
    geo-exact draw examples/trees > trees.svg

Each polygon has a panel with the answers about it. A point is a dot if it is inside, a ring on an edge and a cross outside. A path
goes from a ring to a dot. A list to check is dashed, with a cross where it breaks a rule. A tree has a line from each vertex to
the one before it. A visibility polygon is shaded, with the visible parts of the edges, and so is a kernel. A hull is its sides. Of a
round, each point that starts a side is a dot, and each other one a ring. Guards are dots, larger if they are few. Each pair of a
visibility graph is a thin line. In version 2 of the script a small ring marks each vertex that a path or a side touches. Vertices
have their numbers if there is room. A legend has the records with their answers, and errors in red.

The axes are in the units of the script. With the frame that geo-exact records --save wrote, axes and points of the legend are in those
of the data, polygons have their names, and vertices the numbers of the data. If the data is in longitude and latitude, the picture
has the proportions of its middle latitude.

--answers takes the answers from a file, such as one that `(cd crates/geo && rt try < SCRIPT) > FILE` wrote, so no program is needed.

Standard error names each polygon that geo rejected; the exit status is 1 if it rejected all.
"""
from __future__ import annotations

from typing import Sequence

from .. import drawing, fault
from ..answers.about import abouts
from ..answers.answered import answers
from ..answers.saved import load
from . import options


def main(words: Sequence[str]) -> int:
    parser = options.Parser(__doc__)
    parser.answers(is_frame_needed=False)
    given = parser.read(words)
    script, backend = options.asked(given)
    saved = load(given.frame) if given.frame else None
    found = abouts(answers(script, backend), saved)
    fault.put(drawing.of_script(found, saved))
    return options.rejected(found, saved)
