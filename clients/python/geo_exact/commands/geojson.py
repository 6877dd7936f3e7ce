"""Answers a script, and writes the answers as GeoJSON in the units of the data that the script was made of.

    geo-exact geojson [SCRIPT] --frame FILE [--only COMMAND] [--digits N] [--program FILE | --answers FILE]
    geo-exact geojson building.script --frame building.frame --only path > answers.geojson

The frame is the file that geo-exact records --save wrote. Each record becomes a feature. Its properties are the number of the record
in the script, its command, its polygon (the number from 1 on, and the name and id in the data), and the answer; its geometry is
what the answer shows, or null. A tree, guards and sights have a feature for each line or point, with the numbers of its vertices
in the data, from 0 on.

A visibility polygon and a relative hull (hull, round) are polygons, or lines or a point if they have no area. Lines that stick out
of the polygons are a property: spikes, where only one ray sees on, and twice, where the boundary of a hull goes there and back.

With --only the features are those of one command, and their geometry is of one type, as some formats require; a geometry of
another type, such as a kernel that is a point, is null, and the property wkt has it.

Integers of the script come back exactly. If an answer has fractions, coordinates are the nearest numbers in double precision, or
rounded to N digits after the point with --digits N, and properties have them exactly, such as "25/3". The CRS is that of the data.

--answers takes the answers from a file, such as one that `(cd crates/geo && rt try < SCRIPT) > FILE` wrote, so no program is needed.
The geometry of a round is then its points in their order, since its hull takes another query.

Standard error names each polygon that geo rejected; the exit status is 1 if it rejected all.
"""
from __future__ import annotations

import argparse
from fractions import Fraction
from typing import Optional, Sequence

from .. import exact, fault
from ..answers.about import About, abouts
from ..answers.answered import answers, paired
from ..answers.saved import Saved, load
from ..backends import Backend
from . import features, options


def main(words: Sequence[str]) -> int:
    given = arguments(words)
    script, backend = options.asked(given)
    saved = load(given.frame)
    found = abouts(answers(script, backend), saved)
    fault.put(written(found, saved, given.only, given.digits, None if given.answers else backend))
    return options.rejected(found, saved)


def collection(script: bytes, answers: bytes, saved: Saved, only: Optional[str] = None, digits: Optional[int] = None,
               backend: Optional[Backend] = None) -> str:
    """Returns the answers to a script as GeoJSON; raises Fault if they do not fit it. A `round` is the polygon of its hull if there is a
    backend that answers the query for it, else a MultiPoint."""
    return written(abouts(paired(script, answers), saved), saved, only, digits, backend)


def written(found: Sequence[About], saved: Saved, only: Optional[str], digits: Optional[int], backend: Optional[Backend]) -> str:
    hulls = features.hulls(found, backend) if backend and only in (None, 'round') else {}

    def write(coordinate: Fraction) -> str:
        return exact.nearest(coordinate) if digits is None else exact.decimal(coordinate, digits)

    return features.Features(saved, hulls, write).collection(found, only)


def arguments(words: Sequence[str]) -> argparse.Namespace:
    parser = options.Parser(__doc__)
    parser.answers(is_frame_needed=True)
    parser.option('--only', metavar='COMMAND', help='write the answers to one command')
    parser.option('--digits', metavar='N', help='round to so many digits after the point')
    given = parser.read(words)
    if given.only is not None and given.only not in features.TYPES:
        parser.error(f'--only {fault.shown(given.only)}: the commands are {", ".join(features.TYPES)}')
    if given.digits is not None:
        if not (given.digits.isascii() and given.digits.isdigit() and int(given.digits[:4]) <= 400):
            parser.error(f'--digits {fault.shown(given.digits)}: give an integer from 0 to 400')
        given.digits = int(given.digits)
    return given
