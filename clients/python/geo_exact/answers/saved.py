"""The frame file, which `records --save` writes next to a script: the frame, the CRS, and which polygon is which."""
from __future__ import annotations

import json
from dataclasses import dataclass, field
from typing import Any, Optional, Sequence, Union

from ..commands.outline import Outline, checksum
from ..exact import ratio, text
from ..fault import Fault
from ..frame import Frame
from ..reading import source


@dataclass
class Known:
    """A polygon of the data: its number in the file from 1 on, its name and its id, and the numbers that vertices have in the data."""

    number: int
    name: Optional[str] = None
    ident: Union[str, int, None] = None
    numbers: Optional[list[int]] = None

    def __str__(self) -> str:
        return f'polygon {self.number}' + (f' ({self.name})' if self.name else '')

    def vertex(self, i: int) -> int:
        """Returns the number in the data of vertex i of the script."""
        return self.numbers[i] if self.numbers else i


@dataclass
class Saved:
    """A frame with what is known of the data that it was made for. `polygons` has the known ones by the checksum of their points, and
    equal ones in their order; `geographic` is whether coordinates are longitude and latitude."""

    frame: Frame
    form: str = ''
    crs: Any = None
    polygons: dict[str, list[Known]] = field(default_factory=dict)
    geographic: bool = False

    def known(self, fields: Sequence[str], number: int, before: int = 0) -> Known:
        """Returns which polygon has these coordinates, if so many equal ones were before it; if none has, it is known by its number in
        the script."""
        found = self.polygons.get(checksum(list(zip(fields[::2], fields[1::2]))), [])
        known = found[min(before, len(found) - 1)] if found else Known(number)
        if known.numbers and len(known.numbers) != len(fields) // 2:
            raise Fault(f'the frame has other vertices of {known} than the script')
        return known


def dumps(frame: Frame, form: str = '', crs: Any = None, outlines: Sequence[Outline] = (), geographic: bool = False) -> str:
    """Returns the text of a frame file, with a line for each polygon."""
    x, y = map(text, frame.origin)
    head = {'origin': [x, y], 'scale': text(frame.scale), 'form': form, 'crs': crs}
    if geographic:
        head['geographic'] = True
    polygons = ','.join(f'\n  {json.dumps(entry(it))}' for it in outlines)
    return json.dumps(head)[:-1] + f', "polygons": [{polygons}]}}\n'


def entry(it: Outline) -> dict[str, Any]:
    found: dict[str, Any] = {'polygon': it.number, 'name': it.name, 'id': it.ident, 'points': checksum(it.points)}
    if it.numbers != list(range(len(it.numbers))):
        found['vertices'] = it.numbers
    return found


def loads(written: str) -> Saved:
    """Returns what the text of a frame file has; only its origin and its scale are needed. Raises ValueError, TypeError, KeyError,
    AttributeError or RecursionError for another text."""
    parts = json.loads(written)
    x, y = map(ratio, parts['origin'])
    found = Saved(Frame((x, y), ratio(parts['scale'])), parts.get('form', ''), parts.get('crs'), geographic=parts.get('geographic') is True)
    for it in parts.get('polygons', []):
        found.polygons.setdefault(it['points'], []).append(known_of(it))
    return found


def known_of(it: Any) -> Known:
    """Returns the polygon of an entry; raises ValueError if that is none which `entry` makes."""
    known = Known(it['polygon'], it['name'], it['id'], it.get('vertices'))
    numbers = known.numbers if isinstance(known.numbers, list) else [known.numbers or 0]
    if not (isinstance(known.name, (str, type(None))) and isinstance(known.ident, (str, int, type(None)))
            and all(isinstance(number, int) for number in [known.number, *numbers])):
        raise ValueError
    return known


def load(name: str) -> Saved:
    """Returns what a frame file has; raises Fault if it is none."""
    written = source.decoded(source.read(name), name)
    try:
        return loads(written)
    except (ValueError, TypeError, KeyError, AttributeError, RecursionError):
        raise Fault(f'{source.called(name)} is no frame: a frame is the file that records --save wrote') from None
