"""The legend of a panel: each answer in its colour."""
from __future__ import annotations

from html import escape
from typing import NamedTuple, Optional, Sequence, Tuple

from ..answers.about import About
from ..answers.answered import NUMBERED, PATHS
from ..exact import text
from ..frame import Frame
from .page import short, width, wrapped

ROOM = 400  # of a line
SIZE = 12
LINE, ENTRY = 15, 20  # from line to line, and from entry to entry
SWATCH = 18
LINES = 3  # of an entry at most
IN_PLACE = ('outside', 'no_tree', 'no_polygon', 'clash')  # errors of records whose points are numbers


class Entry(NamedTuple):
    """A line of a legend."""

    text: str
    colour: str
    is_refused: bool = False


def legend(entries: Sequence[Entry], title: str) -> Tuple[list[str], float, float]:
    """Returns a legend at (0, 0), and how wide and high it is."""
    drawn, widest, y = [], 0.0, 0.0
    for line in wrapped(title, SIZE * 1.1, ROOM, LINES) if title else []:
        y += ENTRY
        widest = max(widest, width(line, SIZE * 1.1))
        drawn.append(f'<text class="title" x="0" y="{short(y)}">{escape(line)}</text>')
    for entry in entries:
        y += ENTRY
        fill, kind = ('none', ' class="refused"') if entry.is_refused else (entry.colour, '')
        drawn.append(f'<rect x="0" y="{short(y - 10)}" width="11" height="11" fill="{fill}"/>')
        for k, line in enumerate(wrapped(entry.text, SIZE, ROOM, LINES)):
            y += LINE if k else 0
            widest = max(widest, SWATCH + width(line, SIZE))
            drawn.append(f'<text x="{SWATCH}" y="{short(y)}"{kind}>{escape(line)}</text>')
    return drawn, widest, y


def answered(it: About, frame: Optional[Frame]) -> str:
    """Returns a record with the first line of its answer. If there is a frame, the record has its points in the units of the data, and
    the line has no points in those of the script."""
    row, line, record = it.row, it.row.lines[0], it.row.record
    if it.is_ring and len(it.ring) > 12:
        record = ['polygon', '..']
    elif row.word == 'polygon' and len(record) > 25:
        record = [*record[:5], '..']
    elif frame and row.word not in (*NUMBERED, 'geo') and (not row.is_refused or line[1] in IN_PLACE):
        record = [row.word, *(text(c) for point in row.points for c in frame.back(point))]
    is_cut = frame and line[0] in PATHS and row.word != 'polygon'
    return f'{shown(record)} → {shown([*line[:2], ".."] if is_cut else line)}'


def shown(fields: Sequence[str]) -> str:
    """Returns fields as a picture can show them."""
    line = ','.join(fields).encode('latin-1', 'replace').decode('utf-8', 'replace')
    return ''.join(sign if sign.isprintable() else '?' for sign in line)
