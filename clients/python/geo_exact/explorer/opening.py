"""What is opened: a file of GeoJSON or WKT, a script, or an example of the repository."""
from __future__ import annotations

import json
import re
from pathlib import Path
from typing import Any, Dict, List, Optional

from ..answers.answered import records
from ..commands.records import script_of_data
from ..errors import NotTaken
from ..fault import Fault

UNREADABLE = (Fault, NotTaken, RecursionError)  # why a text can't be read
EXAMPLES = Path(__file__).resolve().parents[4] / 'examples'
WKT = re.compile(rb'\s*(SRID\s*=\s*\d+\s*;)?\s*(MULTI)?(POINT|LINESTRING|POLYGON)|\s*GEOMETRYCOLLECTION', re.IGNORECASE)
ROW = re.compile(r'\| (.*?) \| (.*) \|$')


def opened(name: str, data: bytes, version: int = 1, rounds: bool = False) -> Dict[str, Any]:
    """Returns a text as the records of a script, with the frame of its coordinates if it is data. Data becomes a script of this version; a
    script has its own. Raises one of UNREADABLE."""
    data = data[3:] if data.startswith(b'\xef\xbb\xbf') else data
    frame: Optional[Dict[str, Any]] = None
    if is_data(data):
        data, saved = script_of_data(data, version, rounds)
        frame = json.loads(saved)
    return {'name': name, 'records': [[shown(field) for field in record] for record in records(data)], 'frame': frame}


def shown(field: str) -> str:
    """Returns a field, whose bytes were read as Latin-1, as the text that it most likely is."""
    try:
        return field.encode('latin-1').decode('utf-8', 'replace')
    except UnicodeEncodeError:
        return field


def is_data(data: bytes) -> bool:
    """Returns whether this is GeoJSON or WKT. A comma or the end of the line follows a command of a script."""
    front = data[:200]
    if front.lstrip().startswith((b'{', b'[')):
        return True
    found = WKT.match(front)
    return found is not None and not front[found.end():].lstrip(b' \t').startswith((b',', b'\n', b'\r'))


def examples() -> List[Dict[str, str]]:
    """Returns the examples of the repository, each with its description in examples/README.md."""
    if not EXAMPLES.is_dir():
        return []
    told = descriptions()
    names = [path.stem for path in sorted(EXAMPLES.glob('*.stdout')) if not path.with_suffix('.args').exists()]
    names += [f'data/{path.name}' for path in sorted((EXAMPLES / 'data').glob('*')) if path.suffix in ('.geojson', '.wkt')]
    return [{'name': name, 'about': told.get(name, '')} for name in names]


def descriptions() -> Dict[str, str]:
    """Returns the descriptions in examples/README.md by the names of the examples."""
    told: Dict[str, str] = {}
    for line in (EXAMPLES / 'README.md').read_text(encoding='utf-8').splitlines():
        row = ROW.match(line)
        for name in re.findall('`([^`]*)`', row[1]) if row else []:
            told.setdefault(name, row[2].replace('`', '') if row else '')
    return told


def example(name: str) -> Optional[Dict[str, Any]]:
    """Returns an example by its name in the list, and no other file."""
    if name not in [listed['name'] for listed in examples()]:
        return None
    data = (EXAMPLES / name).read_bytes()
    for version in 1, 2:
        try:
            return opened(name, data, version)
        except UNREADABLE:  # it is too fine for this version
            pass
    return {**opened(name, data, 2, True), 'note': 'Its coordinates are rounded.'}
