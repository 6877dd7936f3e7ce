"""Little memory."""
from __future__ import annotations

import subprocess
import sys
import unittest

from .rings import PACKAGE, WITHOUT

LITTLE_MEMORY = '''
import resource, geo_exact as geo
low = [(4 * i, 6 * (i % 2)) for i in range(8192)]
session = geo.Session(low + [(x, y + 2) for x, y in reversed(low)], wide=True)
points = low[::128]
pages = int(open('/proc/self/statm').read().split()[0])
resource.setrlimit(resource.RLIMIT_AS, (pages * resource.getpagesize() + (32 << 20), resource.RLIM_INFINITY))
try:
    session.hull(points)
except geo.GeoMemoryError as refused:
    print('refused', refused.answered)
print(session.inside(points[1]), len(session.path(points[0], points[1])))
try:
    geo.answer_script(b'inside,0,0\\n' * 500_000)
except MemoryError:
    print('refused')
print(session.polygon(low[:2] + [(0, 9)]), session.kernel()[0])
'''


class Memory(unittest.TestCase):
    @unittest.skipIf(WITHOUT, WITHOUT)
    @unittest.skipUnless(sys.platform == 'linux', 'without /proc')
    def test_a_process_with_little_memory(self) -> None:
        ran = subprocess.run([sys.executable, '-c', LITTLE_MEMORY], cwd=PACKAGE, capture_output=True, text=True)
        self.assertEqual((ran.returncode, ran.stderr), (0, ''))
        self.assertEqual(ran.stdout.splitlines(), ["refused b''", 'Place.EDGE 129', 'refused', '3 (Fraction(0, 1), Fraction(0, 1))'])
