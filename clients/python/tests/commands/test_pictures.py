"""Pictures: what they show, that all of it is on the page, and that labels give way."""
from __future__ import annotations

import math
import re
import unittest
import xml.etree.ElementTree as xml
from typing import List, Optional, Tuple

from .common import PROGRAM, TOP, WITHOUT, Word, run
from .test_answers import OUTPUT, OUTPUT_2, OUTPUT_3, SCRIPT, SCRIPT_2, SCRIPT_3
from geo_exact import Frame
from geo_exact.answers.about import abouts
from geo_exact.answers.answered import paired
from geo_exact.answers.saved import Saved, dumps, loads
from geo_exact.drawing import of_script
from geo_exact.drawing.page import Page, enters, width, wrapped

SVG = '{http://www.w3.org/2000/svg}'


def drawn(script: bytes, answers: bytes, saved: Optional[Saved] = None) -> str:
    return of_script(abouts(paired(script, answers), saved), saved)


def texts(svg: str) -> List[Tuple[str, float, float, float]]:
    """Returns each text of a picture with its left end, its right end and its height."""
    found = []
    root = xml.fromstring(svg)
    groups = [(group, group.get('transform') or 'translate(0 0)') for group in root.iter(f'{SVG}g')]
    inner = {text for group, _ in groups for text in group.iter(f'{SVG}text')}
    for group, moved in [*groups, (root, 'translate(0 0)')]:
        right, down = map(float, re.findall(r'-?[\d.]+', moved))
        for text in group.iter(f'{SVG}text'):
            if group is root and text in inner:
                continue
            size = 10 if group.get('class') == 'axis' or text.get('class') == 'number' else 13.2 if text.get('class') == 'title' else 12
            long = width(text.text or '', size)
            x = float(text.get('x') or 0) + right - {'middle': long / 2, 'end': long}.get(text.get('text-anchor') or '', 0)
            found.append((text.text or '', x, x + long, float(text.get('y') or 0) + down))
    return found


class Shown(unittest.TestCase):
    def test_each_record(self) -> None:
        svg = drawn(SCRIPT, OUTPUT)
        for text in ('kernel → bad,no_polygon', 'see,4,1 → see,3', 'inside,9,9 → outside'):
            self.assertIn(text, svg)
        self.assertEqual((svg.count('class="part"'), svg.count('class="seen"')), (1, 1))

    def test_version_2(self) -> None:
        found = abouts(paired(SCRIPT_2, OUTPUT_2))
        wide, narrow = of_script(found), of_script(found[1:])
        self.assertEqual([wide.count(text) for text in ('geo,2 → geo,2', 'geo,2 → bad,word', 'class="ring"', 'r="2"')], [1, 1, 1, 1])
        self.assertEqual(narrow.count('r="2"'), 0)

    def test_points_and_lines(self) -> None:
        svg = drawn(SCRIPT_3, OUTPUT_3)
        self.assertEqual([svg.count(text) for text in ('class="sight"', 'class="way"', 'r="6"')], [1, 2, 1])

    def test_many_dots_are_small(self) -> None:
        count = 600
        ring = ''.join(f',{x},{x % 2}' for x in range(count)) + f',{count},9999'
        guards = ','.join(map(str, range(count)))
        svg = drawn(f'polygon{ring}\nguards\n'.encode(), f'polygon,{count + 1}\nguards,{count},{guards}\n'.encode())
        self.assertEqual(svg.count('r="1.2"'), count)
        self.assertEqual(svg.count('class="number"'), 0)

    def test_signs_that_xml_does_not_have(self) -> None:
        svg = drawn(b'<\x00\x1b&"\xc3\xbc\xff\xed\xa0\x80,1\n', b'bad,word\n')
        self.assertIn('ü', xml.fromstring(svg)[1][0].text or xml.tostring(xml.fromstring(svg), 'unicode'))


class Places(unittest.TestCase):
    def inside_the_page(self, svg: str) -> None:
        root = xml.fromstring(svg)
        wide, high = float(root.get('width') or 0), float(root.get('height') or 0)
        for text, left, right, y in texts(svg):
            self.assertTrue(0 <= left and right <= wide and 10 <= y <= high, (text, left, right, y, wide, high))

    def test_large_numbers_with_a_sign(self) -> None:
        svg = drawn(b'polygon,-150000,-150000,150000,-150000,0,0\n', b'polygon,3\n')
        self.assertIn('>-150000<', svg)
        self.inside_the_page(svg)

    def test_long_records_are_wrapped(self) -> None:
        points = ','.join(['-123456'] * 60)
        svg = drawn(f'polygon,0,0,9,0,9,9\nhull,{points}\n{"x" * 300}\n'.encode(), b'polygon,3\nbad,outside,1\nbad,word\n')
        self.inside_the_page(svg)
        self.assertIn('..<', svg)

    def test_axes_in_the_units_of_the_data(self) -> None:
        svg = drawn(b'polygon,0,0,4000,0,4000,4000\nsee,0,0\n', b'polygon,3\nsee,1\npart,1,4000,0,4000,4000\n',
                    Saved(Frame((8.4, 49), 10_000_000)))
        shown = [text for text, *_ in texts(svg)]
        self.assertTrue({'8.4001', '49.0001', 'see,8.4,49 → see,1'} <= set(shown), shown)

    def test_longitude_and_latitude(self) -> None:
        """A square of degrees at latitude 60 is half as wide as it is high, and its right angle is one at the equator."""
        for low, share in ((59, math.cos(math.radians(60))), (-1, 1), (89, 0.01)):
            page = Page([(0, 0), (200, 200)], Frame((8, low), 100), geographic=True)
            self.assertAlmostEqual(page.width / (page.bottom - page.top), share, 3)
        saved = loads(dumps(Frame((8, 59), 100), geographic=True))
        self.assertTrue(saved.geographic and not loads(dumps(Frame())).geographic)
        svg = drawn(b'polygon,0,0,200,0,200,200\n', b'polygon,3\n', saved)
        x, y = zip(*(map(float, point.split(',')) for point in re.findall(r'class="ring" points="([^"]*)', svg)[0].split()))
        self.assertEqual((round(max(x) - min(x), 6), max(y) - min(y)), (220, 440))
        self.assertEqual(len([text for text, *_ in texts(svg) if text in ('8', '9', '10')]), 3)
        self.inside_the_page(svg)

    def test_labels_give_way(self) -> None:
        ring = ''.join(f',{x},{x % 2}' for x in range(50)) + ',50,9999'
        svg = drawn(f'polygon{ring}\n'.encode(), b'polygon,51\n')
        boxes = [(left, y - 10, right, y) for text, left, right, y in texts(svg) if text.isdigit()]
        self.assertFalse([(a, b) for k, a in enumerate(boxes) for b in boxes[:k]
                          if a[0] < b[2] and b[0] < a[2] and a[1] < b[3] and b[1] < a[3]])
        self.assertLess(svg.count('class="number"'), 51)

    def test_texts(self) -> None:
        self.assertEqual(wrapped('aa,bb,cc', 10, width('aa,bb,', 10), 3), ['aa,bb,', 'cc'])
        self.assertEqual(wrapped('a' * 9, 10, width('aaa', 10), 2)[0], 'aaa')
        self.assertTrue(enters((0, 0, 9, 9), (4, 4, 5, 5)) and not enters((0, 0, 9, 9), (6, 1, 8, 3)))
        page = Page([])
        self.assertEqual([page.place('a', places) for places in ([(0, 0)], [(1, 0), (0, 20)], [(1, 0)])], [(0, 0), (0, 20), None])


class Examples(unittest.TestCase):
    def test_each_stays_on_its_page(self) -> None:
        for example in sorted((TOP / 'examples').glob('*.stdout')):
            script = example.with_suffix('')
            if script.exists() and script.read_bytes():
                Places.inside_the_page(Places(), drawn(script.read_bytes(), example.read_bytes()))

    def test_each_picture_is_what_the_command_draws(self) -> None:
        for shown in sorted((TOP / 'docs/pictures').glob('*.svg')):
            example = TOP / 'examples' / shown.stem
            kept = example.with_suffix('.frame')
            words: List[Word] = ['--frame', kept] if kept.exists() else []
            made = run('draw', *words, '--answers', example.with_suffix('.stdout'), example)
            self.assertTrue(made.stdout == shown.read_text(), f'{shown} is out of step')

    @unittest.skipUnless(PROGRAM, WITHOUT)
    def test_a_program_answers_as_the_file_does(self) -> None:
        made = run('draw', TOP / 'examples/l-shape', '--program', PROGRAM)
        self.assertEqual(made.stdout, (TOP / 'docs/pictures/l-shape.svg').read_text())
