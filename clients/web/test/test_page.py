"""The page in Chromium, as a newcomer, a planner, a teacher and a person with a keyboard use it. Skipped where Chromium isn't there, or where
neither the library nor the program is built."""
from __future__ import annotations

import csv
import io
import json
import os
import re
import subprocess
import sys
import time
import unittest
from pathlib import Path
from tempfile import TemporaryDirectory
from typing import Dict, List, Optional, Tuple

from browser import Browser, Page, found
from places import EXAMPLES, TOP, answering, answers_to

from geo_exact import backends
from geo_exact.explorer import opening, server

Place = Tuple[int, int]
L: List[Place] = [(0, 0), (4, 0), (4, 2), (2, 2), (2, 4), (0, 4)]
SETTLED = 'app.asker.known() === app.asker.wanted.length && !app.asker.isBusy && app.asker.answered.length === app.asker.wanted.length && !app.isStale'
RATIO = """(() => {
  const probe = document.body.appendChild(document.createElement('span'));
  const light = (name) => {
    probe.style.color = `var(${name})`;
    const [r, g, b] = getComputedStyle(probe).color.match(/[\\d.]+/g).map((c) => (c / 255 <= 0.03928 ? c / 255 / 12.92 : ((c / 255 + 0.055) / 1.055) ** 2.4));
    return 0.2126 * r + 0.7152 * g + 0.0722 * b;
  };
  const ratio = (a, b) => (Math.max(light(a), light(b)) + 0.05) / (Math.min(light(a), light(b)) + 0.05);
  const found = PAIRS.map(([a, b]) => ratio(a, b));
  probe.remove();
  return found;
})()"""


def setUpModule() -> None:
    if not found():
        raise unittest.SkipTest('Chromium is not there, so the page is not tried in a browser')
    global browser, engine
    engine = answering()
    browser = Browser()


def tearDownModule() -> None:
    browser.close()


browser: Browser
engine: backends.Engine


def written(rows: List[List[str]]) -> str:
    """Returns records as the lines of a script."""
    text = io.StringIO()
    csv.writer(text, lineterminator='\n').writerows(rows)
    return text.getvalue()


class Opened(unittest.TestCase):
    """A tab with the page of a server of its own."""

    opens: Optional[str] = None

    def setUp(self) -> None:
        start = opening.opened(self.opens, (EXAMPLES / self.opens).read_bytes()) if self.opens else None
        self.server = server.Server(0, '', engine, start)
        thread = server.serve_aside(self.server)
        self.addCleanup(self.server.sessions.end_all)
        self.addCleanup(self.server.server_close)
        self.addCleanup(thread.join)
        self.addCleanup(self.server.shutdown)
        self.page = browser.page()
        self.addCleanup(self.page.close)
        self.go()

    def go(self, address: str = '', page: Optional[Page] = None) -> None:
        (page or self.page).go(address or self.server.address)
        self.settle(page)

    def tearDown(self) -> None:
        self.assertEqual([fault for fault in self.page.faults() if 'status of 422' not in fault], [])  # 422 is a file that can't be read

    def settle(self, page: Optional[Page] = None) -> None:
        (page or self.page).until(SETTLED)

    def at(self, place: Place) -> Tuple[float, float]:
        """Where a point of the plane is on the screen."""
        x, y = self.page.evaluate(f"(() => {{ const b = document.getElementById('canvas').getBoundingClientRect(); "
                                  f'const [x, y] = app.view.place({list(place)}); return [b.x + x, b.y + y]; }})()')
        return x, y

    def click(self, *places: Place) -> None:
        for place in places:
            self.page.click(*self.at(place))
        self.settle()

    def tool(self, name: str) -> None:
        self.page.press(f'#tools label:has([value={name}])')
        self.settle()

    def draw(self, ring: List[Place]) -> None:
        """Draws a polygon with the mouse."""
        self.page.press('#new')
        self.click(*ring, ring[0])

    def script(self) -> str:
        return str(self.page.evaluate("import('./records.js').then(({script}) => script(app.script()))"))

    def shown(self) -> str:
        """The answers that the page has."""
        return str(self.page.evaluate("app.asker.answered.map(({lines}) => lines.join('\\n') + '\\n').join('')"))

    def count(self, selector: str) -> int:
        return int(self.page.evaluate(f'document.querySelectorAll({json.dumps(selector)}).length'))

    def is_right(self) -> None:
        """The answers on the page are those that the script has."""
        self.settle()
        self.assertEqual(self.shown(), answers_to(engine, self.script()))

    def saved(self, button: str, name: str) -> str:
        """The file that a button gives."""
        file = browser.downloads / name
        file.unlink(missing_ok=True)
        self.page.press(f'#{button}')
        end = time.monotonic() + 20
        while not file.exists() or not file.read_text():
            self.assertLess(time.monotonic(), end, name)
            time.sleep(0.05)
        return file.read_text()


class Newcomer(Opened):
    def test_the_page_begins_with_a_way(self) -> None:
        self.assertEqual(self.page.text('#said'), 'The way has 3 points: (1,\u00a04) → (2,\u00a02) → (4,\u00a01).')
        self.assertIn(engine.name, self.page.text('#who'))
        self.is_right()

    def test_draws_the_l_and_clicks_a_way(self) -> None:
        self.draw(L)
        self.assertEqual(self.script(), 'polygon,0,0,4,0,4,2,2,2,2,4,0,4\n')
        self.tool('path')
        self.click((1, 4), (4, 1))
        self.assertEqual(self.script(), 'polygon,0,0,4,0,4,2,2,2,2,4,0,4\npath,1,4,4,1\n')
        self.assertEqual(self.page.text('#rows tr:last-child td:last-child'), 'path,3,1,4,2,2,4,1')
        self.assertEqual(self.count('#shown .way'), 1)
        self.is_right()

    def test_the_way_follows_the_mouse_before_its_end_is_clicked(self) -> None:
        self.page.press('#clear')
        self.click((1, 4))
        self.page.mouse('mouseMoved', *self.at((4, 2)))
        self.page.until("app.asker.answered.at(-1).row.join() === 'path,1,4,4,2'")
        self.is_right()

    def test_a_point_outside_is_said_and_marked(self) -> None:
        self.page.press('#clear')
        self.click((3, 3), (1, 1))
        self.assertEqual(self.page.text('#said'), 'The first point is outside the polygon.')
        self.assertEqual((self.count('#answer.refused'), self.count('#shown .wrong .cross')), (1, 1))
        self.is_right()

    def test_a_bow_tie_is_said_and_its_edges_are_marked(self) -> None:
        self.draw([(0, 0), (4, 4), (4, 0), (0, 4)])
        self.assertEqual(self.page.text('#said'), 'The polygon is not simple: edges 0 and 2 share a point where they must not, or one has equal ends.')
        self.assertEqual(self.page.evaluate("document.querySelector('#shown .wrong .edge').getAttribute('d').match(/M/g).length"), 2)
        self.tool('kernel')
        self.assertEqual(self.page.text('#rows tr:last-child td:last-child'), 'bad,no_polygon')
        self.is_right()

    def test_two_sides_are_not_closed(self) -> None:
        self.page.press('#new')
        self.click((0, 0), (4, 0))
        self.page.key('Enter')
        self.assertFalse(self.page.evaluate('app.store.state.panels[0].closed'))

    def test_a_vertex_is_dragged_and_undone(self) -> None:
        self.tool('draw')
        self.page.drag([self.at((2, 2)), self.at((2, 3)), self.at((3, 3))])
        self.settle()
        moved = 'polygon,0,0,4,0,4,2,3,3,2,4,0,4\npath,1,4,4,1\n'
        self.assertEqual(self.script(), moved)
        self.is_right()
        self.page.drag([self.at((3, 3)), self.at((0, 2))])
        self.settle()
        self.assertEqual(self.page.text('#said'), 'The polygon is not simple: edges 2 and 5 share a point where they must not, or one has equal ends.')
        self.is_right()
        self.page.key('z', 2)
        self.settle()
        self.assertEqual(self.script(), moved)
        self.page.press('#undo')
        self.settle()
        self.assertIn('2,2', self.script())
        self.page.press('#redo')
        self.settle()
        self.assertEqual(self.script(), moved)

    def test_a_vertex_is_pulled_out_of_an_edge_and_taken_away(self) -> None:
        self.tool('draw')
        self.page.drag([self.at((3, 0)), self.at((3, -1))])
        self.settle()
        self.assertEqual(self.script(), 'polygon,0,0,3,-1,4,0,4,2,2,2,2,4,0,4\npath,1,4,4,1\n')
        self.page.key('Delete')
        self.settle()
        self.assertEqual(self.script(), 'polygon,0,0,4,0,4,2,2,2,2,4,0,4\npath,1,4,4,1\n')


POINTS: Dict[str, List[Place]] = {
    'inside': [(1, 1)], 'path': [(4, 0), (0, 4)], 'tree': [(4, 1)], 'see': [(4, 1)], 'kernel': [], 'hull': [(4, 0), (0, 4), (1, 1), (4, 2)],
    'round': [], 'guards': [], 'sights': [], 'check': [(4, 0), (2, 2), (0, 4)],
}


class Tools(Opened):
    def test_each_in_both_versions(self) -> None:
        for version in 1, 2:
            self.page.press(f'.version label:has([value="{version}"])')
            for name, points in POINTS.items():
                self.tool(name)
                self.page.press('#clear') if name != 'round' else None
                self.click(*points)
                self.is_right()
                script = self.script().split('\n')
                self.assertEqual(script[0] == 'geo,2', version == 2)
                self.assertIn(name, [line.split(',')[0] for line in script])
                self.assertFalse(self.count('#answer.refused'), name)
                self.assertTrue(self.count(f'#shown g.{name}'), name)

    def test_touched_vertices_are_shown_in_version_2(self) -> None:
        self.page.press('#clear')
        self.click((4, 0), (0, 4))
        self.assertEqual(self.count('#shown .small'), 0)
        self.page.press('.version label:has([value="2"])')
        self.settle()
        self.assertEqual(self.count('#shown .small'), 1)
        self.assertEqual(self.page.text('#rows tr:last-child td:last-child'), 'path,3,4,0,2,2,0,4')

    def test_a_viewpoint_is_dragged(self) -> None:
        self.draw([(0, 0), (6, 0), (6, 2), (2, 2), (2, 4), (0, 4)])
        self.tool('see')
        self.click((1, 1))
        self.page.drag([self.at((1, 1)), self.at((2, 1)), self.at((6, 1))])
        self.settle()
        self.assertEqual(self.script().split('\n')[1], 'see,6,1')
        self.assertIn('part,5,0,5/2,0,0', self.page.text('#rows tr:last-child td:last-child'))
        self.is_right()

    def test_the_picture_is_shaded_where_the_point_sees(self) -> None:
        self.page.pick('#examples', 'floor-plan')
        self.page.until("app.store.state.name === 'floor-plan'")
        self.tool('see')
        self.click((1000, 1000))
        polygon, see = self.script().split('\n')[0], self.script().split('\n')[-2].split(',')
        grid = [(x, y) for x in range(400, 9000, 760) for y in range(330, 4000, 670)]

        def sees(dx: int, dy: int) -> List[bool]:
            script = polygon + '\n' + ''.join(f'path,{see[1]},{see[2]},{x + dx},{y + dy}\n' for x, y in grid)
            return [line.startswith('path,2,') for line in answers_to(engine, script).split('\n')[1:-1]]

        told = [sees(dx, dy) for dx in (-60, 60) for dy in (-60, 60)]
        seen = {place: all(four) for place, four in zip(grid, zip(*told)) if len(set(four)) == 1}
        self.assertEqual((set(seen.values()), len(seen) > 50), ({True, False}, True))
        self.page.mouse('mouseMoved', 700, 5)
        shades = {is_seen: {self.page.colour(*self.at(place)) for place, it in seen.items() if it == is_seen} for is_seen in (True, False)}
        self.assertEqual(shades[True] & shades[False], set(), shades)

    def test_the_way_in_a_tree_follows_the_mouse(self) -> None:
        self.tool('tree')
        self.click((4, 1))
        for place in [(1, 4), (3, 3), (0, 0)]:
            self.page.mouse('mouseMoved', *self.at(place))
            self.page.until(f"app.asker.answered.at(-1).row.join() === 'reach,{place[0]},{place[1]}'")
            self.is_right()

    def test_guards_are_shown_with_what_each_sees(self) -> None:
        self.page.pick('#examples', 'guards')
        self.page.until('app.store.state.panels.length === 4')
        self.settle()
        self.page.pick('#polygons', '3')
        self.tool('guards')
        self.page.until("app.asker.answered.filter(({row}) => row[0] === 'see').length === 3")
        self.assertEqual((self.count('#shown .see'), self.count('#shown .guards')), (3, 2))
        self.assertIn('1, 5, 9', self.page.text('#said'))

    def test_the_place_of_a_broken_rule_is_marked(self) -> None:
        self.tool('check')
        self.click((4, 0), (2, 2), (0, 4))
        self.assertEqual(self.page.text('#said'),
                         'The list is not taut. Point 1 breaks a rule: it is in line with the points before and after it.')
        self.assertEqual(self.count('#shown .check .cross'), 1)

    def test_questions_are_kept_and_a_tree_stays_the_last_one(self) -> None:
        self.tool('tree')
        self.click((4, 1))
        self.page.press('#keep')
        self.click((0, 0))
        self.page.mouse('mouseMoved', *self.at((1, 4)))
        self.page.until("app.asker.answered.at(-1).row.join() === 'reach,1,4'")
        self.is_right()
        self.page.evaluate("document.querySelector('#canvas').dispatchEvent(new PointerEvent('pointerleave'))")
        self.tool('kernel')
        self.page.press('#keep')
        self.page.press('#rows tr:nth-child(2) .remove')
        self.is_right()
        self.assertGreaterEqual(self.script().count('kernel'), 2)


class Planner(Opened):
    opens = 'data/building.geojson'

    def test_a_building_is_opened_and_a_way_is_two_clicks(self) -> None:
        self.assertEqual(self.page.evaluate('app.store.state.panels[0].ring.length'), 200)
        self.click(*ROOMS)
        self.assertTrue(self.script().split('\n')[1].startswith('path,'))
        self.assertEqual(self.page.text('#said')[:21], 'The way has 6 points:')
        self.is_right()

    def test_what_is_seen_from_the_corridor(self) -> None:
        records = opening.example('building')
        assert records
        place = next(row for row in records['records'] if row[0] == 'see')
        self.page.pick('#examples', 'building')
        self.page.until('app.store.state.panels[0].kept.length === 3')
        self.is_right()
        self.assertEqual(self.page.text('#rows tr:nth-child(4) td:first-child code'), ','.join(place))
        self.assertEqual(self.shown(), (EXAMPLES / 'building.stdout').read_text())
        self.assertEqual((self.count('#shown .see'), self.count('#shown .path'), self.count('#shown .inside')), (1, 1, 1))

    def test_answers_in_the_units_of_the_data(self) -> None:
        self.tool('inside')
        self.click(ROOMS[0])
        made = json.loads(self.saved('save-geojson', 'answers.geojson'))
        self.assertEqual([it['properties']['record'] for it in made['features']], ['polygon', 'inside'])
        x, y = made['features'][1]['geometry']['coordinates']
        self.assertTrue(8.41 < x < 8.42 and 49.0 < y < 49.01, (x, y))

    def test_a_file_is_chosen(self) -> None:
        with TemporaryDirectory() as folder:
            for name, text, count, told in [
                ('room.wkt', 'POLYGON ((0 0, 5.25 0, 5.25 4, 0 4))', 4, ''), ('hole.geojson', HOLE, 4, 'hole'), ('none.geojson', '{', 4, ''),
                ('fine.wkt', 'POLYGON ((0 0, 2400 0, 2400.125 800, 0 800.5, -1 3))', 5, ''),
                ('two.script', 'geo,2\npolygon,0,0,4,0,0,4\ninside,1,1\npolygon,0,0,4,0,4,4\n', 3, ''),
            ]:
                file = Path(folder) / name
                file.write_text(text)
                before = self.script()
                self.page.choose('#file', file)
                self.page.until(f'app.store.state.name === {json.dumps(name)} || document.getElementById("note").textContent')
                if name in ('hole.geojson', 'none.geojson'):
                    self.assertIn(told, self.page.text('#note'))
                    self.assertEqual(self.script(), before)
                    self.page.evaluate("document.getElementById('note').textContent = ''")
                self.assertEqual(self.page.evaluate('app.store.state.panels[0].ring.length'), count)
                self.is_right() if name in ('room.wkt', 'fine.wkt') else None
        self.assertEqual(self.page.evaluate('[app.store.state.version, app.store.state.panels.length]'), [2, 2])
        self.settle()
        self.page.pick('#polygons', '1')
        self.tool('kernel')
        self.assertEqual(self.script(), 'geo,2\npolygon,0,0,4,0,0,4\ninside,1,1\npolygon,0,0,4,0,4,4\nkernel\n')


    def test_it_is_asked_whether_to_round(self) -> None:
        with TemporaryDirectory() as folder:
            file = Path(folder) / 'far.wkt'
            file.write_text('POLYGON ((0 0, 0.123456789 0, 3 4))')
            for answer, count in [('false', 200), ('true', 3)]:
                self.page.evaluate(f"document.getElementById('note').textContent = ''; window.confirm = () => {answer}")
                self.page.choose('#file', file)
                self.page.until("app.store.state.name === 'far.wkt' || document.getElementById('note').textContent")
                self.assertEqual(self.page.evaluate('app.store.state.panels[0].ring.length'), count)
        self.is_right()


ROOMS: List[Place] = [(123394, 86778), (129393, 88453)]
HOLE = '{"type": "Polygon", "coordinates": [[[0, 0], [9, 0], [9, 9], [0, 0]], [[5, 1], [6, 1], [6, 2], [5, 1]]]}'


class Teacher(Opened):
    def test_each_example_has_its_answers(self) -> None:
        for it in opening.examples():
            self.page.evaluate("app.store.set({...app.store.state, name: '?'})")
            self.page.pick('#examples', it['name'])
            self.page.until(f'app.store.state.name === {json.dumps(it["name"])}')
            script = self.script()
            self.assertEqual(self.page.evaluate('app.menu.answers()'), answers_to(engine, script), it['name'])
            if not it['name'].startswith('data/'):
                self.assertEqual(script, written(opening.opened('', (EXAMPLES / it['name']).read_bytes())['records']), it['name'])

    def test_an_address_brings_the_state_back(self) -> None:
        self.page.press('.version label:has([value="2"])')
        self.tool('see')
        self.click((3, 1))
        self.page.press('#keep')
        self.tool('hull')
        self.click((4, 2), (2, 4), (1, 2))
        script, shown = self.script(), self.shown()
        address = self.page.evaluate("import('./address.js').then(({addressOf}) => `${location.href.split('#')[0]}#${addressOf(app.store.state)}`)")
        self.page.press('#new')
        self.go(address)
        self.assertEqual((self.script(), self.shown()), (script, shown))
        self.page.until(f'location.href === {json.dumps(address)}')
        self.page.evaluate("location.hash = '#tool=kernel&script=polygon,0,0,9,0,0,9'")
        self.page.until("app.store.state.question === 'kernel'")
        self.settle()
        self.assertEqual(self.script(), 'polygon,0,0,9,0,0,9\nkernel\n')
        for fault in ['#tool=%', '#tool=path&script=polygon,%zz', '#x', '#tool=nothing&points=a,b&frame=1,2&polygon=99', '#tool=path&script=__proto__']:
            self.go(self.server.address + fault)
            self.assertTrue(self.page.text('#said'))

    def test_what_is_saved_comes_back(self) -> None:
        self.tool('see')
        self.click((4, 1))
        script, shown = self.script(), self.shown()
        self.assertEqual(self.saved('save-script', 'geo.script'), script)
        self.assertEqual(self.saved('save-answers', 'geo.answers'), shown)
        picture = self.saved('save-picture', 'picture.svg')
        self.assertTrue(picture.startswith('<svg xmlns="http://www.w3.org/2000/svg"') and 'var(' not in picture)
        self.assertEqual(picture.count('class="part"'), 1)
        self.page.press('#new')
        self.page.choose('#file', browser.downloads / 'geo.script')
        self.page.until("app.store.state.name === 'geo.script'")
        self.settle()
        self.assertEqual(self.page.evaluate('app.store.state.panels[0].kept[0].join()'), 'see,4,1')

    def test_copies(self) -> None:
        browser.command('Browser.grantPermissions', permissions=['clipboardReadWrite', 'clipboardSanitizedWrite'])
        for button, text in [('copy-script', self.script()), ('copy-answers', self.shown())]:
            self.page.press(f'#{button}')
            self.page.until(r"/copied/.test(document.getElementById('note').textContent)")
            self.assertEqual(self.page.evaluate('navigator.clipboard.readText()'), text)
            self.page.evaluate("document.getElementById('note').textContent = ''")


class Keyboard(Opened):
    def test_a_polygon_and_a_way_by_keys_alone(self) -> None:
        self.page.evaluate("document.getElementById('new').focus()")
        self.page.key('Enter')
        self.page.evaluate("document.getElementById('canvas').focus()")
        for keys in ['Enter', 'ArrowRight ' * 4 + 'Enter', 'ArrowUp ' * 3 + 'Enter', 'ArrowLeft ' * 4 + 'ArrowDown ' * 3 + 'Enter']:
            for key in keys.split():
                self.page.key(key)
        self.settle()
        ring = self.page.evaluate('app.store.state.panels[0].ring')
        (x, y), closed = ring[0], self.page.evaluate('app.store.state.panels[0].closed')
        self.assertEqual((ring, closed), ([[x, y], [x + 4, y], [x + 4, y + 3]], True))
        self.page.evaluate("document.querySelector('#tools [value=path]').click(); document.getElementById('canvas').focus()")
        for key in ['Escape', *['ArrowRight'] * 2, 'Enter', 'ArrowRight', 'ArrowUp', 'Enter', 'PageDown', 'ArrowRight']:
            self.page.key(key)
        self.settle()
        self.assertRegex(self.script(), r'polygon.*\npath(,-?\d+){4}\n')
        self.is_right()

    def test_arrows_move_a_point_by_one_and_with_shift_by_ten(self) -> None:
        self.page.evaluate("document.getElementById('canvas').focus()")
        for key, modifiers in [('PageDown', 0), ('ArrowDown', 0), ('ArrowRight', 8), ('ArrowUp', 8), ('PageDown', 0), ('ArrowLeft', 0)]:
            self.page.key(key, modifiers)
        self.settle()
        self.assertEqual(self.page.evaluate('app.store.state.points.path'), [[11, 13], [3, 1]])
        self.page.until("/Goal: 4, 1/.test(document.getElementById('aloud').textContent) || document.getElementById('aloud').textContent")

    def test_points_are_typed(self) -> None:
        self.page.evaluate("(() => { const it = document.querySelector('#points input'); it.focus(); it.select(); })()")
        self.page.type('2')
        self.settle()
        self.assertEqual(self.script().split('\n')[1], 'path,2,4,4,1')
        self.page.key('ArrowUp')
        self.settle()
        self.assertEqual(self.page.evaluate('app.store.state.points.path[0][0]'), 3)

    def test_tools_are_one_group_for_the_keys(self) -> None:
        self.page.evaluate("document.querySelector('#tools [value=path]').focus()")
        self.page.key('ArrowDown')
        self.settle()
        self.assertEqual(self.page.evaluate('app.store.state.question'), 'tree')

    def test_all_that_can_be_pressed_has_a_name(self) -> None:
        nodes = self.page.command('Accessibility.getFullAXTree')['nodes']
        for node in nodes:
            role = node.get('role', {}).get('value')
            if role in ('button', 'radio', 'combobox', 'spinbutton', 'application', 'textbox') and not node['ignored']:
                self.assertTrue(node.get('name', {}).get('value'), node)

    def test_the_answer_is_said_aloud(self) -> None:
        self.tool('kernel')
        self.page.until("/kernel/.test(document.getElementById('aloud').textContent)")
        self.assertEqual(self.page.evaluate("document.getElementById('aloud').getAttribute('role')"), 'status')


class Looks(Opened):
    def test_what_is_written_can_be_read_in_light_and_dark(self) -> None:
        pairs = [['--text', '--card'], ['--text', '--paper'], ['--muted', '--card'], ['--muted', '--paper'], ['--muted', '--ring'],
                 ['--accent', '--press'], ['--accent', '--card'], ['--wrong', '--card'], ['--wrong', '--paper']]
        lines = [[f'--c{k}', '--ring'] for k in range(7)] + [['--ink', '--paper'], ['--wrong', '--ring']]
        for theme in 'light', 'dark':
            self.page.theme(theme)
            for wanted, least in (pairs, 4.5), (lines, 3):
                found = self.page.evaluate(RATIO.replace('PAIRS', json.dumps(wanted)))
                self.assertGreaterEqual(min(found), least, (theme, list(zip(wanted, found))))

    def test_nothing_is_wider_than_a_phone(self) -> None:
        self.page.pick('#examples', 'trees')
        self.page.until('app.store.state.panels.length === 3')
        self.settle()
        for width in 400, 340:
            self.page.size(width, 800)
            self.page.until(f"document.getElementById('canvas').clientWidth === {width}")
            self.assertLessEqual(self.page.evaluate('document.documentElement.scrollWidth'), width)

    def test_light_and_dark_by_a_button(self) -> None:
        self.page.theme('light')
        colours = []
        for _ in range(2):
            colours.append(self.page.evaluate('getComputedStyle(document.body).backgroundColor'))
            self.page.press('#theme')
        self.assertNotEqual(*colours)
        self.assertEqual(self.page.evaluate('getComputedStyle(document.body).backgroundColor'), colours[0])


class Tabs(Opened):
    def sessions(self, count: int) -> None:
        end = time.monotonic() + 20
        while len(self.server.sessions) != count:
            self.assertLess(time.monotonic(), end, len(self.server.sessions))
            time.sleep(0.05)

    def test_a_second_tab_has_a_session_of_its_own(self) -> None:
        other = browser.page()
        self.go(page=other)
        self.sessions(2)
        self.page.front()
        self.tool('kernel')
        self.assertEqual(other.evaluate("app.asker.answered.at(-1).row[0]"), 'path')
        other.front()
        other.evaluate("app.store.set({...app.store.state, version: 2, question: 'guards'})")
        self.settle(other)
        self.page.front()
        self.is_right()
        self.assertEqual(other.faults(), [])
        other.close()
        self.sessions(1)


class Away(unittest.TestCase):
    """A server that goes away and comes back."""

    def start(self, port: str, token: str) -> Tuple[subprocess.Popen[str], str]:
        words = [sys.executable, str(TOP / 'tools/explore'), '--no-browser', '--port', port, '--token', token]
        program = os.environ.get('GEO_PROGRAM')
        made = subprocess.Popen(words + (['--program', program] if program else []), stdout=subprocess.PIPE, text=True)
        assert made.stdout
        return made, made.stdout.readline().strip()

    def stop(self, made: subprocess.Popen[str]) -> None:
        made.terminate()
        made.communicate(timeout=20)
        self.assertEqual(made.returncode, 0)

    def test_it_is_said_and_the_page_recovers(self) -> None:
        token = 'a-token-that-stays'
        made, address = self.start('0', token)
        page = browser.page()
        page.go(address)
        page.until(SETTLED)
        self.stop(made)
        page.evaluate("app.store.set({...app.store.state, question: 'kernel'})")
        page.until("!document.getElementById('gone').hidden")
        self.assertIn('The server does not answer', page.text('#gone'))
        port = re.findall(r':(\d+)/', address)[0]
        made, again = self.start(port, token)
        self.assertEqual(again, address)
        page.until("document.getElementById('gone').hidden")
        page.until(SETTLED)
        self.assertEqual(page.evaluate('app.asker.answered.at(-1).lines.join()'), 'kernel,4,corner,0,0,corner,2,0,corner,2,2,corner,0,2')
        page.close()
        self.stop(made)


if __name__ == '__main__':
    unittest.main()
