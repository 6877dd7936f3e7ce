#!/usr/bin/env python3
"""Measures how many answers the page draws in a second while something is dragged, in Chromium, from the mouse to the picture.

    clients/web/test/speed.py [--seconds N] [--sizes 1000,4096] [--program FILE]

In the column `mouse` the mouse is moved by the browser's protocol, as by a hand; in the column `flood` the page is told of moves without a
pause. The page draws once in a frame, so there are at most 60 answers in a second. What comes while a question is on its way is passed over,
but for the newest: `waiting` is the greatest number of questions that were on their way at once. The answers at the end are compared with
those of a new session.
"""
from __future__ import annotations

import argparse
import importlib
import json
import math
import sys
import time
from typing import Any, Dict, List, Tuple

from browser import Browser, Page, found
from places import TOP, answers_to

from geo_exact import backends
from geo_exact.explorer import server

sys.path.insert(0, str(TOP / 'bench'))
inputs: Any = importlib.import_module('inputs')
Place = Tuple[int, int]
SETTLED = 'app.asker.known() === app.asker.wanted.length && !app.asker.isBusy && app.asker.answered.length === app.asker.wanted.length && !app.isStale'
FLOOD = """new Promise((done) => {
  const canvas = document.getElementById('canvas');
  const places = PLACES;
  const end = performance.now() + SECONDS * 1000;
  const before = app.frames;
  const channel = new MessageChannel();
  let k = 0;
  channel.port1.onmessage = () => {
    if (performance.now() > end) return done((app.frames - before) / SECONDS);
    const [clientX, clientY] = places[k++ % places.length];
    canvas.dispatchEvent(new PointerEvent('pointermove', {pointerId: 1, pointerType: 'mouse', clientX, clientY, buttons: 1}));
    setTimeout(() => channel.port2.postMessage(0), 1);
  };
  channel.port2.postMessage(0);
})"""
COUNT = """(() => {
  let now = 0;
  const ask = globalThis.fetch;
  globalThis.most = 0;
  globalThis.fetch = async (...words) => {
    if (!/more|begin/.test(words[0])) return ask(...words);
    now += 1;
    globalThis.most = Math.max(globalThis.most, now);
    try { return await ask(...words); } finally { now -= 1; }
  };
})()"""


def round_trip(middle: Tuple[float, float], reach: float) -> List[Tuple[float, float]]:
    """Places on a round, in small steps."""
    return [(middle[0] + reach * math.cos(k / 40), middle[1] + reach * math.sin(k / 40)) for k in range(252)]


class Drag:
    """A drag in one polygon."""

    def __init__(self, page: Page, ring: List[Place], tool: str):
        self.page = page
        points = inputs.inner_places(ring, 2)
        kept = json.dumps({'path': points, 'see': points[:1], 'tree': points[:1]})
        question = 'see' if tool == 'vertex' else tool
        page.evaluate(f"app.store.set({{...app.store.state, panels: [{{ring: {json.dumps(ring)}, closed: true, kept: []}}], "
                      f"question: '{question}', drawing: {json.dumps(tool == 'vertex')}, points: {kept}}}); app.fit()")
        page.until(SETTLED)
        self.from_place = ring[0] if tool == 'vertex' else points[-1] if tool == 'path' else points[0]
        self.holds = tool != 'tree'

    def middle(self) -> Tuple[float, float]:
        x, y = self.page.evaluate("(() => { const b = document.getElementById('canvas').getBoundingClientRect(); "
                                  f'const [x, y] = app.view.place({json.dumps(self.from_place)}); return [b.x + x, b.y + y]; }})()')
        return x, y

    def by_mouse(self, seconds: float) -> float:
        """Answers in a second while the mouse is moved some 125 times in a second."""
        places = round_trip(self.middle(), 9)
        before, start, k = self.page.evaluate('app.frames'), time.monotonic(), 0
        sent = []
        while time.monotonic() - start < seconds:
            x, y = places[k % len(places)]
            sent.append(self.page.browser.send('Input.dispatchMouseEvent', self.page.session, type='mouseMoved', x=x, y=y,
                                               button='left' if self.holds else 'none', buttons=int(self.holds)))
            k += 1
            time.sleep(max(0.0, start + k * 0.008 - time.monotonic()))
        count = self.page.evaluate('app.frames') - before
        taken = time.monotonic() - start
        for number in sent:
            self.page.browser.reply(number)
        return float(count / taken)

    def by_flood(self, seconds: float) -> float:
        places = json.dumps(round_trip(self.middle(), 9))
        return float(self.page.evaluate(FLOOD.replace('PLACES', places).replace('SECONDS', str(seconds))))

    def run(self, seconds: float) -> Tuple[float, float]:
        place = self.middle()
        self.page.mouse('mouseMoved', *place)
        if self.holds:
            self.page.mouse('mousePressed', *place, True)
        found = self.by_mouse(seconds), self.by_flood(seconds) if self.holds else math.nan
        if self.holds:
            self.page.mouse('mouseReleased', *place)
        self.page.until(SETTLED)
        return found


def is_right(page: Page, engine: backends.Engine) -> bool:
    script = str(page.evaluate("import('./records.js').then(({script}) => script(app.script()))"))
    shown = page.evaluate("app.asker.answered.map(({lines}) => lines.join('\\n') + '\\n').join('')")
    return bool(shown == answers_to(engine, script))


def main() -> None:
    options = argparse.ArgumentParser(description=__doc__, formatter_class=argparse.RawDescriptionHelpFormatter)
    options.add_argument('--seconds', type=float, default=4)
    options.add_argument('--sizes', default='1000,4096')
    options.add_argument('--program', default='')
    chosen = options.parse_args()
    if not found():
        sys.exit('Chromium is not there')
    engine = backends.chosen(chosen.program)
    served = server.Server(0, '', engine)
    server.serve_aside(served)
    browser = Browser()
    page = browser.page()
    page.go(served.address)
    page.evaluate(COUNT)
    print(f'Answered by {engine.name}, in answers a second')
    print(f'{"polygon":10}{"vertices":>9}  {"dragged":8}{"mouse":>8}{"flood":>8}{"waiting":>9}')
    shapes: Dict[str, Any] = {'star': inputs.star, 'maze': inputs.maze, 'spiral': inputs.spiral}
    for size in map(int, chosen.sizes.split(',')):
        for name, shape in shapes.items():
            ring = [(int(x), int(y)) for x, y in shape(size)]
            for tool in ('see', 'path', 'tree', 'vertex'):
                page.evaluate('globalThis.most = 0')
                mouse, flood = Drag(page, ring, tool).run(chosen.seconds)
                waiting = page.evaluate('globalThis.most')
                right = '' if is_right(page, engine) else '  WRONG'
                fast = '' if math.isnan(flood) else f'{flood:.0f}'
                print(f'{name:10}{len(ring):9,}  {tool:8}{mouse:8.0f}{fast:>8}{waiting:9}{right}', flush=True)
    browser.close()
    served.shutdown()


if __name__ == '__main__':
    main()
