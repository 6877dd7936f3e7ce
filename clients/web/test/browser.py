"""Chromium without a window, driven by its remote protocol over a pipe. It wants nothing but Chromium itself."""
from __future__ import annotations

import base64
import json
import os
import shutil
import subprocess
import threading
import time
import zlib
from pathlib import Path
from tempfile import mkdtemp
from typing import Any, Callable, Dict, List, Optional, Tuple

NAMES = ('chromium', 'chromium-browser', 'google-chrome')
SECONDS = 60.0
KEYS = {'Enter': 13, 'Escape': 27, 'PageUp': 33, 'PageDown': 34, 'ArrowLeft': 37, 'ArrowUp': 38, 'ArrowRight': 39, 'ArrowDown': 40, 'Delete': 46,
        'Tab': 9}


def found() -> Optional[str]:
    """Where Chromium is, if it is anywhere."""
    paths = [os.environ.get('CHROMIUM')] + [shutil.which(name) for name in NAMES]
    return next((path for path in paths if path), None)


class Browser:
    """A browser with a profile of its own."""

    def __init__(self) -> None:
        program = found()
        assert program, 'there is no Chromium'
        self._folder = Path(mkdtemp())
        self.downloads = self._folder / 'downloads'
        to_read, self._write = os.pipe()
        self._read, to_write = os.pipe()
        words = [program, '--headless=new', '--no-sandbox', '--disable-gpu', '--disable-dev-shm-usage', '--no-first-run', '--hide-scrollbars',
                 '--disable-extensions', '--disable-background-networking', '--disable-component-update', '--remote-debugging-pipe',
                 f'--user-data-dir={self._folder}/profile', 'about:blank']
        shell = f'exec "$@" 3<&{to_read} 4>&{to_write}'
        self._process = subprocess.Popen(['sh', '-c', shell, 'sh', *words], pass_fds=(to_read, to_write), stdin=subprocess.DEVNULL,
                                         stdout=subprocess.DEVNULL, stderr=subprocess.DEVNULL)
        os.close(to_read)
        os.close(to_write)
        self._count = 0
        self._replies: Dict[int, Any] = {}
        self.events: List[Any] = []
        self._came = threading.Condition()
        threading.Thread(target=self._listen, daemon=True).start()
        self.command('Browser.setDownloadBehavior', behavior='allow', downloadPath=str(self.downloads))

    def _listen(self) -> None:
        rest = b''
        while block := os.read(self._read, 1 << 20):
            *messages, rest = (rest + block).split(b'\0')
            with self._came:
                for message in map(json.loads, messages):
                    if 'id' in message:
                        self._replies[message['id']] = message
                    else:
                        self.events.append(message)
                self._came.notify_all()
        os.close(self._read)

    def send(self, method: str, session: str = '', **parameters: Any) -> int:
        """Sends a command, and gives its number."""
        with self._came:
            self._count += 1
            number = self._count
        message = {'id': number, 'method': method, 'params': parameters, **({'sessionId': session} if session else {})}
        os.write(self._write, json.dumps(message).encode() + b'\0')
        return number

    def reply(self, number: int) -> Any:
        with self._came:
            is_there = self._came.wait_for(lambda: number in self._replies, SECONDS)
            assert is_there, 'the browser says nothing'
            message = self._replies.pop(number)
        if 'error' in message:
            raise RuntimeError(message['error'])
        return message['result']

    def command(self, method: str, session: str = '', **parameters: Any) -> Any:
        """What the browser says to a command."""
        return self.reply(self.send(method, session, **parameters))

    def page(self, width: int = 1400, height: int = 900) -> Page:
        """A new tab."""
        target = self.command('Target.createTarget', url='about:blank')['targetId']
        return Page(self, target, width, height)

    def close(self) -> None:
        self.send('Browser.close')
        try:
            self._process.wait(10)
        except subprocess.TimeoutExpired:
            self._process.kill()
            self._process.wait()
        os.close(self._write)
        for _ in range(20):  # its helpers still write for a moment
            shutil.rmtree(self._folder, ignore_errors=True)
            if not self._folder.exists():
                break
            time.sleep(0.1)


class Page:
    """A tab."""

    def __init__(self, browser: Browser, target: str, width: int, height: int):
        self.browser = browser
        self.target = target
        self.session: str = browser.command('Target.attachToTarget', targetId=target, flatten=True)['sessionId']
        for name in ('Page', 'Runtime', 'Log', 'Network'):
            self.command(f'{name}.enable')
        self.size(width, height)

    def command(self, method: str, **parameters: Any) -> Any:
        return self.browser.command(method, self.session, **parameters)

    def size(self, width: int, height: int) -> None:
        self.command('Emulation.setDeviceMetricsOverride', width=width, height=height, deviceScaleFactor=1, mobile=False)

    def theme(self, name: str) -> None:
        self.command('Emulation.setEmulatedMedia', features=[{'name': 'prefers-color-scheme', 'value': name}])

    def go(self, address: str) -> None:
        """Loads an address, and waits until the page says that it is ready."""
        self.command('Page.navigate', url='about:blank')
        self.command('Page.navigate', url=address)
        self.until("document.documentElement?.dataset.ready === 'yes'")

    def front(self) -> None:
        """Comes before the other tabs. What is behind another tab draws nothing."""
        self.command('Page.bringToFront')

    def evaluate(self, text: str) -> Any:
        """The value of an expression in the page."""
        made = self.command('Runtime.evaluate', expression=text, awaitPromise=True, returnByValue=True)
        if 'exceptionDetails' in made:
            raise RuntimeError(made['exceptionDetails'].get('exception', {}).get('description') or made['exceptionDetails']['text'])
        return made['result'].get('value')

    def until(self, text: str, seconds: float = SECONDS) -> None:
        """Waits until an expression holds."""
        end = time.monotonic() + seconds
        while not self.evaluate(f'Boolean({text})'):
            assert time.monotonic() < end, f'not so after {seconds} seconds: {text}'
            time.sleep(0.02)

    def text(self, selector: str) -> str:
        return str(self.evaluate(f'document.querySelector({json.dumps(selector)}).textContent'))

    def place(self, selector: str) -> Tuple[float, float]:
        """The middle of an element."""
        box = self.evaluate(f'(() => {{ const it = document.querySelector({json.dumps(selector)}); it.scrollIntoView({{block: "nearest"}}); '
                            'const b = it.getBoundingClientRect(); return [b.x + b.width / 2, b.y + b.height / 2]; })()')
        return box[0], box[1]

    def mouse(self, kind: str, x: float, y: float, pressed: bool = False) -> None:
        button = 'left' if pressed or kind != 'mouseMoved' else 'none'
        self.command('Input.dispatchMouseEvent', type=kind, x=x, y=y, button=button, buttons=int(pressed), clickCount=int(kind != 'mouseMoved'))

    def click(self, x: float, y: float) -> None:
        self.mouse('mouseMoved', x, y)
        self.mouse('mousePressed', x, y, True)
        self.mouse('mouseReleased', x, y)

    def press(self, selector: str) -> None:
        """Clicks an element."""
        self.click(*self.place(selector))

    def drag(self, points: List[Tuple[float, float]], each: Callable[[], None] = lambda: None) -> None:
        self.mouse('mouseMoved', *points[0])
        self.mouse('mousePressed', *points[0], True)
        for point in points[1:]:
            self.mouse('mouseMoved', *point, True)
            each()
        self.mouse('mouseReleased', *points[-1])

    def key(self, name: str, modifiers: int = 0) -> None:
        """Presses a key. Modifiers: 2 is Ctrl, 8 is Shift."""
        code = KEYS.get(name) or ord(name.upper())
        shown = {'text': '\r'} if name == 'Enter' else {}
        for kind in ('keyDown', 'keyUp'):
            self.command('Input.dispatchKeyEvent', type=kind, key=name, code=name, windowsVirtualKeyCode=code, modifiers=modifiers,
                         **(shown if kind == 'keyDown' else {}))

    def type(self, text: str) -> None:
        """Types into what has the focus."""
        self.command('Input.insertText', text=text)

    def choose(self, selector: str, file: Path) -> None:
        """Chooses a file, as in a dialog."""
        root = self.command('DOM.getDocument')['root']['nodeId']
        node = self.command('DOM.querySelector', nodeId=root, selector=selector)['nodeId']
        self.command('DOM.setFileInputFiles', nodeId=node, files=[str(file)])

    def pick(self, selector: str, value: str) -> None:
        """Takes an entry of a list."""
        self.evaluate(f'(() => {{ const it = document.querySelector({json.dumps(selector)}); it.value = {json.dumps(value)}; '
                      "it.dispatchEvent(new Event('change')); })()")

    def screenshot(self, file: Path, whole: bool = False) -> None:
        made = self.command('Page.captureScreenshot', format='png', captureBeyondViewport=whole)
        file.write_bytes(base64.b64decode(made['data']))

    def colour(self, x: float, y: float) -> Tuple[int, ...]:
        """The colour of one pixel of the screen."""
        clip = {'x': round(x), 'y': round(y), 'width': 1, 'height': 1, 'scale': 1}
        data = base64.b64decode(self.command('Page.captureScreenshot', format='png', clip=clip)['data'])
        packed, at = b'', 8
        while at < len(data):
            length = int.from_bytes(data[at:at + 4], 'big')
            if data[at + 4:at + 8] == b'IDAT':
                packed += data[at + 8:at + 8 + length]
            at += 12 + length
        return tuple(zlib.decompress(packed)[1:4])

    def faults(self) -> List[str]:
        """What the page's console was told."""
        found = []
        for event in self.browser.events:
            if event.get('sessionId') != self.session:
                continue
            if event['method'] == 'Runtime.exceptionThrown':
                details = event['params']['exceptionDetails']
                found.append(details.get('exception', {}).get('description') or details['text'])
            elif event['method'] == 'Log.entryAdded' and event['params']['entry']['level'] == 'error':
                found.append(event['params']['entry']['text'])
        return found

    def close(self) -> None:
        self.browser.command('Target.closeTarget', targetId=self.target)
