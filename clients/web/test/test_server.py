"""The server behind the page: what it refuses, what it answers, and what it frees. Nothing here wants a browser; what wants the library or
the program is skipped where neither is built."""
from __future__ import annotations

import json
import os
import re
import signal
import socket
import subprocess
import sys
import threading
import time
import unittest
from http.client import HTTPConnection
from pathlib import Path
from tempfile import TemporaryDirectory
from typing import Any, Dict, List, Optional, Tuple

from places import EXAMPLES, TOP, WEB

from geo_exact import GeoMemoryError, TooLong
from geo_exact.backends import BYTES
from geo_exact.explorer import opening, server, sessions
from geo_exact.fault import Fault

TOKEN = 'token-of-the-tests-1'
SQUARE = 'polygon,0,0,4,0,4,4,0,4\n'


class Echo:
    """A dialog that answers with what it was asked, on one thread alone."""

    def __init__(self) -> None:
        self.thread = threading.current_thread()
        self.asked = b''

    def answer(self, script: bytes) -> bytes:
        assert threading.current_thread() is self.thread
        if script.startswith(b'slow'):
            time.sleep(0.4)
        raised = {b'fault': ValueError('a bug'), b'memory': GeoMemoryError(), b'length': TooLong(), b'program': Fault('a failure')}
        if script in raised:
            raise raised[script]
        self.asked += script
        return self.asked

    def close(self) -> None:
        closed.append(self.thread.name)


class Echoes:
    """An engine whose dialogs are echoes, and which answers each script with one text."""

    name, text = 'an echo', b'polygon,4\n'

    def opened(self) -> Any:
        return Echo()

    def answer_script(self, script: bytes) -> bytes:
        return self.text


closed: List[str] = []


class Served(unittest.TestCase):
    """A server that echoes."""

    def setUp(self) -> None:
        self.server = server.Server(0, TOKEN, Echoes())
        thread = server.serve_aside(self.server)
        self.addCleanup(self.server.server_close)
        self.addCleanup(thread.join)
        self.addCleanup(self.server.shutdown)
        self.port = self.server.server_address[1]

    def ask(self, path: str, body: str = '', method: str = 'POST', headers: Optional[Dict[str, str]] = None) -> Tuple[int, str, Dict[str, str]]:
        connection = HTTPConnection('127.0.0.1', self.port, timeout=20)
        connection.request(method, f'/{TOKEN}/{path}', body.encode() if method == 'POST' else None, headers or {})
        reply = connection.getresponse()
        found = reply.status, reply.read().decode(), dict(reply.getheaders())
        connection.close()
        return found

    def raw(self, request: bytes) -> bytes:
        """All that the server says to some bytes, until it closes the connection."""
        with socket.create_connection(('127.0.0.1', self.port), 20) as line:
            line.sendall(request)
            said = b''
            while block := line.recv(65536):
                said += block
            return said


def request(first: str, *headers: str, body: str = '') -> str:
    """A request, without the host that each has."""
    return '\r\n'.join([first, *headers, '', body])


HOST = 'Host: 127.0.0.1:PORT'
PAGE = f'GET /{TOKEN}/ HTTP/1.1'
ASK = f'POST /{TOKEN}/begin/session-1 HTTP/1.1'

# A name, the request, the status, and the name of the refusal. PORT stands for the port of the server.
HOSTILE: List[Tuple[str, str, int, str]] = [
    ('no host', request(PAGE), 403, 'host'),
    ('two hosts', request(PAGE, HOST, HOST), 403, 'host'),
    ('a foreign host', request(PAGE, 'Host: example.org'), 403, 'host'),
    ('a foreign host with the port', request(PAGE, 'Host: example.org:PORT'), 403, 'host'),
    ('a host that begins like this one', request(PAGE, 'Host: 127.0.0.1:PORT.example.org'), 403, 'host'),
    ('this machine at another port', request(PAGE, 'Host: 127.0.0.1:1'), 403, 'host'),
    ('this machine without a port', request(PAGE, 'Host: 127.0.0.1'), 403, 'host'),
    ('this machine by another number', request(PAGE, 'Host: 127.0.0.2:PORT'), 403, 'host'),
    ('a foreign origin', request(ASK, HOST, 'Origin: http://example.org', 'Content-Length: 0'), 403, 'origin'),
    ('an origin that is hidden', request(ASK, HOST, 'Origin: null', 'Content-Length: 0'), 403, 'origin'),
    ('this machine as an origin at another port', request(ASK, HOST, 'Origin: http://127.0.0.1:1', 'Content-Length: 0'), 403, 'origin'),
    ('this machine as an origin of https', request(ASK, HOST, 'Origin: https://127.0.0.1:PORT', 'Content-Length: 0'), 403, 'origin'),
    ('one origin of this page and a foreign one', request(ASK, HOST, 'Origin: http://127.0.0.1:PORT', 'Origin: http://example.org'), 403, 'origin'),
    ('a script tag of another site', request(f'GET /{TOKEN}/main.js HTTP/1.1', HOST, 'Sec-Fetch-Site: cross-site', 'Sec-Fetch-Mode: no-cors'), 403,
     'origin'),
    ('a request of another port of this machine', request(f'GET /{TOKEN}/start HTTP/1.1', HOST, 'Sec-Fetch-Site: same-site'), 403, 'origin'),
    ('no token', request('GET / HTTP/1.1', HOST), 403, 'token'),
    ('a file without a token', request('GET /index.html HTTP/1.1', HOST), 403, 'token'),
    ('a wrong token', request('GET /token-of-the-tests-2/ HTTP/1.1', HOST), 403, 'token'),
    ('half of the token', request(f'GET /{TOKEN[:8]}/ HTTP/1.1', HOST), 403, 'token'),
    ('the token and more', request(f'GET /{TOKEN}x/ HTTP/1.1', HOST), 403, 'token'),
    ('the token in another place', request(f'GET /x/{TOKEN}/ HTTP/1.1', HOST), 403, 'token'),
    ('the token as a question', request(f'GET /?{TOKEN}/ HTTP/1.1', HOST), 403, 'token'),
    ('a token that is no ASCII', request('GET /\u00e9\u00ff/ HTTP/1.1', HOST), 403, 'token'),
    ('another machine as the target', request('GET http://example.org/ HTTP/1.1', HOST), 403, 'token'),
    ('a token without its slash', request(f'GET /{TOKEN} HTTP/1.1', HOST), 404, 'path'),
    ('a path above the page', request(f'GET /{TOKEN}/../../README.md HTTP/1.1', HOST), 404, 'path'),
    ('the same in other signs', request(f'GET /{TOKEN}/%2e%2e/%2e%2e/README.md HTTP/1.1', HOST), 404, 'path'),
    ('the same backwards', request(f'GET /{TOKEN}/..\\..\\README.md HTTP/1.1', HOST), 404, 'path'),
    ('a path of the system', request(f'GET /{TOKEN}//etc/passwd HTTP/1.1', HOST), 404, 'path'),
    ('a file that the folder lacks', request(f'GET /{TOKEN}/README.md HTTP/1.1', HOST), 404, 'path'),
    ('a test', request(f'GET /{TOKEN}/test/test_server.py HTTP/1.1', HOST), 404, 'path'),
    ('an example above the examples', request(f'GET /{TOKEN}/examples/../README.md HTTP/1.1', HOST), 404, 'path'),
    ('an example that is an answer', request(f'GET /{TOKEN}/examples/l-shape.stdout HTTP/1.1', HOST), 404, 'path'),
    ('a file name with an end of text', request(f'GET /{TOKEN}/main.js%00.html HTTP/1.1', HOST), 404, 'path'),
    ('a question to a page', request(f'POST /{TOKEN}/ HTTP/1.1', HOST, 'Content-Length: 0'), 404, 'path'),
    ('another method', request(f'PUT /{TOKEN}/begin/session-1 HTTP/1.1', HOST, 'Content-Length: 0'), 405, 'method'),
    ('HEAD', request(f'HEAD /{TOKEN}/ HTTP/1.1', HOST), 405, 'method'),
    ('DELETE', request(f'DELETE /{TOKEN}/ HTTP/1.1', HOST), 405, 'method'),
    ('OPTIONS of a page that would ask', request(f'OPTIONS /{TOKEN}/ HTTP/1.1', HOST), 405, 'method'),
    ('CONNECT', request('CONNECT example.org:443 HTTP/1.1', HOST), 403, 'token'),
    ('a method that is none', request(f'__init__ /{TOKEN}/ HTTP/1.1', HOST), 405, 'method'),
    ('a body without its length', request(ASK, HOST), 411, 'length'),
    ('a body that is too long', request(ASK, HOST, f'Content-Length: {BYTES + 1}'), 413, 'length'),
    ('a body without end', request(ASK, HOST, 'Content-Length: 99999999999999999999'), 413, 'length'),
    ('a length of a thousand digits', request(ASK, HOST, f'Content-Length: {"9" * 1000}'), 400, 'length'),
    ('a length below nothing', request(ASK, HOST, 'Content-Length: -1'), 400, 'length'),
    ('a length with a sign', request(ASK, HOST, 'Content-Length: +1'), 400, 'length'),
    ('a length in words', request(ASK, HOST, 'Content-Length: ten'), 400, 'length'),
    ('two lengths', request(ASK, HOST, 'Content-Length: 1', 'Content-Length: 2', body='xx'), 400, 'length'),
    ('a body in chunks', request(ASK, HOST, 'Transfer-Encoding: chunked', body='0\r\n\r\n'), 501, 'encoding'),
    ('chunks and a length', request(ASK, HOST, 'Content-Length: 5', 'Transfer-Encoding: chunked', body='0\r\n\r\n'), 501, 'encoding'),
    ('a session with a short name', request(f'POST /{TOKEN}/begin/x HTTP/1.1', HOST, 'Content-Length: 0'), 400, 'session'),
    ('a session with a path for a name', request(f'POST /{TOKEN}/begin/../../x HTTP/1.1', HOST, 'Content-Length: 0'), 400, 'session'),
    ('a frame that is none', request(f'POST /{TOKEN}/geojson HTTP/1.1', HOST, 'Content-Length: 2', body='{}'), 400, 'body'),
    ('brackets without end', request(f'POST /{TOKEN}/geojson HTTP/1.1', HOST, 'Content-Length: 99999', body='[' * 99999), 400, 'body'),
    ('no request at all', 'hello\r\n\r\n', 400, 'request'),
    ('a request of the first kind', f'GET /{TOKEN}/\r\n\r\n', 400, 'request'),
    ('another protocol', request(f'GET /{TOKEN}/ SMTP', HOST), 400, 'request'),
    ('a later protocol', request(f'GET /{TOKEN}/ HTTP/9.9', HOST), 505, 'request'),
    ('a thousand headers', request(PAGE, HOST, *['X: y'] * 1000), 431, 'request'),
    ('a header without end', request(PAGE, HOST, 'X: ' + 'y' * 100_000), 431, 'request'),
    ('an address without end', request(f'GET /{TOKEN}/{"x" * 100_000} HTTP/1.1', HOST), 414, 'path'),
]


class Hostile(Served):
    def test_each_is_refused_by_status_and_name(self) -> None:
        for name, asked, status, word in HOSTILE:
            said = self.raw(asked.replace('PORT', str(self.port)).encode('latin-1'))
            front, _, body = said.partition(b'\r\n\r\n')
            self.assertTrue(front.startswith(f'HTTP/1.1 {status} '.encode()), (name, front[:80]))
            self.assertIn(f'X-Refused: {word}'.encode(), front, name)
            self.assertTrue(body.startswith(f'{word}: '.encode()) or 'HEAD' in asked, (name, body[:80]))
            self.assertIn(b'Content-Security-Policy: default-src', front, name)
        self.assertEqual(len(self.server.sessions), 0)

    def test_a_body_that_is_cut_off(self) -> None:
        asked = request(ASK, f'Host: 127.0.0.1:{self.port}', 'Content-Length: 10', body='abc')
        with socket.create_connection(('127.0.0.1', self.port), 20) as line:
            line.sendall(asked.encode())
            line.shutdown(socket.SHUT_WR)
            self.assertIn(b'X-Refused: length', line.recv(65536))

    def test_it_is_bound_to_this_machine_alone(self) -> None:
        self.assertEqual(self.server.server_address[0], '127.0.0.1')

    def test_localhost_may_ask(self) -> None:
        headers = {'Host': f'localhost:{self.port}', 'Origin': f'http://localhost:{self.port}', 'Sec-Fetch-Site': 'same-origin'}
        self.assertEqual(self.ask('begin/session-1', 'x', headers=headers)[:2], (200, 'x'))

    def test_tokens_are_new_and_long(self) -> None:
        tokens = set()
        for _ in range(2):
            made = server.Server(0, '', Echoes())
            tokens.add(made.token)
            made.server_close()
        self.assertEqual((len(tokens), min(map(len, tokens)) >= 20), (2, True))


class Sessions(Served):
    def test_pieces_are_one_script_and_tabs_are_apart(self) -> None:
        self.assertEqual(self.ask('more/session-1', 'x')[0], 410)
        self.assertEqual(self.ask('begin/session-1', 'a')[1], 'a')
        self.assertEqual(self.ask('begin/session-2', 'b')[1], 'b')
        self.assertEqual(self.ask('more/session-1', 'c')[1], 'ac')
        self.assertEqual(self.ask('more/session-2', 'd')[1], 'bd')
        self.assertEqual(self.ask('begin/session-1', 'e')[1], 'e')
        self.assertEqual(json.loads(self.ask('sessions', method='GET')[1]), {'sessions': 2})

    def test_a_closed_tab_is_freed(self) -> None:
        self.ask('begin/session-1', 'a')
        before = len(closed)
        self.ask('leave/session-1')
        self.wait(lambda: len(closed) == before + 1)
        self.assertEqual(len(self.server.sessions), 0)
        self.assertEqual(json.loads(self.ask('here/session-1')[1]), {'session': False})
        self.assertEqual(self.ask('more/session-1', 'x')[0], 410)

    def test_a_silent_tab_is_freed_and_one_that_speaks_is_not(self) -> None:
        for name in 'session-1', 'session-2':
            self.ask(f'begin/{name}', 'a')
        time.sleep(0.3)
        self.assertEqual(json.loads(self.ask('here/session-2')[1]), {'session': True})
        self.server.sessions.free_silent(0.25)
        self.assertEqual([self.ask(f'more/session-{k}', 'b')[0] for k in (1, 2)], [410, 200])

    def test_there_are_not_too_many(self) -> None:
        for k in range(sessions.MOST + 3):
            self.ask(f'begin/session-{k}', 'a')
        self.assertEqual(len(self.server.sessions), sessions.MOST)
        self.assertEqual([self.ask(f'more/session-{k}', 'b')[0] for k in (0, 2, 3)], [410, 410, 200])

    def test_questions_never_pile_up(self) -> None:
        self.ask('begin/session-1', 'a')
        found: List[int] = []
        threads = [threading.Thread(target=lambda k=k: found.append(self.ask('more/session-1', f'slow{k}')[0])) for k in range(12)]
        start = time.monotonic()
        for thread in threads:
            thread.start()
            time.sleep(0.01)
        for thread in threads:
            thread.join()
        self.assertLess(time.monotonic() - start, 2)
        self.assertEqual((found.count(200), found.count(429)), (2, 10))

    def test_failures_have_their_status_and_the_session_goes_on(self) -> None:
        self.ask('begin/session-1', 'a')
        for word, status in [('memory', 503), ('length', 413), ('program', 502), ('fault', 500)]:
            reply = self.ask('more/session-1', word)
            self.assertEqual((reply[0], reply[2]['X-Refused']), (status, word))
        self.assertEqual(self.ask('more/session-1', 'b')[1], 'ab')

    def test_a_connection_is_kept(self) -> None:
        connection = HTTPConnection('127.0.0.1', self.port, timeout=20)
        for k in range(3):
            connection.request('POST', f'/{TOKEN}/begin/session-1', b'x')
            line = connection.sock
            self.assertEqual(connection.getresponse().read(), b'x')
            self.assertIs(connection.sock, line)
        connection.close()

    def wait(self, holds: Any) -> None:
        end = time.monotonic() + 10
        while not holds():
            self.assertLess(time.monotonic(), end)
            time.sleep(0.01)


class Files(Served):
    def test_the_page_has_its_files_and_no_code_in_line(self) -> None:
        page = self.ask('', method='GET')
        self.assertEqual(page[2]['Content-Type'], 'text/html; charset=utf-8')
        self.assertIn("script-src 'self'", page[2]['Content-Security-Policy'])
        self.assertEqual(re.findall(r'<script(?![^>]*\bsrc=)|\bon[a-z]+=|\bstyle=|https?://', page[1]), [])
        files = re.findall(r'(?:src|href)="([^"]+)"', page[1])
        for file in WEB.glob('*.js'):
            files += [name for name in re.findall(r"from '\./([^']+)'", file.read_text())]
        for name in set(files):
            self.assertEqual(self.ask(name, method='GET')[0], 200, name)

    def test_the_page_asks_no_other_machine(self) -> None:
        for file in [*WEB.glob('*.js'), *WEB.glob('*.css'), *WEB.glob('*.html')]:
            addresses = set(re.findall(r'(?:https?:)?//[a-z][a-z0-9.]*\.[a-z]+', file.read_text()))
            self.assertLessEqual(addresses, {'http://www.w3.org'}, file.name)

    def test_start(self) -> None:
        start = json.loads(self.ask('start', method='GET')[1])
        self.assertEqual((start['who'], start['opened']), ('an echo', None))
        self.assertEqual([it for it in start['examples'] if it['name'] == 'l-shape'],
                         [{'name': 'l-shape', 'about': 'a polygon, and a point inside, outside and on an edge'}])

    def test_each_example_opens(self) -> None:
        for it in opening.examples():
            found = json.loads(self.ask(f'examples/{it["name"]}', method='GET')[1])
            self.assertTrue(found['records'], it)


RING = '[[0, 0], [4, 0], [4, 4], [0, 0]]'
HOLE = f'{{"type": "Polygon", "coordinates": [{RING}, {RING}]}}'


class Opening(Served):
    def test_texts(self) -> None:
        for text, records in [
            ('polygon,0,0,4,0,4,4\nsee,1,1\n', [['polygon', '0', '0', '4', '0', '4', '4'], ['see', '1', '1']]),
            (f'{{"type": "Polygon", "coordinates": [{RING}]}}', [['polygon', '0', '0', '4', '0', '4', '4']]),
            ('\ufeffPOLYGON ((0 0, 4 0, 4 4, 0 0))', [['polygon', '0', '0', '4', '0', '4', '4']]),
            ('polygon\nPOINT,1\n', [['polygon'], ['POINT', '1']]),
            ('', []),
            ('"' + 'x' * 200_000, [['x' * 200_000]]),
            ('caf\u00e9,1\n', [['caf\u00e9', '1']]),
        ]:
            status, said, _ = self.ask('open', text)
            self.assertEqual((status, json.loads(said)['records'] if status == 200 else said), (200, records), text)

    def test_a_frame_comes_with_data(self) -> None:
        text = 'POLYGON ((0.5 0, 4 0, 4 4.25))'
        self.assertEqual(json.loads(self.ask('open', text)[1])['frame']['scale'], '100')
        self.assertEqual(json.loads(self.ask('open?version=2', text)[1])['records'][0], ['geo', '2'])
        wide = 'POLYGON ((0 0, 0.123456789 0, 3 4))'
        self.assertEqual(self.ask('open', wide)[0], 422)
        self.assertEqual(self.ask('open?version=1&round=yes', wide)[0], 200)

    def test_what_cannot_be_read_is_said_in_a_line(self) -> None:
        for text in [HOLE, '{"type": "Polygon"}', '{', '[]', '{}', '{"type": 3}', 'POLYGON ((1', 'POLYGON ((a b, c d, e f))', 'POLYGON EMPTY',
                     '[' * 100_000, '{"type": "Polygon", "coordinates": [[[1e999, 0], [1, 1], [2, 0]]]}']:
            status, said, headers = self.ask('open', text)
            self.assertEqual((status, headers.get('X-Refused')), (422, 'data'), (text[:60], said[:200]))
            self.assertNotIn('\n', said.strip())

    def test_geojson(self) -> None:
        body = json.dumps({'script': SQUARE, 'frame': {'origin': ['8', '0'], 'scale': '10'}})
        status, said, _ = self.ask('geojson', body)
        self.assertEqual((status, json.loads(said)['features'][0]['geometry']['coordinates'][0][1]), (200, [8.4, 0]))
        self.assertEqual(self.ask('geojson', body.replace('"10"', '"0"'))[0], 400)
        self.assertEqual(self.ask('geojson', body.replace('polygon,', 'polygon,0,0\\npolygon,'))[0], 422)


# A program that answers each record with its own word, and a polygon as one that is simple.
STUB = """#!/usr/bin/awk -f
BEGIN { FS = ","; OFS = "," }
$1 == "geo" { print "geo,2"; next }
$1 == "polygon" { if (NF < 7) print "bad,few"; else print "polygon", (NF - 1) / 2; next }
$1 == "tree" { print "tree,1"; print "from,0,s"; next }
$1 == "kernel" || $1 == "see" { print $1, "0"; next }
{ print $1 }
"""


def heed_ctrl_c() -> None:
    """A shell has what it runs in the background ignore Ctrl-C, and a child takes that over."""
    signal.signal(signal.SIGINT, signal.SIG_DFL)


class Programs(unittest.TestCase):
    def setUp(self) -> None:
        folder = TemporaryDirectory()
        self.addCleanup(folder.cleanup)
        self.program = Path(folder.name) / 'program'
        self.program.write_text(STUB)
        self.program.chmod(0o755)

    def test_ctrl_c_ends_it_cleanly(self) -> None:
        words = [sys.executable, str(TOP / 'tools/explore'), '--no-browser', '--program', str(self.program)]
        with subprocess.Popen(words, stdout=subprocess.PIPE, stderr=subprocess.PIPE, text=True, preexec_fn=heed_ctrl_c) as made:
            assert made.stdout
            address = made.stdout.readline().strip()
            found = re.fullmatch(r'http://127\.0\.0\.1:(\d+)(/[\w-]{20,}/)', address)
            assert found, address
            connection = HTTPConnection('127.0.0.1', int(found[1]), timeout=20)
            connection.request('POST', f'{found[2]}begin/session-1', SQUARE.encode())
            self.assertEqual(connection.getresponse().read(), b'polygon,4\n')
            made.send_signal(signal.SIGINT)
            said, fault = made.communicate(timeout=20)
            connection.close()
        self.assertEqual((made.returncode, fault, said.splitlines()[-1]), (0, '', 'Ended.'))

    def test_words_that_are_refused(self) -> None:
        for words, text in [
            (['--port', '70000'], '--port: a port is a number'), (['--token', 'short'], '--token: a token has at least'),
            (['missing'], 'missing: no such file'), ([str(EXAMPLES)], f'{EXAMPLES}: is a directory'),
            (['--program', 'missing'], "'missing' can not be run: no such file"),
        ]:
            given = [sys.executable, str(TOP / 'tools/explore'), '--no-browser', *words]
            named = {**os.environ, 'GEO_PROGRAM': str(self.program)}
            made = subprocess.run(given, capture_output=True, text=True, timeout=60, check=False, env=named)
            self.assertEqual((made.stderr.count('\n'), made.stderr[:9]), (1, 'explore: '), made.stderr)
            self.assertIn(text, made.stderr)
            self.assertNotEqual(made.returncode, 0)


if __name__ == '__main__':
    unittest.main()
