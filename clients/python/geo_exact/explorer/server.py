"""The server: the files of the page, and the answers to its questions."""
from __future__ import annotations

import json
import re
import secrets
import sys
import threading
from http.server import BaseHTTPRequestHandler, ThreadingHTTPServer
from pathlib import Path
from typing import Any, Callable, Dict, List, Optional, Tuple
from urllib.parse import parse_qs

from ..answers import saved
from ..backends import Engine
from ..commands import geojson
from . import guard, opening
from .guard import Refused
from .sessions import Sessions, failure

PACKAGE = Path(__file__).resolve().parents[1]
FILES = PACKAGE / 'web' if (PACKAGE / 'web').is_dir() else PACKAGE.parents[1] / 'web'  # in a wheel, and in a clone
KINDS = {'.html': 'text/html', '.css': 'text/css', '.js': 'text/javascript', '.svg': 'image/svg+xml'}
NAME = re.compile(r'[A-Za-z0-9-]{8,64}')
NUMBER = re.compile(r'-?\d{1,60}([./]\d{1,60})?')
POLICY = "default-src 'none'; script-src 'self'; style-src 'self'; img-src 'self' data:; connect-src 'self'; " \
    "base-uri 'none'; form-action 'none'; frame-ancestors 'none'"
HEADERS = {
    'Content-Security-Policy': POLICY, 'X-Content-Type-Options': 'nosniff', 'Referrer-Policy': 'no-referrer', 'Cache-Control': 'no-store',
    'Cross-Origin-Resource-Policy': 'same-origin', 'Cross-Origin-Opener-Policy': 'same-origin', 'X-Frame-Options': 'DENY',
}
Reply = Tuple[str, bytes]  # the kind of the body, and the body


class Server(ThreadingHTTPServer):
    """A server for this machine alone."""

    daemon_threads = True
    request_queue_size = 64

    def __init__(self, port: int, token: str, engine: Engine, start: Optional[Dict[str, Any]] = None):
        self.token = token or secrets.token_urlsafe(16)
        self.engine = engine
        self.start = start
        self.sessions = Sessions(engine.opened)
        self.files = {path.name: path for path in FILES.iterdir() if path.suffix in KINDS}
        super().__init__(('127.0.0.1', port), Handler)

    @property
    def address(self) -> str:
        return f'http://127.0.0.1:{self.server_address[1]}/{self.token}/'

    def service_actions(self) -> None:
        """Comes about twice a second."""
        self.sessions.free_silent()

    def handle_error(self, request: Any, client_address: Any) -> None:
        """A page that went away while it was answered is no fault."""
        if not isinstance(sys.exc_info()[1], (ConnectionError, TimeoutError)):
            super().handle_error(request, client_address)


class Handler(BaseHTTPRequestHandler):
    """A connection, which is kept for many requests. One that was refused is closed."""

    server: Server
    protocol_version = 'HTTP/1.1'
    timeout = 300  # seconds of silence on a connection
    wbufsize = -1  # a reply goes out at once
    disable_nagle_algorithm = True

    def handle_one_request(self) -> None:
        """Reads a request and answers it, whatever its method."""
        try:
            self.raw_requestline = self.rfile.readline(65537)
        except (TimeoutError, ConnectionError):
            self.raw_requestline = b''
        if not self.raw_requestline:
            self.close_connection = True
            return
        if len(self.raw_requestline) > 65536:
            self.requestline = self.request_version = self.command = ''
            self.refuse(Refused(414, 'path', 'the address is too long'))
        elif self.parse_request():
            self.answer_request()
        self.wfile.flush()

    def answer_request(self) -> None:
        try:
            if self.request_version == 'HTTP/0.9':
                raise Refused(400, 'request', 'this is no request')
            self.reply(200, *self.found())
        except opening.UNREADABLE as error:
            self.reply(422, 'text/plain', str(error).encode(), {'X-Refused': 'data'})
        except Exception as error:
            self.refuse(error if isinstance(error, Refused) else failure(error))

    def found(self) -> Reply:
        """The reply to a request, or why there is none."""
        guard.check_origin(self.headers, self.server.server_address[1])
        target, _, query = self.path.partition('?')
        path = guard.path_below(target, self.server.token)
        guard.check_method(self.command)
        if self.command == 'GET':
            return self.got(path)
        word, _, name = path.partition('/')
        if word not in POSTED:
            raise Refused(404, 'path', 'there is no such page')
        length = guard.body_length(self.headers)
        body = self.rfile.read(length)
        if len(body) < length:
            raise Refused(400, 'length', 'the body is shorter than was said')
        return POSTED[word](self.server, name, query, body)

    def got(self, path: str) -> Reply:
        """A file of the page, or what it starts with."""
        if path == 'start':
            return as_json({'who': self.server.engine.name, 'opened': self.server.start, 'examples': opening.examples()})
        if path == 'sessions':
            return as_json({'sessions': len(self.server.sessions)})
        file = self.server.files.get(path or 'index.html')
        if path.startswith('examples/'):
            found = opening.example(path[len('examples/'):])
            if found:
                return as_json(found)
        if file is None:
            raise Refused(404, 'path', 'there is no such page')
        return KINDS[file.suffix], file.read_bytes()

    def reply(self, status: int, kind: str, body: bytes, more: Optional[Dict[str, str]] = None) -> None:
        self.send_response_only(status)
        for name, value in {**HEADERS, **(more or {})}.items():
            self.send_header(name, value)
        self.send_header('Content-Type', f'{kind}; charset=utf-8')
        self.send_header('Content-Length', str(len(body)))
        self.end_headers()
        self.wfile.write(body)

    def refuse(self, refused: Any) -> None:
        """A refusal by its status and its name. What was let in keeps its connection; else the body was not read."""
        self.request_version = 'HTTP/1.1'
        more = {'X-Refused': refused.name}
        if isinstance(refused, Refused):
            self.close_connection = True
            more['Connection'] = 'close'
        if refused.status == 405:
            more['Allow'] = ', '.join(guard.METHODS)
        self.reply(refused.status, 'text/plain', f'{refused.name}: {refused}\n'.encode(), more)

    def send_error(self, code: int, message: Optional[str] = None, explain: Optional[str] = None) -> None:
        """What the base class refuses: a request that is none."""
        self.refuse(Refused(int(code), 'request', message or 'this is no request'))

    def log_message(self, *_: Any) -> None:
        """Nothing is said of single requests."""


def open_text(server: Server, name: str, query: str, body: bytes) -> Reply:
    """A text that the page opens, as the records of a script."""
    wanted = parse_qs(query)
    version = 2 if wanted.get('version') == ['2'] else 1
    return as_json(opening.opened('', body, version, wanted.get('round') == ['yes']))


def as_geojson(server: Server, name: str, query: str, body: bytes) -> Reply:
    """The answers to a script as GeoJSON."""
    script, kept = script_and_frame(body)
    try:
        answers = server.engine.answer_script(script)
    except Exception as error:
        raise failure(error) from None
    return 'application/geo+json', geojson.collection(script, answers, kept, backend=server.engine).encode()


def script_and_frame(body: bytes) -> Tuple[bytes, saved.Saved]:
    """Returns the script and the frame in a body of JSON. Only the numbers of the frame are read."""
    try:
        given = json.loads(body)
        numbers: List[Any] = [*given['frame']['origin'], given['frame']['scale']]
        script = given['script'].encode()
    except (ValueError, TypeError, KeyError, AttributeError, RecursionError):
        raise Refused(400, 'body', 'a body has a script and a frame') from None
    if len(numbers) != 3 or not all(isinstance(number, str) and NUMBER.fullmatch(number) for number in numbers):
        raise Refused(400, 'body', 'a frame has three numbers')
    try:
        return script, saved.loads(json.dumps({'origin': numbers[:2], 'scale': numbers[2]}))
    except ValueError:
        raise Refused(400, 'body', 'a scale is above 0') from None


def session_name(name: str) -> str:
    if not NAME.fullmatch(name):
        raise Refused(400, 'session', 'the name of a session has 8 to 64 letters, digits and hyphens')
    return name


def as_json(value: Any) -> Reply:
    return 'application/json', json.dumps(value).encode()


# what is posted, by the first word of its path: with the server, the name of a session, the query and the body
POSTED: Dict[str, Callable[[Server, str, str, bytes], Reply]] = {
    'begin': lambda server, name, query, body: ('text/plain', server.sessions.ask(session_name(name), body, True)),
    'more': lambda server, name, query, body: ('text/plain', server.sessions.ask(session_name(name), body, False)),
    'here': lambda server, name, query, body: as_json({'session': server.sessions.hear(session_name(name))}),
    'leave': lambda server, name, query, body: as_json({'session': server.sessions.end(session_name(name))}),
    'open': open_text, 'geojson': as_geojson,
}


def serve(server: Server) -> None:
    """Answers until Ctrl-C, or until the system ends the program."""
    try:
        server.serve_forever()
    except KeyboardInterrupt:
        pass
    finally:
        server.server_close()
        server.sessions.end_all()


def serve_aside(server: Server) -> threading.Thread:
    """The same on a thread of its own, until `shutdown`."""
    thread = threading.Thread(target=server.serve_forever, kwargs={'poll_interval': 0.05}, daemon=True)
    thread.start()
    return thread
