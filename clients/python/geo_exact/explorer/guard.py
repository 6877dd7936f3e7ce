"""Which requests are let in. Each refusal has a status and a name, and nothing of the request is used before it is let in.

Only pages of this server may ask it: the token stands in the address, the host is this machine by its number or as localhost, and
where a browser says which page asks, it is one of this server's."""
from __future__ import annotations

import hmac
from email.message import Message
from typing import Optional

from ..backends import BYTES

METHODS = ('GET', 'POST')


class Refused(Exception):
    """A request that is not let in."""

    def __init__(self, status: int, name: str, text: str):
        super().__init__(text)
        self.status = status
        self.name = name


def check_origin(headers: Message, port: int) -> None:
    """The host is this machine, and the page that asks is of this server."""
    hosts = [f'127.0.0.1:{port}', f'localhost:{port}']
    given = headers.get_all('Host') or []
    if len(given) != 1 or given[0] not in hosts:
        raise Refused(403, 'host', f'this server is asked as {hosts[0]} alone')
    for origin in headers.get_all('Origin') or []:
        if origin != f'http://{given[0]}':
            raise Refused(403, 'origin', 'another page may not ask this server')
    site = headers.get('Sec-Fetch-Site', 'none')
    if site not in ('none', 'same-origin') and headers.get('Sec-Fetch-Mode') != 'navigate':
        raise Refused(403, 'origin', 'another page may not ask this server')


def check_method(method: str) -> None:
    if method not in METHODS:
        raise Refused(405, 'method', f'{" and ".join(METHODS)} are answered')


def path_below(target: str, token: str) -> str:
    """What stands behind the token in the address."""
    front, slash, rest = target.removeprefix('/').partition('/')
    if not target.startswith('/') or not hmac.compare_digest(front.encode(), token.encode()):
        raise Refused(403, 'token', 'the address has to have the token that tools/explore printed')
    if not slash:
        raise Refused(404, 'path', 'there is no such page')
    return rest


def body_length(headers: Message) -> int:
    """How many bytes the body has. It is said beforehand, and no more than a script may have."""
    if headers.get('Transfer-Encoding') is not None:
        raise Refused(501, 'encoding', 'a body comes with its length, and in one piece')
    given: Optional[list[str]] = headers.get_all('Content-Length')
    if not given:
        raise Refused(411, 'length', 'a body comes with its length')
    if len(given) > 1 or not (given[0].isascii() and given[0].isdigit()) or len(given[0]) > 20:
        raise Refused(400, 'length', 'the length of the body is no number')
    if int(given[0]) > BYTES:
        raise Refused(413, 'length', f'a body has at most {BYTES:,} bytes, as a script')
    return int(given[0])
