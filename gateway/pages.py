"""Handing a browser's request to Fossil's own server over the mirror, and its reply back, as bytes."""
import contextlib
import re
import socket
import sqlite3
import time
from typing import Iterator, NamedTuple
from urllib.parse import unquote

import cards
import web
from children import Child
from door import PAGES
from mirror import Mirror
from places import Bytes, Places, Share
from saying import say

# how long a request waits for Fossil's server, for the edits before it, and for a piece of a reply: seconds
WAIT, TURN, REPLY = 10.0, 20.0, 120.0
PIECE, LONGEST_REPLY = 1 << 16, 1 << 26
AWAY = 'The pages are away for a moment; try again. (Clients that sync are not concerned.)\n'
BUSY = 'Too many pages are asked for at this moment; try again.\n'
# what is between two neighbours alone, and what is put in anew
OWN = {'connection', 'keep-alive', 'transfer-encoding', 'proxy-connection', 'expect', 'te', 'upgrade', 'x-forwarded-for', 'content-length'}
# Fossil's server reads a head by pieces of 1,999 bytes: what stands behind that in a line would be a line of its own
LINE = 1_990
# what a page may be sent: by any other type Fossil may take it for a message of a sync
KINDS = re.compile(r'(application/x-www-form-urlencoded|multipart/form-data|application/json|text/[a-z0-9.+-]+)?\Z')


class Request(NamedTuple):
    """A browser's request, read whole."""
    method: str
    target: str
    fields: dict[str, list[str]]
    body: bytes
    client: str

    def text(self) -> bytes:
        """What goes to Fossil's server."""
        lines = [f'{self.method} {self.target} HTTP/1.1']
        lines += [f'{name}: {value}' for name, values in self.fields.items() if name not in OWN for value in values]
        lines += [f'x-forwarded-for: {self.client}', 'connection: close']
        if self.method == 'POST':
            lines.append(f'content-length: {len(self.body)}')
        return '\r\n'.join(lines).encode('latin-1') + b'\r\n\r\n' + self.body

    def path(self) -> str:
        """The path, as it may stand in a log."""
        return cards.shown(self.target.partition('?')[0].encode('latin-1'))


def request_of(link: web.Link, head: bytes, first: bytes, address: str, share: Share) -> Request:
    """The request of a head, whose body is a share of the memory; raises Fault for one that doesn't go on."""
    method, target, fields = web.request_of(head)
    if method not in ('GET', 'HEAD', 'POST'):
        raise web.Fault(501)
    if not target.startswith('/') or len(fields.get('content-type', [])) > 1:
        raise web.Fault(400)
    kind = fields.get('content-type', [''])[0].partition(';')[0].strip(' \t').lower()
    if is_of_sync(method, target) or not KINDS.match(kind):
        raise web.Fault(415)
    hold_to_lines(method, target, fields)
    body = b''
    if method == 'POST':
        length = web.length_of(fields)
        if length > cards.ARTIFACT:
            raise TooLarge(length)
        body = web.body_of(link, fields, first, share.take)
    return Request(method, target, fields, body, web.client_of(address, fields))


def is_of_sync(method: str, target: str) -> bool:
    """Whether Fossil could take a target for that of a sync: by the first part of its path, or a later one behind those that name a skin."""
    parts = [part for part in unquote(target.partition('?')[0], 'latin-1').split('/') if part]
    return 'xfer' in (parts if method == 'POST' else parts[:1])


def hold_to_lines(method: str, target: str, fields: dict[str, list[str]]) -> None:
    """Raises Fault for a head of which Fossil would take one line for two. The page that a browser comes from is left out where it is that long."""
    if len(f'{method} {target} HTTP/1.1') > LINE:
        raise web.Fault(414)
    if any(len(value) > LINE - len('referer: ') for value in fields.get('referer', [])):
        del fields['referer']
    if any(len(f'{name}: {value}') > LINE for name, values in fields.items() for value in values):
        raise web.Fault(431)


class TooLarge(Exception):
    """A body is larger than what the repository takes, and so would stay on the mirror for good."""

    def __init__(self, length: int):
        super().__init__(length)
        self.length = length


class Pages:
    """Fossil's own server over the mirror, from a browser's side. Requests share the memory. `tells_all` has each one in the log."""

    def __init__(self, child: Child, mirror: Mirror, memory: Bytes, tells_all: bool):
        self.child, self.mirror, self.memory, self.tells_all = child, mirror, memory, tells_all
        self.places = Places(PAGES)

    def answer(self, link: web.Link, head: bytes, first: bytes, address: str) -> None:
        """Answers a request. It has a place once its body is there: who is slow to send one keeps nobody out."""
        begin = time.monotonic()
        try:
            with Share(self.memory) as share:
                request = request_of(link, head, first, address, share)
                with self.places.one(link):
                    status = self.answered(link, request)
        except web.Fault as fault:
            link.again()
            link.send(web.page(503, BUSY, 'Retry-After: 5\r\n') if fault.status == 503 else web.status_alone(fault.status))
            return
        except TooLarge as fault:
            web.passed_over(link, fault.length, first)
            link.again()
            link.send(web.page(413, f"A file of {fault.length:,} bytes can't be kept here: at most {cards.ARTIFACT:,}.\n"))
            say(f'page: {address} POST 413, {fault.length} bytes')
            return
        if self.tells_all or request.method == 'POST' or not status.isdigit() or int(status) >= 500:
            say(f'page: {request.client} {request.method} {request.path()} {status} {time.monotonic() - begin:.3f} s')

    def answered(self, link: web.Link, request: Request) -> str:
        """Has Fossil's server answer, and gives the status for the log."""
        if not self.child.wait_open(WAIT):
            return self.away(link, self.child.why)
        try:
            return self.edited(link, request) if request.method == 'POST' else self.looked(link, request)
        except (OSError, sqlite3.Error) as fault:
            self.child.wake.set()
            return self.away(link, repr(fault))

    @staticmethod
    def away(link: web.Link, why: str, text: str = AWAY) -> str:
        """Says that Fossil's server isn't there, or has no time."""
        link.again()
        link.send(web.page(503, text, 'Retry-After: 2\r\n'))
        return f'503 ({why})'

    def looked(self, link: web.Link, request: Request) -> str:
        """Hands on what changes nothing. Fossil answers 400 to one of two that write at once, and the first looks at a new address write: so such a
        look is tried once more."""
        return self.streamed(link, request, {b'400'}) or self.streamed(link, request, set())

    def streamed(self, link: web.Link, request: Request, unwanted: set[bytes]) -> str:
        """Hands a reply on, piece by piece, and gives its status; nothing of one with an unwanted status."""
        with self.asked(request) as other:
            data = other.recv(PIECE)
            if not data:
                raise ConnectionError('no reply')
            status = data[9:12]
            if status in unwanted:
                return ''
            link.again()
            # (from here on a fault of Fossil's server cuts the reply off)
            with contextlib.suppress(OSError):
                while data:
                    link.send(data)
                    data = other.recv(PIECE)
        return cards.shown(status)

    def edited(self, link: web.Link, request: Request) -> str:
        """Hands an edit on, one at a time and not within a sync: Fossil refuses one of two that write at once. Then the mirror syncs, where
        something was written."""
        reply = bytearray()
        if not self.mirror.turn.acquire(timeout=TURN):
            return self.away(link, f'no turn for {TURN:.0f} s', BUSY)
        try:
            self.mirror.keep_policy()
            with self.mirror.watched(f'page {request.path()}'), self.asked(request) as other:
                while (data := other.recv(PIECE)) and len(reply) < LONGEST_REPLY:
                    reply += data
        finally:
            self.mirror.turn.release()
        if not reply:
            raise ConnectionError('no reply')
        link.again()
        link.send(bytes(reply))
        return cards.shown(bytes(reply[9:12]))

    @contextlib.contextmanager
    def asked(self, request: Request) -> Iterator[socket.socket]:
        """A connection to Fossil's server that has the request."""
        with socket.create_connection(('127.0.0.1', self.child.port), WAIT) as other:
            other.settimeout(REPLY)
            other.sendall(request.text())
            yield other
