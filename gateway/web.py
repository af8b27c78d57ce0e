"""HTTP on both sides: one request and one reply for each connection (docs/FORMATS.md, HTTP)."""
import contextlib
import http.client
import re
import socket
import struct
import time
import zlib
from dataclasses import dataclass
from typing import Callable

from cards import MESSAGE, shown, unpacked

HEAD, FIELDS = 16_384, 64
# how long a request may take in all, and without a byte
SECONDS, SILENCE = 60, 15
PACKED, PLAIN, DEBUG = 'application/x-fossil', 'application/x-fossil-uncompressed', 'application/x-fossil-debug'
CONTROL = re.compile(r'[\x00-\x08\x0a-\x1f\x7f]')
OF_THIS_MACHINE = '127.0.0.1', '::1', '::ffff:127.0.0.1'
PHRASES = {200: 'OK', 400: 'Bad Request', 404: 'Not Found', 405: 'Method Not Allowed', 411: 'Length Required', 413: 'Payload Too Large',
           414: 'URI Too Long', 415: 'Unsupported Media Type', 431: 'Request Header Fields Too Large', 500: 'Internal Server Error',
           501: 'Not Implemented', 502: 'Bad Gateway', 503: 'Service Unavailable'}


class Fault(Exception):
    """A request that is answered by a status alone."""

    def __init__(self, status: int):
        super().__init__(status)
        self.status = status


class Broken(Exception):
    """A connection that ended or was too slow."""


class BadBody(Exception):
    """A body that isn't in the form that its type says."""


class NoServer(Exception):
    """Our server isn't there, or what it answered isn't a reply. Its text says which, and `status` is what the client gets."""

    def __init__(self, why: str, status: int = 502):
        super().__init__(why)
        self.status = status


@dataclass(slots=True)
class Request:
    """A request of a client: its media type and its message, unpacked."""
    kind: str
    body: bytes


class Link:
    """A connection that has so many seconds, and one more for each 2^20 bytes that moved."""

    def __init__(self, connection: socket.socket):
        self.connection, self.end = connection, time.monotonic() + SECONDS
        # what is called once the request is there with its body
        self.on_heard: Callable[[], None] = lambda: None

    def wait(self, longest: float = SECONDS) -> None:
        """Lets the next call on the connection take what time is left, or so many seconds where that is less."""
        left = self.end - time.monotonic()
        if left <= 0:
            raise Broken('too slow')
        self.connection.settimeout(min(left, longest))

    def receive(self, count: int) -> bytes:
        """At least one byte and at most so many."""
        self.wait(SILENCE)
        try:
            data = self.connection.recv(min(count, 1 << 18))
        except OSError as error:
            raise Broken(str(error)) from None
        if not data:
            raise Broken('ended early')
        self.end += len(data) / (1 << 20)
        return data

    def send(self, data: bytes) -> None:
        """Sends all bytes."""
        view = memoryview(data)
        while view:
            self.wait()
            try:
                sent = self.connection.send(view[:1 << 18])
            except OSError as error:
                raise Broken(str(error)) from None
            view = view[sent:]
            self.end += sent / (1 << 20)

    def again(self) -> None:
        """Gives the full time once more, as behind the server's answer."""
        self.end = time.monotonic() + SECONDS


def head_of(link: Link) -> tuple[bytes, bytes]:
    """The bytes up to the empty line, and those that came behind it."""
    data = b''
    while (end := data.find(b'\r\n\r\n')) < 0:
        if len(data) >= HEAD:
            raise Fault(400)
        data += link.receive(HEAD)
    if end > HEAD:
        raise Fault(400)
    return data[:end], data[end + 4:]


def request_of(head: bytes) -> tuple[str, str, dict[str, list[str]]]:
    """The method of a head, its target, and its fields by their names in small letters."""
    lines = head.decode('latin-1').split('\r\n')
    words = lines[0].split(' ')
    # (a line that another reader would take for two, or for other words, is none)
    if '\t' in lines[0] or len(words) != 3 or words[2] not in ('HTTP/1.0', 'HTTP/1.1') or len(lines) - 1 > FIELDS or any(map(CONTROL.search, lines)):
        raise Fault(400)
    return words[0], words[1], fields_in(lines[1:])


def fields_of(head: bytes) -> dict[str, list[str]]:
    """The fields of a POST's head, by their names in small letters."""
    method, _, fields = request_of(head)
    if method != 'POST':
        raise Fault(405)
    return fields


def fields_in(lines: list[str]) -> dict[str, list[str]]:
    """The fields of the lines of a head."""
    fields: dict[str, list[str]] = {}
    for line in lines:
        name, colon, value = line.partition(':')
        if not colon or not name or name.strip() != name:
            raise Fault(400)
        fields.setdefault(name.lower(), []).append(value.strip(' \t'))
    return fields


def is_look(head: bytes) -> bool:
    """Whether the head is that of a browser which looks at the address itself."""
    return re.match(rb'GET /(\?\S*)? HTTP/1\.[01]\r\n', head + b'\r\n') is not None


def client_of(address: str, fields: dict[str, list[str]]) -> str:
    """Who sent a request: the address of the connection, or the one that a proxy on this machine says it came from."""
    forwarded = fields.get('x-forwarded-for', [''])[-1].rpartition(',')[2].strip(' \t')
    return shown(forwarded.encode('latin-1')) if forwarded and address in OF_THIS_MACHINE else address


def sender_of(address: str, fields: dict[str, list[str]]) -> str:
    """Who sent a request, for the log, and the proxy behind the word `by` where one did it for another."""
    client = client_of(address, fields)
    return address if client == address else f'{client} by {address}'


def kind_of(fields: dict[str, list[str]]) -> str:
    """The media type, which is one of three."""
    kind = fields.get('content-type', [''])[0].partition(';')[0].strip(' \t').lower()
    if kind not in (PACKED, PLAIN, DEBUG):
        raise Fault(415)
    return kind


def length_of(fields: dict[str, list[str]]) -> int:
    """The length of the body."""
    lengths = fields.get('content-length', [])
    if 'transfer-encoding' in fields or len(lengths) > 1:
        raise Fault(400)
    if not lengths:
        raise Fault(411)
    if not (lengths[0].isascii() and lengths[0].isdigit() and len(lengths[0]) < 19):
        raise Fault(400)
    if int(lengths[0]) > MESSAGE:
        raise Fault(413)
    return int(lengths[0])


def passed_over(link: Link, length: int, first: bytes) -> None:
    """Reads a body for nothing, so that its sender reads why it isn't taken; the longest ones aren't read to their end."""
    left = min(length, MESSAGE) - len(first)
    while left > 0:
        left -= len(link.receive(left))


def drain(link: Link) -> None:
    """Takes what a client still sends, which wasn't to wait for its end, so that it comes to read its reply."""
    with contextlib.suppress(OSError):
        link.connection.settimeout(2)
        while time.monotonic() < link.end and (data := link.connection.recv(1 << 18)):
            link.end += len(data) / (1 << 20)


def body_of(link: Link, fields: dict[str, list[str]], first: bytes, take: Callable[[int], None] = lambda count: None) -> bytes:
    """The body, of which some bytes came with the head. `take` is told how many bytes come before they are kept."""
    length = length_of(fields)
    if fields.get('expect', [''])[0].lower() == '100-continue':
        link.send(b'HTTP/1.1 100 Continue\r\n\r\n')
    body = bytearray(first[:length])
    while len(body) < length:
        data = link.receive(length - len(body))
        take(len(data))
        body += data
    return bytes(body)


def is_packed(body: bytes) -> bool:
    """Whether a header of zlib stands behind 4 bytes. Fossil's client sends plain bodies under the type of packed ones where it is told not to
    compress; none of its cards has these two bytes there."""
    return body[4:5] == b'x' and int.from_bytes(body[4:6], 'big') % 31 == 0


def size_of(kind: str, body: bytes) -> int:
    """How many bytes the message of a body takes beside it, by what the body says."""
    return min(int.from_bytes(body[:4], 'big'), MESSAGE) if kind == PACKED and is_packed(body) else 0


def message_of(kind: str, body: bytes) -> bytes:
    """The message of a body: as it is, or behind 4 bytes of its length and packed."""
    if kind != PACKED or not is_packed(body):
        return body
    size, = struct.unpack('>I', body[:4])
    if size > MESSAGE:
        raise BadBody(f'the body has {size} bytes when it is unpacked')
    try:
        return unpacked(memoryview(body)[4:], size)
    except ValueError:
        raise BadBody(f"the body doesn't unpack to {size} bytes") from None


def packed(kind: str, message: bytes) -> bytes:
    """The body of a message."""
    return struct.pack('>I', len(message)) + zlib.compress(message, 3) if kind == PACKED else message


def reply(kind: str, message: bytes) -> bytes:
    """The bytes of a reply that brings a message."""
    body = packed(kind, message)
    head = f'HTTP/1.1 200 OK\r\nContent-Type: {kind}\r\nContent-Length: {len(body)}\r\nConnection: close\r\n\r\n'
    return head.encode() + body


def status_alone(status: int) -> bytes:
    """The bytes of a reply that has a status and nothing else."""
    more = {405: 'Allow: POST\r\n', 503: 'Retry-After: 5\r\n'}.get(status, '')
    return f'HTTP/1.1 {status} {PHRASES[status]}\r\n{more}Content-Length: 0\r\nConnection: close\r\n\r\n'.encode()


def page(status: int, text: str, more: str = '') -> bytes:
    """The bytes of a reply that a person reads in a browser."""
    body = text.encode()
    kind = f'Content-Type: text/plain; charset=utf-8\r\nContent-Length: {len(body)}\r\n'
    return f'HTTP/1.1 {status} {PHRASES[status]}\r\n{kind}{more}Connection: close\r\n\r\n'.encode() + body


def length_in(response: http.client.HTTPResponse) -> int:
    """The length that the server announces."""
    length = response.getheader('Content-Length', '')
    if not (length.isascii() and length.isdigit() and len(length) < 19) or int(length) > MESSAGE:
        raise NoServer(f'the server announces {length[:20]!r} bytes')
    return int(length)


def whole(response: http.client.HTTPResponse, length: int, end: float) -> bytes:
    """So many bytes of a reply, before the end of its time."""
    body = bytearray()
    while len(body) < length:
        if time.monotonic() > end:
            raise NoServer('the server is too slow')
        data = response.read1(min(length - len(body), 1 << 18))
        if not data:
            raise NoServer('the reply of the server ended early')
        body += data
        end += len(data) / (1 << 20)
    return bytes(body)


def asked(server: tuple[str, int], *pieces: bytes | bytearray) -> bytes:
    """The reply of our server to a message of these pieces. Raises NoServer where there is none, with its own status where that is 500 or 503."""
    size = sum(map(len, pieces))
    link = http.client.HTTPConnection(*server, timeout=SECONDS + size / (1 << 20))
    try:
        link.request('POST', '/xfer', pieces, {'Content-Type': PLAIN, 'Content-Length': str(size), 'Connection': 'close'})
        response = link.getresponse()
        if response.status != 200:
            raise NoServer(f'the server answers {response.status}', response.status if response.status in (500, 503) else 502)
        return whole(response, length_in(response), time.monotonic() + SECONDS)
    except (OSError, http.client.HTTPException) as error:
        raise NoServer(f'no server at {server[0]}:{server[1]}: {error!r}') from None
    finally:
        link.close()
