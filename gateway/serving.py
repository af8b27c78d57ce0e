"""Serving Fossil's client: a thread for each connection, in which one request is read, passed to the server, and answered."""
import contextlib
import errno
import re
import socket
import threading
import time

import cards
import users
import web
from saying import say
from users import User

WORK_SECONDS = 60
QUEUE = 128
TOO_LONG = 'refused: too long'
# the server's own answer to who sends files and may not push
NO_PUSH = b'error not\\sauthorized\\sto\\swrite\n'
NO_PAGES = 'This is a gateway for Fossil: clone this address with "fossil clone". There are no web pages here.\n'


def error_card(text: str) -> bytes:
    """The reply that tells the client what is wrong. A login that doesn't hold has Fossil's own text."""
    text = text if text == 'login failed' else f'gateway: {text}'
    return b'error %s\n' % cards.escaped(text.encode())


def refused(kind: str, fault: web.Fault) -> tuple[bytes, str]:
    """The reply to a request that isn't read, and what is said of it in the log. One that is too long is answered in Fossil's own form, by which its
    client tells what is said."""
    if fault.status != 413 or kind == '-':
        return web.status_alone(fault.status), f'status {fault.status}'
    text = (f'the message has more than {cards.MESSAGE:,} bytes: a file in it is too large, since at most {cards.ARTIFACT:,} can be kept here; '
            f'take the check-in back: {cards.TAKE_BACK}; fossil sync')
    return web.reply(kind, error_card(text)), TOO_LONG


class Session:
    """One request of a client, and its reply."""

    def __init__(self, server: tuple[str, int], known: dict[bytes, User], address: str):
        self.server, self.known, self.address = server, known, address
        self.begin = time.monotonic()
        self.message = cards.Message()

    def run(self, connection: socket.socket) -> None:
        """Serves a connection."""
        link = web.Link(connection)
        try:
            head, first = web.head_of(link)
        except web.Fault as fault:
            self.give(link, '-', web.status_alone(fault.status), f'status {fault.status}')
            return
        if web.is_look(head):
            self.give(link, 'GET', web.page(200, NO_PAGES), 'status 200')
        else:
            self.serve(link, head, first)

    def serve(self, link: web.Link, head: bytes, first: bytes) -> None:
        """Answers a request by its head and the bytes that came behind it."""
        kind, note = '-', ''
        try:
            fields = web.fields_of(head)
            self.address = web.sender_of(self.address, fields)
            kind = web.kind_of(fields)
            reply, note = self.answered(link, kind, web.body_of(link, fields, first, self.take))
            reply = web.reply(kind, reply)
        except web.Fault as fault:
            reply, note = refused(kind, fault)
        except web.NoServer as fault:
            reply, note = self.without_server(kind, fault)
        except web.Broken:
            raise
        except MemoryError:
            reply, note = web.status_alone(503), 'status 503: out of memory'
        except Exception as fault:
            reply, note = web.status_alone(500), f'status 500: {fault!r}'
        self.give(link, kind, reply, note)
        if note == TOO_LONG:
            web.drain(link)

    def take(self, count: int) -> None:
        """Is told of so many bytes that the request takes, before they are kept."""

    def place(self, _link: web.Link) -> contextlib.AbstractContextManager[None]:
        """What a request is worked on within, once its body is there."""
        return contextlib.nullcontext()

    def without_server(self, _kind: str, fault: web.NoServer) -> tuple[bytes, str]:
        """The reply to a request that the server can't answer, and what is said of it in the log."""
        return web.status_alone(fault.status), f'status {fault.status}: {fault}'

    def give(self, link: web.Link, kind: str, reply: bytes, note: str) -> None:
        """Sends the reply, and writes the line of the request."""
        self.tell(kind, note)
        link.again()
        link.send(reply)

    def tell(self, kind: str, note: str) -> None:
        """Writes the line of a request."""
        name = f' {cards.shown(self.message.user)}' if self.message.user else ''
        passed_over = cards.DROPPED - ({b'reqconfig'} if self.shunned() is not None else set())
        sort = lambda is_dropped: ' '.join(
            f'{card.decode()}*{count}' for card, count in self.message.counts.items() if (card in passed_over) == is_dropped)
        unasked = f'gimme*{self.message.unasked} of 64 digits' if self.message.unasked else ''
        dropped = ' '.join(words for words in (sort(True), unasked) if words)
        dropped = f'; dropped {dropped}' if dropped else ''
        say(f'{self.address}{name} {kind}: {sort(False)}{dropped}; {note}; {time.monotonic() - self.begin:.3f} s')

    def answered(self, link: web.Link, kind: str, body: bytes) -> tuple[bytes, str]:
        """The reply to a body, and what is said of it in the log."""
        try:
            with self.place(link):
                self.take(web.size_of(kind, body))
                message = web.message_of(kind, body)
                # (a body and its message may have 128 MiB each: nobody else has the body by now)
                del body
                reply = self.passed(message)
        except cards.NoBase as fault:
            return error_card(f'{fault}{self.why_no_base(fault.name)}'), f'refused: {fault}'
        except (cards.Refused, web.BadBody) as fault:
            claimed = f' as {cards.shown(self.message.claimed)}' if str(fault) == 'login failed' else ''
            return error_card(str(fault)), f'refused: {fault}{claimed}'
        return reply, f'{len(reply)} bytes'

    def passed(self, body: bytes) -> bytes:
        """The server's reply to a client's message, as the client reads it."""
        deadline = time.monotonic() + WORK_SECONDS
        reader = cards.Reader(body, self.known, deadline)
        self.message = reader.message
        message = reader.read()
        if message.count and not cards.may(b'i', message, self.known):
            # (before any of it is unpacked)
            return self.notes() + NO_PUSH
        text = cards.translated(message, cards.fetched(message, self.ask, deadline), deadline)
        reply = self.ask(text)
        if message.is_clone and reply.startswith(b'error not\\sauthorized\\sto\\sclone'):
            return self.notes() + self.codes() + reply
        return self.notes() + cards.for_client(message, reply)

    def ask(self, text: bytes | bytearray) -> bytes:
        """The server's reply to a text, under the client's login."""
        return web.asked(self.server, cards.login_for(self.message, text, self.known), text)

    def codes(self) -> bytes:
        """The push card by which a client that may not clone yet learns the project's code, without which it can't sign a login."""
        for name, user in self.known.items():
            if b'g' in user.letters and name != b'nobody':
                text = b'clone 3 1000000000000\n'
                reply = web.asked(self.server, users.login_of(cards.escaped(name), user.secret, text), text)
                found = re.match(rb'push [0-9a-f]{40} [0-9a-f]{40}\n', reply)
                return found[0] if found else b''
        return b''

    def notes(self) -> bytes:
        """What the client is told of what isn't kept here, and where it asks for private artifacts and may not have them."""
        is_refused = self.message.wants_private and not cards.may_have_private(self.message, self.known)
        notes = b''.join(b'message %s\n' % cards.escaped(text) for text in sorted(self.message.notes))
        return notes + self.shuns() + (cards.NO_PRIVATE if is_refused else b'')

    def shunned(self) -> set[str] | None:
        """The names that the repository shuns; None where that isn't known."""
        return None

    def shuns(self) -> bytes:
        """The list of shunned names, for a client that asks for it and may pull: by it a clone knows that these artifacts don't come."""
        if not self.message.wants_shuns or not cards.may(b'o', self.message, self.known):
            return b''
        return b''.join(cards.shun_card(name) for name in sorted(self.shunned() or ())[:cards.SHUNS])

    def why_no_base(self, name: bytes) -> str:
        """Why the base of a delta isn't there, and the way out."""
        is_known = any(cards.may(letter, self.message, self.known) for letter in (b'o', b'i'))
        shunned = self.shunned() if is_known else None
        if shunned is None:
            why = 'it was shunned there, or refused as too large'
        elif name.decode() in shunned:
            why = "it is shunned there, so remove the file in one check-in, and add it in the next"
        else:
            why = 'it was refused as too large, or never came'
        return f': {why}. First take the check-in back: {cards.TAKE_BACK}; fossil sync'


def served(connection: socket.socket, session: Session, room: threading.Semaphore) -> None:
    """Serves a connection in a thread of its own, whatever comes."""
    try:
        with connection:
            session.run(connection)
    except web.Broken as fault:
        say(f'{session.address}: broke off: {fault}')
    except Exception as fault:
        say(f'{session.address}: {fault!r}')
    finally:
        room.release()


def why_not(fault: OSError) -> str:
    """Why nothing can listen at a place, and what to do."""
    reasons = {errno.EADDRINUSE: 'another program listens there; end that one or take another port',
               errno.EADDRNOTAVAIL: 'this machine has no such address',
               errno.EACCES: 'ports below 1024 need root, or CAP_NET_BIND_SERVICE'}
    return reasons.get(fault.errno, fault.strerror or str(fault))


def door_at(listen: tuple[str, int]) -> socket.socket:
    """A door that listens; OSError with a line that says why it can't, where it can't."""
    host, port = listen
    try:
        return socket.create_server(listen, family=socket.AF_INET6 if ':' in host else socket.AF_INET, backlog=QUEUE)
    except OSError as fault:
        raise OSError(f'nothing can listen at {place_text(listen)}: {why_not(fault)}') from None


def place_text(listen: tuple[str, int]) -> str:
    """A host and a port, as they are typed."""
    return f'[{listen[0]}]:{listen[1]}' if ':' in listen[0] else f'{listen[0]}:{listen[1]}'


def serve(listen: tuple[str, int], server: tuple[str, int], known: dict[bytes, User], connections: int) -> None:
    """Serves until it is told to stop. Connections above the number wait."""
    room = threading.BoundedSemaphore(connections)
    with door_at(listen) as door:
        say(f'listens at {listen[0]}:{door.getsockname()[1]} for the server at {server[0]}:{server[1]}')
        while True:
            room.acquire()
            try:
                connection, address = door.accept()
                session = Session(server, known, address[0])
                threading.Thread(target=served, args=(connection, session, room), daemon=True).start()
            except (OSError, RuntimeError, MemoryError) as fault:
                room.release()
                say(f'no connection: {fault!r}')
                time.sleep(0.1)


def place(word: str) -> tuple[str, int]:
    """The host and the port of `PORT` or `HOST:PORT`; ValueError where it is neither. The host of an IPv6 address stands in brackets."""
    host, _, port = word.rpartition(':')
    host = host[1:-1] if host.startswith('[') and host.endswith(']') else host
    if not (port.isascii() and port.isdigit() and int(port) < 65_536):
        raise ValueError(f'{word!r} is no PORT or HOST:PORT')
    return host or '127.0.0.1', int(port)
