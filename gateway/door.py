"""The door to which clients that sync and browsers come: how many may be there at once, and what becomes of each."""
import collections
import socket
import ssl
import threading
import time
from typing import Callable

import web
from saying import say

# how many connections may be there whose request isn't read yet, and how many in all
SILENT, ALL = 256, 384
# how long one has to say what it wants: seconds
HEAD_SECONDS = 15
SYNCS, PAGES = 16, 48
HANDSHAKE = 0x16
NO_TLS = 'This address speaks TLS alone: type https:// in front of it.\n'


class Visitor:
    """A connection, and where it comes from."""

    def __init__(self, connection: socket.socket, address: str):
        self.connection, self.address = connection, address

    def break_off(self) -> None:
        """Has each call on the connection end."""
        try:
            self.connection.shutdown(socket.SHUT_RDWR)
        except OSError:
            pass


class Silent:
    """The visitors who haven't said yet all that they want, with the body of their request. Where there are too many, the one that is longest there
    goes."""

    def __init__(self, limit: int):
        self.limit, self.turn = limit, threading.Lock()
        self.there: collections.OrderedDict[int, Visitor] = collections.OrderedDict()

    def enter(self, visitor: Visitor) -> None:
        """Takes one in."""
        with self.turn:
            gone = self.there.popitem(last=False)[1] if len(self.there) >= self.limit else None
            self.there[id(visitor)] = visitor
        if gone:
            gone.break_off()

    def leave(self, visitor: Visitor) -> None:
        """Lets one go, who has said it or is gone."""
        with self.turn:
            self.there.pop(id(visitor), None)


class Door:
    """A place that listens. `context` gives what TLS needs, or None; `answer` answers a request by its visitor's link, its head, and the bytes that
    came behind that."""

    def __init__(self, door: socket.socket, context: Callable[[], ssl.SSLContext | None], answer: Callable[[Visitor, web.Link, bytes, bytes], None]):
        self.door, self.context, self.answer = door, context, answer
        self.silent, self.room = Silent(SILENT), threading.BoundedSemaphore(ALL)

    def open(self) -> None:
        """Begins to take connections."""
        threading.Thread(target=self.take_all, daemon=True).start()

    def take_all(self) -> None:
        """Takes connections for good."""
        while self.door.fileno() >= 0:
            self.room.acquire()
            try:
                connection, address = self.door.accept()
                threading.Thread(target=self.serve, args=(Visitor(connection, address[0]),), daemon=True).start()
            except (OSError, RuntimeError, MemoryError) as fault:
                self.room.release()
                if self.door.fileno() >= 0:
                    say(f'no connection: {fault!r}')
                    time.sleep(0.1)

    def serve(self, visitor: Visitor) -> None:
        """Serves a connection in a thread of its own, whatever comes."""
        try:
            self.hear(visitor)
        except web.Broken as fault:
            say(f'{visitor.address}: broke off: {fault}')
        except Exception as fault:
            say(f'{visitor.address}: {fault!r}')
        finally:
            self.silent.leave(visitor)
            visitor.connection.close()
            self.room.release()

    def hear(self, visitor: Visitor) -> None:
        """Reads what a visitor wants, and has it answered."""
        self.silent.enter(visitor)
        link = self.linked(visitor)
        if link is None:
            return
        try:
            head, first = web.head_of(link)
        except web.Fault as fault:
            link.send(web.status_alone(fault.status))
            return
        except web.Broken:
            # (who never said what it wants isn't worth a line)
            return
        link.on_heard = lambda: self.silent.leave(visitor)
        link.again()
        self.answer(visitor, link, head, first)

    def linked(self, visitor: Visitor) -> web.Link | None:
        """The link of a visitor, through TLS where that is spoken here; None where one comes without it or ends."""
        context, end = self.context(), time.monotonic() + HEAD_SECONDS
        if context:
            visitor.connection.settimeout(HEAD_SECONDS)
            try:
                first = visitor.connection.recv(1, socket.MSG_PEEK)
                if first[:1].isalpha():
                    visitor.connection.sendall(web.page(400, NO_TLS))
                if not first or first[0] != HANDSHAKE:
                    return None
                visitor.connection = context.wrap_socket(visitor.connection, server_side=True, do_handshake_on_connect=False)
                visitor.connection.do_handshake()
            except OSError as fault:
                raise web.Broken(f'no TLS: {fault}') from None
        link = web.Link(visitor.connection)
        link.end = end
        return link
