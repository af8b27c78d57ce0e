"""What comes to the doors of `up`: a message of a sync goes to the program, and all else to the pages."""
import contextlib

import cards
import inner
import serving
import users
import web
from door import SYNCS, Visitor
from places import Bytes, Places, Share
from saying import say

KINDS = 'application/x-fossil'
# Fossil's own answers to who has no login
NO_CLONE, NO_LOGIN = b'error not\\sauthorized\\sto\\sclone\n', b'error login\\sfailed\n'
NO_PAGES = 'This is a Fossil repository: clone this address with "fossil clone". There are no web pages here.\n'


class Sync(serving.Session):
    """A message of a sync. `team` has the program, the users, and who is told of a push; places are for its work, memory for its bytes."""

    def __init__(self, team, address: str, places: Places, memory: Bytes):
        super().__init__(('', 0), team.known, address)
        self.team, self.places, self.share, self.is_stored = team, places, Share(memory), False

    def serve(self, link: web.Link, head: bytes, first: bytes) -> None:
        """Answers a request, and lets go of its bytes behind that."""
        with self.share:
            super().serve(link, head, first)

    def take(self, count: int) -> None:
        """Takes so many bytes of the memory that all requests share."""
        self.share.take(count)

    def place(self, link: web.Link) -> contextlib.AbstractContextManager[None]:
        """A place among those of all syncs. It is had only once the body is there: who is slow to send one keeps nobody out."""
        return self.places.one(link)

    def shunned(self) -> set[str] | None:
        """The names that the repository shuns."""
        return self.team.shunned()

    def without_server(self, kind: str, fault: web.NoServer) -> tuple[bytes, str]:
        """The client reads why the program doesn't answer. A clone gets the project's code all the same, without which it would go on with a login
        that can't hold, and tell of that instead."""
        codes = self.codes() if self.message.is_clone and self.message.user is None else b''
        why = self.team.disk.why(f'{fault}', fault.status == 500)
        text = f'the repository takes nothing now: {why}; what was sent before is kept; try again later'
        return web.reply(kind, codes + serving.error_card(text)), f'no server: {fault} ({why})'

    def ask(self, text: bytes | bytearray) -> bytes:
        """The program's reply, under the secret that the users file has now."""
        if self.message.user is not None and self.message.user not in self.team.known:
            raise cards.Refused('login failed')
        reply = self.team.server.asked([cards.login_for(self.message, text, self.team.known), text])
        self.is_stored = not reply.startswith(b'error ')
        return reply

    def codes(self) -> bytes:
        """The push card with the project's code."""
        return b'push %s %s\n' % (b'0' * 40, self.team.project.encode())

    def give(self, link: web.Link, kind: str, reply: bytes, note: str) -> None:
        """Sends the reply, and tells the mirror of what was pushed."""
        super().give(link, kind, reply, note)
        if self.message.count and self.is_stored and note.endswith(' bytes'):
            self.team.pushed(cards.shown(self.message.user or b'nobody'))


class FromMirror(Sync):
    """A message of the mirror, which logs in with the token of this start. What members made on the pages goes on under their own logins."""

    def __init__(self, team):
        super().__init__(team, 'pages', Places(1), Bytes())
        self.known = inner.known_there(team.project, team.mirror.token)

    def tell(self, kind: str, note: str) -> None:
        """Writes the line of a request that brought something or failed: the mirror comes each minute."""
        if self.message.count or not note.endswith(' bytes'):
            super().tell(kind, note)

    def passed(self, body: bytes) -> bytes:
        """The program's reply. An artifact that can't be taken is noted, so that the mirror takes it out: it would end each sync from now on."""
        try:
            return super().passed(body)
        except cards.Refused as fault:
            if fault.artifact:
                self.team.mirror.refused.add(fault.artifact.decode())
            raise

    def ask(self, text: bytes | bytearray) -> bytes:
        """The program's reply, behind the files of members who may push, which go in front of the others."""
        if self.message.user is None:
            # (by this a clone gets the project's code, and comes again with a login)
            return NO_CLONE if self.message.is_clone else NO_LOGIN
        files = cards.files_of(bytes(text), has_private=False) if self.message.count else {}
        for name, content in files.items():
            if users.sha1(content) != name:
                raise cards.Refused(f'{name.decode()} has another name by SHA-1', name)
        for login, own in inner.by_bringer(files, self.team.mirror.bringers, self.team.known).items():
            reply = self.team.server.asked(inner.message_of(self.message.codes, login, own, self.team.known))
            if b'error ' in reply[:6]:
                # (it goes on with the others, under the mirror's own login)
                say(f'mirror: not under the login of {cards.shown(login)}{cards.said_in(reply)}')
        return super().ask(text)

    def give(self, link: web.Link, kind: str, reply: bytes, note: str) -> None:
        """Sends the reply."""
        serving.Session.give(self, link, kind, reply, note)


class Front:
    """Who answers at the outer door: so many syncs and so many pages at once, others wait."""

    def __init__(self, team):
        self.team, self.syncs = team, Places(SYNCS)

    def answer(self, visitor: Visitor, link: web.Link, head: bytes, first: bytes) -> None:
        """Answers a request."""
        if is_of_sync(head):
            Sync(self.team, visitor.address, self.syncs, self.team.memory).serve(link, head, first)
        elif self.team.pages:
            self.team.pages.answer(link, head, first, visitor.address)
        else:
            link.send(without_pages(head))


def without_pages(head: bytes) -> bytes:
    """The reply to a browser where there are no pages."""
    try:
        web.request_of(head)
    except web.Fault as fault:
        return web.status_alone(fault.status)
    return web.page(200, NO_PAGES) if web.is_look(head) else web.status_alone(404)


def answer_mirror(team, link: web.Link, head: bytes, first: bytes) -> None:
    """Answers a request at the inner door."""
    if is_of_sync(head):
        FromMirror(team).serve(link, head, first)
    else:
        link.send(web.status_alone(404))


def is_of_sync(head: bytes) -> bool:
    """Whether a head is that of a sync: a POST of one of Fossil's own types, of which the mirror gets none."""
    line, *fields = head.decode('latin-1').lower().split('\r\n')
    kinds = (field.partition(':')[2].strip() for field in fields if field.partition(':')[0].strip() == 'content-type')
    return line.startswith('post ') and any(kind.startswith(KINDS) for kind in kinds)
