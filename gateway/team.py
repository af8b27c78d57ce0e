"""All parts of a team's server: the program, the pages over the mirror, the users, and the doors."""
import fcntl
import os
import signal
import ssl
import threading
import time
from typing import NamedTuple

import control
import door
import front
import making
import mirror
import pages
import people
import places
import serving
import shuns
import status
import users
from children import Child, pages_answer, repository_answers
from disk import Disk
from doing import Command, Doing
from owner import Owner
from people import Wrong
from saying import say
from telling import notify

# the connections of each worker of the program, behind which it is started again
CONNECTIONS = 65_536
GIVE_UP = 5
# what OpenSSL says of a certificate and a key
WHY = {'KEY_VALUES_MISMATCH': 'the key belongs to another certificate', 'BAD_DECRYPT': 'the key has a password',
       'NO_START_LINE': 'a text of PEM is missing'}
SIGNS = signal.SIGTERM, signal.SIGINT, signal.SIGHUP


class Options(NamedTuple):
    """What is asked for beside the file and the folder."""
    listen: tuple[str, int] = ('127.0.0.1', 8080)
    has_pages: bool = False
    web_user: str | None = None
    certificate: tuple[str, str] | None = None
    is_https: bool = False
    workers: int = 8


class Ended(Exception):
    """A signal came that ends all."""

    def __init__(self, sign: int):
        super().__init__(sign)
        self.sign = sign


def ended(sign: int, _frame) -> None:
    """Takes the first signal; those behind it change nothing."""
    for other in SIGNS:
        signal.signal(other, lambda *_: None)
    raise Ended(sign)


class Team:
    """All parts. `known` are the users that hold now."""

    def __init__(self, path: str, folder: str, options: Options):
        self.path, self.folder, self.options, self.begin = os.path.abspath(path), os.path.abspath(folder), options, time.monotonic()
        self.project = shuns.project_of(self.path)
        os.umask(0o077)
        making.make_folder(self.folder, self.project)
        self.lock = locked(self.folder)
        # (the program reads the users that hold now, so that a list that somebody is still writing stops nothing)
        self.users_file, self.users_in_force = os.path.join(self.folder, 'users'), os.path.join(self.folder, 'users-in-force')
        self.known, self.context = users.users_of(self.users_file), self.certificate()
        self.disk, self.shuns = Disk(self.path), shuns.Shuns(self.path)
        self.server = Child('server', self.server_words, self.server_answers)
        self.doing = Doing(self.path, self.server.away_for)
        self.memory = places.Bytes()
        self.mirror: mirror.Mirror | None = None
        self.pages: pages.Pages | None = None

    def server_words(self, port: int) -> list[str]:
        """The words of the program that serves."""
        return [making.program(), self.path, 'serve', f'127.0.0.1:{port}', self.users_in_force, str(self.options.workers), str(CONNECTIONS)]

    def server_answers(self, port: int) -> str | None:
        """What is wrong with the program that serves. Whether its disk is full is looked at beside it."""
        self.disk.is_full()
        return repository_answers(port)

    def certificate(self) -> ssl.SSLContext | None:
        """What TLS needs."""
        if not self.options.certificate:
            return None
        context = ssl.SSLContext(ssl.PROTOCOL_TLS_SERVER)
        certificate, key = self.options.certificate
        try:
            context.load_cert_chain(certificate, key, password=lambda: '')
        except ssl.SSLError as fault:
            raise Wrong(f'{certificate} and {key} are no certificate in PEM with its key: {WHY.get(fault.reason, fault)}') from None
        except OSError as fault:
            raise Wrong(f"{certificate} or {key} can't be read: {fault.strerror}") from None
        return context

    # ---- what the doors ask

    def shunned(self) -> set[str] | None:
        """The names that the repository shuns; None where its file can't be read now."""
        try:
            return self.shuns.names()
        except (OSError, shuns.NoRepository):
            return None

    def shun_on_pages(self) -> None:
        """Has the mirror shun what the repository does."""
        names = self.shunned()
        if names is None:
            say(f"the mirror's shunned names stay as they are: those of {self.path} can't be read")
        elif self.mirror:
            self.mirror.shun(names)

    def pushed(self, user: str) -> None:
        """Has the mirror get what a user pushed."""
        if self.mirror:
            self.mirror.note(f'{user} pushed')

    # ---- what the control socket asks

    def told(self, told: control.Told) -> tuple[int, str]:
        """Answers a command of `up` that was typed elsewhere."""
        if told.word == 'status':
            return status.of(self)
        if told.word == 'reload':
            return self.reload()
        return self.do(Command(told)), ''

    def do(self, command: Command) -> int:
        """Does a command of the program on the repository; behind a shun the mirror follows."""
        found = self.doing.do(command)
        if command.words[0] in ('shun', 'unshun'):
            self.shun_on_pages()
        return found

    def reload(self) -> tuple[int, str]:
        """Reads the users and the certificate again. The program is started again for that, and requests wait. Where one is wrong, nothing
        changes."""
        begin = time.monotonic()
        notify('RELOADING=1')
        try:
            known, context = users.users_of(self.users_file), self.certificate()
            people.hold_to_names(known, self.users_file, self.known)
            self.server.away_for(lambda: self.take(known, context))
        except (OSError, Wrong, users.UsersFault) as fault:
            return 1, f'nothing is changed: {fault}'
        finally:
            notify('READY=1')
        if self.mirror:
            self.mirror.settle()
        return 0, f'{len(known)} users hold; requests waited {time.monotonic() - begin:.2f} s'

    def take(self, known: dict[bytes, users.User], context: ssl.SSLContext | None) -> None:
        """Takes users and certificate."""
        people.write(self.users_in_force, users.text_of(known))
        self.known, self.context = known, context
        for line in people.warnings(known, self.options.has_pages):
            say(line)

    def take_passwords(self, changed: dict[str, str]) -> None:
        """Takes passwords that users changed on their page into the users file."""
        def line_with(line: bytes) -> bytes:
            words = users.words_of(line)
            word = changed.get(words[0].decode('utf-8', 'replace')) if len(words) == 3 and words[0] not in kept else None
            return line if word is None else b'%s %s %s' % (words[0], words[1], word.encode())

        names, kept = ', '.join(changed), {name.encode() for name in people.KEPT_NAMES}
        try:
            people.change(self.users_file, lambda lines: list(map(line_with, lines)))
            say(f'{names} changed the password on the page: {self.reload()[1]}')
        except (OSError, Wrong, users.UsersFault) as fault:
            say(f'{names} changed the password on the page, and the old one goes on: {fault}')

    # ---- the run

    def run(self) -> int:
        """Runs all until it is told to end, and gives its status."""
        for sign in SIGNS:
            signal.signal(sign, ended)
        outer = None
        try:
            # (bound before anything is started, opened when all answers)
            outer = serving.door_at(self.options.listen)
            self.take(self.known, self.context)
            self.start_server()
            control.listen(self.folder, self.told)
            if self.options.has_pages:
                self.start_pages()
            door.Door(outer, lambda: self.context, front.Front(self).answer).open()
            self.wait_for_pages()
            self.tell_ready(outer.getsockname()[1])
            while True:
                signal.pause()
        except Ended as fault:
            say(f'told to end by {signal.Signals(fault.sign).name}')
            return 0 if fault.sign == signal.SIGTERM else 128 + fault.sign
        finally:
            notify('STOPPING=1')
            self.stop(outer)

    def start_server(self) -> None:
        """Starts the program, and waits until it answers. Wrong where that is of no use."""
        self.server.begin()
        while not self.server.wait_open(0.05):
            if self.server.is_lasting or self.server.starts >= GIVE_UP:
                raise Wrong(f'{self.path} is not served: {self.server.why}')

    def start_pages(self) -> None:
        """Starts the mirror, and Fossil's own server over it."""
        owner = Owner(self.options.web_user)
        if owner.why:
            say(owner.why)
        os.chmod(self.folder, 0o711 if owner.is_other else 0o700)
        known = os.stat(self.path)
        if owner.is_other and (known.st_mode & 0o077 or known.st_uid == owner.user):
            raise Wrong(f'the pages could read {self.path}: let it belong to the user of up (chown), and be for that one alone (chmod 600)')
        title = os.path.splitext(os.path.basename(self.path))[0]
        self.mirror = mirror.Mirror(os.path.join(self.folder, 'pages'), lambda: self.known, title, owner)
        self.mirror.on_password = lambda changed: threading.Thread(target=self.take_passwords, args=(changed,), daemon=True).start()
        inner = serving.door_at(('127.0.0.1', 0))
        door.Door(inner, lambda: None, lambda _visitor, *request: front.answer_mirror(self, *request)).open()
        self.mirror.make(serving.place_text(inner.getsockname()))
        self.shun_on_pages()
        self.mirror.begin()
        self.mirror.note('start')
        child = Child('pages', lambda port: self.mirror.server_words(port, self.is_https()), pages_answer, owner)
        child.begin()
        self.pages = pages.Pages(child, self.mirror, self.memory, bool(os.environ.get('UP_WORDY')))

    def is_https(self) -> bool:
        """Whether browsers come by https."""
        return self.options.is_https or self.options.certificate is not None

    def wait_for_pages(self) -> None:
        """Waits until the pages answer. Where they don't come, all else goes on without them."""
        end = time.monotonic() + 60
        while self.pages and not self.pages.child.wait_open(0.1):
            if time.monotonic() > end:
                say(f"pages: they don't answer yet: {self.pages.child.why}")
                return

    def tell_ready(self, port: int) -> None:
        """Says that all answers."""
        address = serving.place_text((self.options.listen[0], port))
        with_pages = ', with web pages' if self.pages else ''
        print(f'up: {"https" if self.context else "http"}://{address}/ answers{with_pages} ({time.monotonic() - self.begin:.1f} s)', flush=True)
        notify('READY=1')

    def stop(self, outer) -> None:
        """Ends all parts."""
        if outer:
            outer.close()
        if self.mirror:
            self.mirror.stop()
        if self.pages:
            self.pages.child.stop()
        self.server.stop()


def locked(folder: str):
    """The lock of a folder, which one `up` has at a time."""
    lock = open(os.path.join(folder, 'lock'), 'w')
    try:
        fcntl.flock(lock, fcntl.LOCK_EX | fcntl.LOCK_NB)
    except BlockingIOError:
        raise Wrong(f'another up runs with {folder}; up status {folder} shows how it is') from None
    return lock
