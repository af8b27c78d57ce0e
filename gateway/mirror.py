"""The clone by Fossil that has the pages: it gets what is pushed, and gives what is made on its pages."""
import contextlib
import os
import secrets
import shutil
import sqlite3
import subprocess
import threading
import time
from typing import Callable, Iterator
from urllib.parse import quote

import accounts
import people
from owner import Owner, bound, name_of
from people import Wrong
from saying import say
from users import User

# how often it syncs where nothing happens, and how soon behind a sync that failed: seconds
OFTEN, SOON = 60.0, 5.0
CLONE, COMMAND = 24 * 3600.0, 3600.0
LOCKED = 'database is locked'
# why the mirror shuns what the repository doesn't
NOT_KEPT = "the repository can't have it"
BRINGERS = 'SELECT b.uuid, u.login FROM blob b JOIN rcvfrom r ON r.rcvid = b.rcvid JOIN user u ON u.uid = r.uid WHERE b.rcvid > ? AND u.login <> ?'


def fossil() -> str:
    """The command of Fossil 2, which isn't the wrapper of this repository."""
    path = shutil.which(os.environ.get('FOSSIL_CLIENT', 'fossil'))
    done = path and subprocess.run(bound([path, 'version']), stdin=subprocess.DEVNULL, capture_output=True, timeout=60)
    if not done or not done.stdout.startswith(b'This is fossil version 2'):
        raise Wrong("--web needs Fossil 2: install the package fossil, or let FOSSIL_CLIENT name its command")
    return path


class Mirror:
    """The clone, and the thread that syncs it."""

    def __init__(self, folder: str, known: Callable[[], dict[bytes, User]], title: str, owner: Owner):
        self.folder, self.known, self.title, self.owner = folder, known, title, owner
        self.path, self.fossil, self.accounts = os.path.join(folder, 'mirror.fossil'), fossil(), accounts.Accounts()
        self.address = self.token = self.because = ''
        self.last, self.said, self.syncs = 0.0, 'not synced yet', 0
        # the one that is writing: an edit on a page, or a sync
        self.turn, self.wake, self.is_told = threading.Lock(), threading.Event(), False
        # who brought what on the pages since the last sync that went well; the newest arrival there, and the newest one of that sync
        self.bringers: dict[str, str] = {}
        self.newest = self.synced = 0
        # the names of what the repository refused at the last sync
        self.refused: set[str] = set()
        self.on_password: Callable[[dict[str, str]], None] = lambda changed: None
        self.thread = threading.Thread(target=self.keep, daemon=True)

    # ---- what is done with the clone

    def run(self, *words: str, seconds: float = COMMAND, given: bytes = b'') -> tuple[int, str]:
        """What Fossil says, and its status."""
        space = {**os.environ, 'HOME': self.folder, 'FOSSIL_HOME': self.folder, 'USER': people.MIRROR, 'FOSSIL_USER': people.MIRROR}
        done = subprocess.run(bound([self.fossil, *words], self.owner), input=given, stdout=subprocess.PIPE, stderr=subprocess.STDOUT,
                              timeout=seconds, env=space, cwd='/', start_new_session=True)
        return done.returncode, done.stdout.decode('utf-8', 'replace').replace('\r', '\n')

    @contextlib.contextmanager
    def database(self) -> Iterator[sqlite3.Connection]:
        """The clone's database, under its owner's rights. What is changed is committed where nothing goes wrong."""
        with self.owner.files(), contextlib.closing(self.connected()) as base, base:
            # (what the pages put in as views or triggers runs no function)
            base.execute('PRAGMA trusted_schema=OFF')
            yield base

    def connected(self) -> sqlite3.Connection:
        """A connection to the database, which waits for others that write."""
        return sqlite3.connect(f'file:{quote(self.path)}?mode=rw', uri=True, timeout=20, isolation_level='IMMEDIATE')

    def server_words(self, port: int, is_https: bool) -> list[str]:
        """The words that start Fossil's own server over it."""
        return ['env', f'HOME={self.folder}', f'FOSSIL_HOME={self.folder}', self.fossil, 'server', '--localhost', '--nojail', '-P', str(port),
                '--https' if is_https else '--nossl', self.path]

    def make(self, address: str) -> None:
        """Clones where there is none, and points the clone at the inner door of this start."""
        self.address, self.token = address, f'w-{secrets.token_urlsafe(24)}'
        os.makedirs(self.folder, mode=0o700, exist_ok=True)
        self.owner.take(self.folder)
        try:
            with self.owner.files():
                is_there = os.path.basename(self.path) in os.listdir(self.folder)
        except PermissionError:
            raise Wrong(f"the user {name_of(self.owner.user)} can't reach {self.folder}: it belongs to another one (chown -R), or a folder "
                        'above it lets nobody pass (chmod o+x)') from None
        if is_there:
            # (a newer Fossil may want other tables)
            self.run('rebuild', '--ifneeded', self.path)
        else:
            self.clone()
        try:
            self.settle()
        except sqlite3.Error as fault:
            raise Wrong(f'the mirror {self.path} is broken ({fault}): move it away, and another one is made at the next start') from None

    def clone(self) -> None:
        """Makes the clone. Its words have the token: they come by the input, where nobody sees them among the processes."""
        begin, new = time.monotonic(), self.path + '.new'
        with self.owner.files():
            if os.path.exists(new):
                os.unlink(new)
        address = f'http://{people.MIRROR}:{self.token}@{self.address}/'
        words = '\n'.join(['--no-open', address, new, '-A', people.MIRROR])
        status, said = self.run('clone', '--args', '-', seconds=CLONE, given=words.encode())
        if status:
            raise Wrong(f'no mirror for the pages: {said.strip()[-300:]}')
        with self.owner.files():
            os.chmod(new, 0o600)
            os.rename(new, self.path)
        say(f'mirror: cloned in {time.monotonic() - begin:.2f} s')

    def settle(self) -> None:
        """What holds in it whatever its administrator does."""
        with self.database() as base:
            accounts.set_all(base, accounts.settings(self.address, self.token), self.title)
            changed = self.accounts.settle(base, self.known())
            self.look_at_bringers(base)
        if changed:
            self.on_password(changed)

    def keep_policy(self) -> None:
        """Sets the hash policy back where somebody changed it, before an edit gets a name that the repository can't have."""
        name, value = accounts.POLICY
        with self.database() as base:
            if base.execute('SELECT value FROM config WHERE name = ?', (name,)).fetchall() != [(value,)]:
                base.execute('REPLACE INTO config(name, value, mtime) VALUES (?, ?, ?)', (name, value, int(time.time())))
                say('mirror: its hash policy was changed, and is set back; look for who changed it')

    @contextlib.contextmanager
    def watched(self, because: str) -> Iterator[None]:
        """Within it an edit is made. Behind it the mirror syncs where something was written; who is refused on a page makes no sync."""
        version = lambda base: base.execute('PRAGMA data_version').fetchone()
        is_changed = True
        with self.database() as base:
            before = version(base)
            yield
            # (an edit that was made isn't lost because this can't be found out)
            with contextlib.suppress(sqlite3.Error):
                is_changed = version(base) != before
        if is_changed:
            self.note(because)

    def look_at_bringers(self, base: sqlite3.Connection) -> None:
        """Notes who brought what came since the last sync that went well."""
        self.bringers = dict(base.execute(BRINGERS, (self.synced, people.MIRROR)))
        self.newest, = base.execute('SELECT coalesce(max(rcvid), 0) FROM rcvfrom').fetchone()

    def take_out(self) -> bool:
        """Takes out what the repository can't have, behind which nothing is synced: names of 64 digits, and what was refused. Each goes into a
        folder. Gives whether there was something."""
        folder, refused = os.path.join(self.folder, 'refused'), set(self.refused)
        with self.turn:
            with self.database() as base:
                os.makedirs(folder, mode=0o700, exist_ok=True)
                names = [name for name, in base.execute('SELECT uuid FROM blob WHERE size >= 0') if len(name) == 64 or name in refused]
            for name in names:
                self.run('artifact', '-R', self.path, name, os.path.join(folder, name))
            with self.database() as base:
                rows = [(name, int(time.time()), NOT_KEPT) for name in names]
                base.executemany('REPLACE INTO shun(uuid, mtime, scom) VALUES (?, ?, ?)', rows)
            status, said = self.run('rebuild', self.path) if names else (0, '')
        self.refused -= refused
        if names:
            say(f"mirror: artifacts that the repository can't have were taken out into {folder}: {' '.join(names)}"
                + (f'; the rebuild failed: {said[-200:]}' if status else ''))
        return bool(names)

    def shun(self, names: set[str]) -> None:
        """Shuns what the repository shuns, and nothing else but what it can't have."""
        with self.database() as base:
            have = {name for name, in base.execute('SELECT uuid FROM shun WHERE length(uuid) = 40 AND scom IS NOT ?', (NOT_KEPT,))}
            rows = [(name, int(time.time())) for name in names - have]
            # (what was taken out before stays so)
            base.executemany("INSERT OR IGNORE INTO shun(uuid, mtime, scom) VALUES (?, ?, 'shunned at the server')", rows)
            base.executemany('DELETE FROM shun WHERE uuid = ?', [(name,) for name in have - names])
        if have != names:
            with self.turn:
                status, said = self.run('rebuild', self.path)
            say(f'mirror: {len(names - have)} names shunned, {len(have - names)} back' + (f'; the rebuild failed: {said[-200:]}' if status else ''))

    # ---- the thread that syncs

    def begin(self) -> None:
        """Begins to sync."""
        self.thread.start()

    def note(self, because: str) -> None:
        """Has it sync now."""
        self.because = because
        self.wake.set()

    def keep(self) -> None:
        """Syncs when it is noted, and each minute."""
        while True:
            is_noted = self.wake.wait(OFTEN if self.said == 'in step' else SOON)
            self.wake.clear()
            if self.is_told:
                return
            because, self.because = (self.because if is_noted else 'each minute'), ''
            try:
                self.sync(because)
            except Exception as fault:
                self.said = f'{fault}'
                say(f'mirror: {fault!r}')

    def sync(self, because: str) -> None:
        """Syncs once."""
        with self.turn:
            begin = time.monotonic()
            self.settle()
            status, said = self.synced_with()
        was, self.said = self.said, said_of(status, said)
        if self.said == 'in step':
            self.last, self.syncs, self.synced = time.time(), self.syncs + 1, self.newest
        if self.said != was or because != 'each minute':
            say(f'mirror: {self.said} ({because}, {time.monotonic() - begin:.2f} s)')
        if (self.refused or 'name of 64 digits' in self.said) and self.take_out():
            self.note('again')

    def synced_with(self) -> tuple[int, str]:
        """The status of Fossil's sync and what it says, behind some tries where a page writes at the same moment (as one does that
        begins a session)."""
        for pause in (0.2, 0.5, 1.0):
            status, said = self.run('sync', '-R', self.path)
            if LOCKED not in said:
                break
            time.sleep(pause)
        return status, said

    def stop(self) -> None:
        """Ends the thread."""
        self.is_told = True
        self.wake.set()
        if self.thread.ident is not None:
            self.thread.join(5)


def said_of(status: int, said: str) -> str:
    """What is wrong with a sync by what Fossil says, or `in step`."""
    lines = [line.strip() for line in said.splitlines()]
    wrong = [line for line in lines if 'rror' in line or 'Server says' in line or 'cannot' in line]
    if not status and not wrong:
        return 'in step'
    return ('; '.join(wrong) or f'status {status}: {said.strip()[-200:]}')[-400:]
