"""What holds in the mirror whatever its administrator does there: names of 40 digits, its own login, and the users of the users file."""
import re
import sqlite3
import time

import people
from users import User

SECRET = re.compile('[0-9a-f]{40}')
# names of 40 digits alone
POLICY = 'hash-policy', '0'


def settings(address: str, token: str) -> list[tuple[str, str]]:
    """The settings of a mirror that syncs with the inner door under a token."""
    return [POLICY, ('last-sync-url', f'http://{people.MIRROR}@{address}/'), ('last-sync-pw', token), ('autosync', '0'), ('backoffice-nodelay', '1')]


def set_all(base: sqlite3.Connection, wanted: list[tuple[str, str]], title: str) -> None:
    """Puts the settings in, and a project's name where there is none."""
    now = int(time.time())
    for name, value in wanted:
        base.execute('REPLACE INTO config(name, value, mtime) VALUES (?, ?, ?)', (name, value, now))
    base.execute("INSERT OR IGNORE INTO config(name, value, mtime) VALUES ('project-name', ?, ?)", (title, now))


def wanted_users(known: dict[bytes, User]) -> dict[str, tuple[str, str]]:
    """Each user's secret and letters in the mirror's table. `nobody` is there in any case, since Fossil needs it."""
    wanted = {'nobody': ('', '')}
    for name, user in known.items():
        login = name.decode('utf-8', 'replace')
        if login != people.MIRROR:
            secret = '' if login == 'nobody' else user.secret.decode('latin-1')
            wanted[login] = secret, people.on_pages(user.letters.decode('latin-1'))
    return wanted


class Accounts:
    """The mirror's users, which are those of the users file."""

    def __init__(self):
        # the secrets that were put in last: one that differs by now was changed by its user on the page
        self.last: dict[str, str] = {}

    def changed(self, base: sqlite3.Connection) -> dict[str, str]:
        """The secrets of users who changed their password on the page."""
        rows = base.execute('SELECT login, pw FROM user').fetchall()
        return {login: word for login, word in rows if self.last.get(login, word) != word and SECRET.fullmatch(word or '')}

    def settle(self, base: sqlite3.Connection, known: dict[bytes, User]) -> dict[str, str]:
        """Puts the users of the users file in, but for passwords that were changed on the page: these are what it gives."""
        wanted = wanted_users(known)
        changed = {login: word for login, word in self.changed(base).items() if login in wanted}
        for login, word in changed.items():
            wanted[login] = word, wanted[login][1]
        self.last = {login: word for login, (word, _) in wanted.items() if word}
        self.put(base, wanted)
        return changed

    @staticmethod
    def put(base: sqlite3.Connection, wanted: dict[str, tuple[str, str]]) -> None:
        """Makes the table what is wanted. Who isn't in it any more can't log in, and stays as the sender of what was sent."""
        now = int(time.time())
        have = {login: (word, letters) for login, word, letters in base.execute('SELECT login, pw, cap FROM user')}
        for login in [login for login in have.keys() - wanted.keys() if any(have[login])]:
            base.execute("UPDATE user SET pw='', cap='', cookie=NULL, mtime=? WHERE login=?", (now, login))
        for login, (word, letters) in wanted.items():
            if login not in have:
                base.execute("INSERT INTO user(login, pw, cap, info, mtime) VALUES (?, ?, ?, '', ?)", (login, word, letters, now))
            elif have[login] != (word, letters):
                base.execute('UPDATE user SET pw=?, cap=?, cookie=NULL, mtime=? WHERE login=?', (word, letters, now, login))
