"""Taking over the users of a repository of Fossil: its table has the very secrets of the users file where the project is the same."""
import contextlib
import re
import sqlite3
from typing import NamedTuple
from urllib.parse import quote

import people
import users
from people import Wrong

SECRET = re.compile('[0-9a-f]{40}')
NO_SHELL = ' (a in the place of s, which is a shell of this machine; a is enough for an administrator)'


class Row(NamedTuple):
    """A user of Fossil's table, in which anything may stand."""
    name: str
    word: str
    letters: str

    def is_text(self) -> bool:
        """Whether all of it is text, which a file that Fossil made has."""
        return all(isinstance(cell, str) for cell in self)


def rows_of(path: str) -> tuple[str, list[Row]]:
    """The project's code of a repository of Fossil, and its users."""
    try:
        with contextlib.closing(sqlite3.connect(f'file:{quote(path)}?mode=ro', uri=True)) as table:
            code = table.execute("SELECT value FROM config WHERE name='project-code'").fetchone()
            rows = [Row(name, word or '', letters or '') for name, word, letters in table.execute('SELECT login, pw, cap FROM user ORDER BY login')]
    except sqlite3.Error as fault:
        raise Wrong(f'{path} is no repository of Fossil 2: {fault}') from None
    return code[0] if code else '', rows


def letters_of(row: Row, groups: dict[str, str]) -> str:
    """The letters of a user, with those of the groups to which the user belongs: each user has what `anonymous` has, `u` is `reader`, `v` is
    `developer`, and an administrator has all that counts for a sync."""
    letters = row.letters + (groups.get('anonymous', '').replace('h', '') if row.name != 'nobody' else '')
    letters = letters.replace('v', groups.get('developer', '') + 'u').replace('u', groups.get('reader', ''))
    # (s is a shell of this machine, and a has all that an administrator needs)
    letters = letters.replace('s', 'a')
    return letters + (people.OURS if 'a' in letters else '')


def line_letters(letters: str, name: str) -> str:
    """The letters of the line in the users file: ours first, then those of Fossil that ours don't bring on the pages. Nobody pushes unnamed."""
    allowed = 'og' if name == 'nobody' else people.OURS
    ours = ''.join(letter for letter in allowed if letter in letters)
    # (d has had no meaning in Fossil for long)
    rest = set(letters) - set(people.OURS) - set(people.on_pages(ours)) - set('d')
    return ours + ''.join(sorted(rest)) or '-'


def why_not(row: Row, code: str, project: str) -> str | None:
    """Why a user can't be taken over."""
    if not row.is_text() or not people.NAME.match(row.name):
        return 'no name that the users file can have' if row.is_text() else 'its row is no text'
    if row.name == 'nobody':
        return None
    if not row.word:
        return 'no password'
    if SECRET.fullmatch(row.word) and code != project:
        return f'its password is kept for another project ({code!a})'
    return None


def taken_over(path: str, project: str, old: str) -> str:
    """Takes the users of a repository of Fossil into the users file, and says of each what became of it."""
    code, rows = rows_of(old)
    groups = {row.name: row.letters for row in rows if row.is_text()}
    said, new = [], []
    for row in rows:
        if row.name in people.KEPT_NAMES or not str(row.letters).strip():
            continue
        letters = line_letters(letters_of(row, groups), row.name) if row.is_text() else ''
        why = why_not(row, code, project) or (None if people.LETTERS.match(letters) else "its rights aren't letters")
        if why:
            said.append(f'{row.name!a} is left out: {why}')
            continue
        secret = '-' if row.name == 'nobody' else row.word if SECRET.fullmatch(row.word) else users.secret_of(project, row.name, row.word)
        new.append((row.name, letters, secret))
        said.append(f'{row.name} {letters}{NO_SHELL if "s" in row.letters else ""}')

    def changed(lines: list[bytes]) -> list[bytes]:
        for name, letters, secret in new:
            lines = people.with_user(lines, name, letters, secret)
        return lines

    people.change(path, changed)
    return '\n'.join(said) or f'{old} has no users to take over'
