"""The users file as something that people change: who may do what, here and on the pages."""
import contextlib
import fcntl
import getpass
import os
import re
import sys
import tempfile
from typing import Callable

import users

OURS = 'oigx'
# what a letter of the users file is on the pages; any other letter is Fossil's own, for the pages alone
ON_PAGES = {'o': 'ojprhz2', 'i': 'bcefiklmnw34', 'g': 'g', 'x': ''}
NAME = re.compile(r'[A-Za-z0-9_.@+-]{1,64}\Z')
LETTERS = re.compile(r'(-|[A-Za-z0-9]{1,60})\Z')
# the login of the mirror, and names that have a meaning of their own in Fossil
MIRROR = 'web'
MIRROR_LETTERS = 'oig'
KEPT_NAMES = MIRROR, 'anonymous', 'developer', 'reader'


class Wrong(Exception):
    """What ends a command. Its text is said."""


def write(path: str, text: bytes) -> None:
    """Writes a file whole, which its owner alone may read: the old one stands until the new one does."""
    folder = os.path.dirname(os.path.abspath(path))
    handle, new = tempfile.mkstemp(dir=folder, prefix='.new-')
    try:
        with os.fdopen(handle, 'wb') as file:
            if os.path.exists(path):
                old = os.stat(path)
                os.fchown(file.fileno(), old.st_uid, old.st_gid)
            file.write(text)
            file.flush()
            os.fsync(file.fileno())
        os.replace(new, path)
    except BaseException:
        os.unlink(new)
        raise
    handle = os.open(folder, os.O_RDONLY)
    try:
        os.fsync(handle)
    finally:
        os.close(handle)


@contextlib.contextmanager
def alone(path: str):
    """Within it no other process of `up` changes the file."""
    handle = os.open(os.path.dirname(os.path.abspath(path)), os.O_RDONLY)
    try:
        fcntl.flock(handle, fcntl.LOCK_EX)
        yield
    finally:
        os.close(handle)


def change(path: str, changed: Callable[[list[bytes]], list[bytes]]) -> None:
    """Changes the lines of a users file; one that doesn't read, or wouldn't be read then, stays as it is. Lines are bytes, as the program reads them:
    each ends at a line feed alone."""
    with alone(path):
        users.users_of(path)
        with open(path, 'rb') as file:
            old = [line.removesuffix(b'\n') for line in file]
        new = changed(list(old))
        if new == old:
            return
        text = b'\n'.join(new) + b'\n'
        try:
            users.users_in(text)
        except users.UsersFault as fault:
            raise Wrong(f"nothing is changed, since {path} couldn't be read then: {fault}") from None
        write(path, text)


def with_line(lines: list[bytes], line: bytes) -> list[bytes]:
    """The lines with that of a user put in the place of the old one, or at the end."""
    name = users.words_of(line)[:1]
    at = next((at for at, old in enumerate(lines) if users.words_of(old)[:1] == name), None)
    return lines + [line] if at is None else lines[:at] + [line] + lines[at + 1:]


def with_user(lines: list[bytes], name: str, letters: str, secret: str) -> list[bytes]:
    """The lines with a user put in the place of the old one, or at the end."""
    return with_line(lines, f'{name} {letters} {secret}'.encode())


def password() -> str:
    """A password: typed twice at a terminal, else the first line of the input."""
    if sys.stdin.isatty():
        word = getpass.getpass('password: ')
        if word != getpass.getpass('again: '):
            raise Wrong("the two passwords aren't the same; nothing is changed")
    else:
        word = sys.stdin.readline().rstrip('\n')
    if not word:
        raise Wrong('there is no password; nothing is changed')
    return word


def add(path: str, project: str, name: str, letters: str) -> str:
    """Puts a user in, or gives one who is there other letters and another password. `nobody` has none."""
    if name in KEPT_NAMES:
        raise Wrong(f'{name} is a name that Fossil or the mirror needs; take another one')
    if not NAME.match(name):
        raise Wrong(f'{name!r} is no name of a user: 1 to 64 letters, digits and _ . @ + -')
    if not LETTERS.match(letters):
        raise Wrong(f"{letters!r} aren't letters of rights: o pull, i push, g clone, x private, and Fossil's own for the pages; - for none")
    secret = '-' if name == 'nobody' else users.secret_of(project, name, password())
    change(path, lambda lines: with_user(lines, name, letters, secret))
    return f'{name} {letters}'


def remove(path: str, name: str) -> str:
    """Takes a user out."""
    if name == MIRROR or name.encode() not in users.users_of(path):
        raise Wrong(f'there is no user {name} to take out')
    change(path, lambda lines: [line for line in lines if users.words_of(line)[:1] != [name.encode()]])
    return f'{name} is out'


def listed(path: str) -> str:
    """A line for each user: the name, the letters, and what these are on the pages."""
    rows = [(name.decode('utf-8', 'replace'), user.letters.decode('utf-8', 'replace')) for name, user in users.users_of(path).items()]
    return '\n'.join(f'{name} {letters} pages:{on_pages(letters) or "-"}' for name, letters in rows)


def on_pages(letters: str) -> str:
    """Fossil's letters, which hold on the pages, for the letters of a users file."""
    return ''.join(sorted(set(''.join(ON_PAGES.get(letter, letter) for letter in letters if letter != '-'))))


def hold_to_names(known: dict[bytes, users.User], path: str, before: dict[bytes, users.User] | None = None) -> None:
    """Raises Wrong for users whose names Fossil or the mirror needs, and for a mirror's login that isn't the one that `up` made. `before` are the
    users that hold so far."""
    for name in KEPT_NAMES:
        if name != MIRROR and name.encode() in known:
            raise Wrong(f'{path} has a user {name}, which is a name that Fossil needs: give that user another name, or take the line out')
    login = known.get(MIRROR.encode())
    if login is None:
        raise Wrong(f'the line of the user {MIRROR}, by which the pages come, is missing in {path}')
    if login.letters != MIRROR_LETTERS.encode() or (before and before.get(MIRROR.encode()) != login):
        raise Wrong(f"the line of the user {MIRROR} in {path} isn't the one that up made, and this name is for the pages alone: give that user "
                    'another name, and put the old line back or start again without it')


def warnings(known: dict[bytes, users.User], has_pages: bool) -> list[str]:
    """What an administrator should know of letters that the program doesn't know, a line for each user."""
    meaning = 'count on the pages alone' if has_pages else 'mean nothing without pages'
    lines = []
    for name, letters in users.strange_letters(known).items():
        shell = '; s is a shell of this machine, and a is enough for an administrator' if 's' in letters else ''
        lines.append(f"users: the letters '{letters}' of {name} {meaning}; for syncs o is pull, i push, g clone, x private{shell}")
    return lines
