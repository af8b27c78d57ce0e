"""The users file and logins: docs/FORMATS.md, Users, logins and replies."""
import hashlib
import hmac
from typing import NamedTuple

LONGEST_FILE = 1 << 20
# the letters that the server knows, and the sign for none
OURS = b'oigx-'


class UsersFault(Exception):
    """The users file can't be read. Its text is what is wrong."""


class User(NamedTuple):
    """A line of the users file."""
    letters: bytes
    secret: bytes


def sha1(data: bytes | bytearray | memoryview) -> bytes:
    """The 40 digits of the SHA-1 of bytes."""
    return hashlib.sha1(data).hexdigest().encode()


def words_of(line: bytes) -> list[bytes]:
    """The words of a line, between which blanks, tabs and carriage returns stand, and no other sign."""
    return [word for word in line.replace(b'\t', b' ').replace(b'\r', b' ').split(b' ') if word]


def users_in(text: bytes) -> dict[bytes, User]:
    """The users of a file's bytes, or UsersFault with the number of its first bad line and what is wrong there."""
    users: dict[bytes, User] = {}
    lines: dict[bytes, int] = {}
    end = 0
    for number, line in enumerate(text.split(b'\n'), 1):
        end += len(line) + 1
        words = words_of(line)
        if min(end, len(text)) > LONGEST_FILE:
            raise UsersFault(f'line {number} reaches past {LONGEST_FILE} bytes')
        if not words or words[0].startswith(b'#'):
            continue
        if len(words) != 3:
            raise UsersFault(f'line {number}: a line is USER LETTERS SECRET, and this one has {len(words)} words')
        if words[0] in users:
            raise UsersFault(f'line {number}: user {ascii(words[0].decode("latin-1"))[1:-1]} stands twice (lines {lines[words[0]]} and {number})')
        users[words[0]], lines[words[0]] = User(words[1], words[2]), number
    return users


def users_of(path: str) -> dict[bytes, User]:
    """The users of a file; UsersFault where it can't be read."""
    try:
        with open(path, 'rb') as file:
            return users_in(file.read(LONGEST_FILE + 2))
    except OSError as fault:
        raise UsersFault(f'users file {path}: {fault.strerror}') from None
    except UsersFault as fault:
        raise UsersFault(f'users file {path}, {fault}') from None


def text_of(users: dict[bytes, User]) -> bytes:
    """The bytes of a users file that has these users and no more."""
    return b''.join(b'%s %s %s\n' % (name, user.letters, user.secret) for name, user in users.items())


def strange_letters(users: dict[bytes, User]) -> dict[str, str]:
    """The letters of each user that the server doesn't know, by the user's name; `-` stands for no letter."""
    strange = {name: bytes(letter for letter in user.letters if letter not in OURS) for name, user in users.items()}
    return {name.decode('utf-8', 'replace'): letters.decode('latin-1') for name, letters in strange.items() if letters}


def secret_of(project: str, user: str, password: str) -> str:
    """The secret that Fossil's client signs with: the SHA-1 of the project's code, the user and the password, with slashes between."""
    return sha1(f'{project}/{user}/{password}'.encode()).decode()


def is_signed(user: User, nonce: bytes, signature: bytes, tail: memoryview) -> bool:
    """Whether a login holds over what stands behind its line."""
    is_for_tail = hmac.compare_digest(nonce, sha1(tail))
    return hmac.compare_digest(signature, sha1(nonce + user.secret)) and is_for_tail


def login_of(name: bytes, secret: bytes, message: bytes | bytearray) -> bytes:
    """The login card of a user, whose name is escaped, for a message that comes behind it."""
    nonce = sha1(message)
    return b'login %s %s %s\n' % (name, nonce, sha1(nonce + secret))
