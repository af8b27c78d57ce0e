"""The inner door, to which the mirror alone comes: it logs in with a token of this start, and what members made on its pages goes on under theirs."""
import cards
import people
import users
from users import User

LETTERS = b'oig'


def known_there(project: str, token: str) -> dict[bytes, User]:
    """The one user who may come in there."""
    return {people.MIRROR.encode(): User(LETTERS, users.secret_of(project, people.MIRROR, token).encode())}


def by_bringer(files: dict[bytes, bytes], bringers: dict[str, str], known: dict[bytes, User]) -> dict[bytes, dict[bytes, bytes]]:
    """The files of a message by the member who made them on a page, of those members who may push themselves."""
    found: dict[bytes, dict[bytes, bytes]] = {}
    for name, content in files.items():
        login = bringers.get(name.decode(), '').encode()
        if login != b'nobody' and login in known and b'i' in known[login].letters:
            found.setdefault(login, {})[name] = content
    return found


def message_of(codes: tuple[bytes, bytes] | None, login: bytes, files: dict[bytes, bytes], known: dict[bytes, User]) -> list[bytes]:
    """The message that brings files under a member's login: the login, and what it signs."""
    body = b'push %s %s\n' % (codes or (b'0' * 40, b'0' * 40))
    body += b''.join(b'file %s %d\n' % (name, len(content)) + content + b'\n' for name, content in files.items())
    return [users.login_of(cards.escaped(login), known[login].secret, body), body]
