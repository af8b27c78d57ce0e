"""The users of a repository of Fossil 2, as lines of a users file (docs/FORMATS.md, Users, logins and replies).

Their letters are those that `up user import` gives: gateway/taking_over.py has that rule."""
import os
import pwd
import re
import sys
from shlex import quote
from typing import Iterator, NamedTuple

from moving import TOP, Stop, name_of, rows_of

# (behind the modules of this folder, one of which has a name that stands there too)
sys.path.append(os.path.join(TOP, 'gateway'))

from taking_over import Row, letters_of, line_letters

# names of users who only hold letters for others
GROUPS = 'anonymous', 'developer', 'reader'
HASH = re.compile('[0-9a-f]{40}')
HEAD = """# The users of {old}, for the project {project}. A line is USER CAPS SECRET.
"""
ANEW = """# A secret follows from the project's code, and that is another one now: type the command behind the colon, put what it prints in the place
# of SECRET, and take the # away.
"""


def users_of(path: str) -> list[Row]:
    """The users of a repository of Fossil. Signs that are no letters of rights are left out of theirs."""
    rows = rows_of(path, "SELECT login, coalesce(pw, ''), coalesce(cap, '') FROM user WHERE login IS NOT NULL ORDER BY login")
    return [Row(str(login), str(password), re.sub('[^A-Za-z0-9]', '', str(letters))) for login, password, letters in rows]


def line_of(user: Row, letters: str, project: str, is_anew: bool) -> str:
    """The line of a user, as a comment where its secret isn't known."""
    name = user.name
    if not name or not name.isprintable() or ' ' in name or name.startswith('#'):
        return f"# {name!a} {letters}: a user's name has signs that can be printed, no blank among them, and doesn't begin with #\n"
    if name == 'nobody':
        return f'nobody {letters} -\n'
    command = f'gateway/gateway secret {project} {quote(name)}'
    if is_anew:
        return f'# {name} {letters} SECRET: {command}\n'
    if user.word in ('', '*'):
        return f'# {name} {letters} SECRET: has no password in OLD: {command}\n'
    return f'{name} {letters} {user.word if HASH.fullmatch(user.word) else name_of(f"{project}/{name}/{user.word}".encode())}\n'


def lines_of(path: str, title: str, project: str, is_anew: bool) -> Iterator[str]:
    """The users file for a repository of Fossil of a title. A user keeps what stands for the password, which Fossil's client signs with,
    unless the project's code is another one by then."""
    users = users_of(path)
    groups = {user.name: user.letters for user in users}
    yield HEAD.format(old=repr(title), project=project)
    if is_anew:
        yield ANEW
    for user in users:
        letters = line_letters(letters_of(user, groups), user.name)
        if user.name not in GROUPS and (user.name, letters) != ('nobody', '-'):
            yield line_of(user, letters, project, is_anew)


class Owner(NamedTuple):
    """A user of this machine who gets what is made."""
    name: str
    user: int
    group: int

    def take(self, path: str) -> None:
        """Gives a file to this user, who alone may read and write it."""
        os.chmod(path, 0o600)
        if self.user != os.stat(path).st_uid:
            os.chown(path, self.user, self.group)


def owner_called(name: str) -> Owner:
    """The user of this name, or the one who runs this where it is empty; stops where the files can't be given to that one."""
    here = os.geteuid()
    try:
        found = pwd.getpwnam(name) if name else pwd.getpwuid(here)
    except KeyError:
        if name:
            raise Stop(f'this machine has no user {name}') from None
        return Owner(str(here), here, os.getegid())
    if here not in (0, found.pw_uid):
        raise Stop(f'only root can give files to the user {name}')
    return Owner(found.pw_name, found.pw_uid, found.pw_gid)
