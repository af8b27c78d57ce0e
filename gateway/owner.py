"""The user to whom Fossil's server and the mirror belong, which may be another than that of `up`."""
import contextlib
import ctypes
import os
import pwd
import shutil
import stat
from typing import Iterator

# CAP_CHOWN, CAP_KILL, CAP_SETGID, CAP_SETUID
NEEDED = 1 << 0 | 1 << 5 | 1 << 6 | 1 << 7


class NoSuchUser(Exception):
    """There is no user of this name."""


def capabilities() -> int:
    """The capabilities that this process has, a bit for each."""
    with open('/proc/self/status') as file:
        return next((int(line.split()[1], 16) for line in file if line.startswith('CapEff')), 0)


def name_of(user: int) -> str:
    """The name of a user, or the number where it has none."""
    try:
        return pwd.getpwuid(user).pw_name
    except KeyError:
        return str(user)


class Owner:
    """Who runs Fossil's server: the user that is named where this process may give it another one, else this process's own."""

    def __init__(self, name: str | None):
        self.user, self.group, self.is_other, self.why = os.geteuid(), os.getegid(), False, ''
        mine = name_of(self.user)
        if name is None:
            advice = "; with --web-user NAME they can't" if self.user == 0 else ''
            self.why = f'pages run as {mine}, the user of up, and can read what up can{advice}'
            return
        try:
            wanted = pwd.getpwnam(name)
        except KeyError:
            raise NoSuchUser(f'there is no user {name} for the pages; make one: useradd --system --shell /usr/sbin/nologin {name}') from None
        if wanted.pw_uid == self.user:
            self.why = f'pages run as {mine}, the user of up, and can read what up can'
        elif not shutil.which('setpriv') or capabilities() & NEEDED != NEEDED:
            self.why = f'--web-user {name} needs root and the command setpriv; pages run as {mine}, the user of up, and can read what up can'
        else:
            self.user, self.group, self.is_other = wanted.pw_uid, wanted.pw_gid, True

    def words(self) -> list[str]:
        """The words by which setpriv gives a process this user."""
        return ['--reuid', str(self.user), '--regid', str(self.group), '--clear-groups'] if self.is_other else []

    @contextlib.contextmanager
    def files(self) -> Iterator[None]:
        """Within it this thread has the files of this user and no others, so that no link that the user makes leads it to another's file."""
        if not self.is_other:
            yield
            return
        system = ctypes.CDLL(None)
        before = system.setfsuid(-1), system.setfsgid(-1)
        # (the group first, since the right to take another one goes with the user)
        system.setfsgid(self.group)
        system.setfsuid(self.user)
        try:
            if (system.setfsuid(-1), system.setfsgid(-1)) != (self.user, self.group):
                raise OSError(f'the files of user {self.user} are out of reach')
            yield
        finally:
            system.setfsuid(before[0])
            system.setfsgid(before[1])

    def take(self, folder: str) -> None:
        """Gives a folder that is there, and what is in it, to this user."""
        if not self.is_other and os.geteuid() != 0:
            return
        # (each folder behind what is in it, since this process may not reach into one of another user; by the folder that was looked into, so that no
        # link that is put in the place of one leads elsewhere)
        with contextlib.suppress(PermissionError):
            for _, folders, names, at in os.fwalk(folder, topdown=False):
                for name in names + folders:
                    self.take_one(name, at)
        self.take_one(folder, None)

    def take_one(self, name: str, at: int | None) -> None:
        """Gives what has a name in an open folder to this user. What has a second name may be another's file, and stays."""
        known = os.stat(name, dir_fd=at, follow_symlinks=False)
        if (known.st_uid, known.st_gid) != (self.user, self.group) and (stat.S_ISDIR(known.st_mode) or known.st_nlink == 1):
            os.chown(name, self.user, self.group, dir_fd=at, follow_symlinks=False)


def bound(words: list[str], owner: Owner | None = None) -> list[str]:
    """The words of a process that ends when the thread that started it is gone (by setpriv of util-linux; without it systemd ends it), under the
    user of an owner, and with none of the rights by which this process gives others another user."""
    if not shutil.which('setpriv'):
        return words
    return ['setpriv', '--pdeathsig', 'KILL', '--inh-caps=-all', '--no-new-privs', *(owner.words() if owner else []), '--', *words]
