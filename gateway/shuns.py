"""The names that a repository shuns, read from its file: docs/FORMATS.md, The repository file."""
import os
import threading
from typing import BinaryIO

MAGIC = b'fossil-blobs-'
FIRST_GATE = 15
# what a record of each kind has behind its letter and before its name
BEFORE_NAME = {b'B': 1, b'R': 1, b'P': 0, b'S': 0, b'U': 0}


class NoRepository(Exception):
    """A file isn't a repository. Its text says which."""


def number(file: BinaryIO, count: int) -> int:
    """The next number of so many bytes."""
    data = file.read(count)
    if len(data) < count:
        raise NoRepository('a record ends early')
    return int.from_bytes(data, 'big')


def project_of(path: str) -> str:
    """The code of a repository's project, which stands in its first record; NoRepository where there is none."""
    with open(path, 'rb') as file:
        head = file.read(45)
    if not head.startswith(MAGIC) or head[15:16] != b'O' or head[24:25] != b'C':
        raise NoRepository(f"{path} is no repository of this program ('up new FILE FOLDER' makes one)")
    return head[25:45].hex()


class Shuns:
    """The shunned names of a file. What was read once isn't read again, unless another file has its name by now."""

    def __init__(self, path: str):
        self.path, self.turn = path, threading.Lock()
        self.file, self.at, self.found = (0, 0), FIRST_GATE, set()

    def names(self) -> set[str]:
        """The names that are shunned now."""
        with self.turn, open(self.path, 'rb') as file:
            known = os.fstat(file.fileno())
            if (known.st_dev, known.st_ino) != self.file or known.st_size <= self.at:
                self.file, self.at, self.found = (known.st_dev, known.st_ino), FIRST_GATE, set()
            # (each group stands whole behind its gate before the gate is opened)
            while file.seek(self.at) == self.at and file.read(1) == b'O':
                end = self.at + 9 + number(file, 8)
                self.walk(file, end)
                self.at = end
            return set(self.found)

    def walk(self, file: BinaryIO, end: int) -> None:
        """Takes the records of a group, up to the place of the next gate."""
        while file.tell() < end:
            kind = file.read(1)
            if kind == b'C':
                file.seek(40, os.SEEK_CUR)
                for _ in range(number(file, 2)):
                    file.seek(number(file, 1), os.SEEK_CUR)
            elif kind in BEFORE_NAME:
                file.seek(BEFORE_NAME[kind], os.SEEK_CUR)
                self.take(kind, number(file, 20), file)
            else:
                raise NoRepository(f'{self.path} has a record of kind {kind!r}')

    def take(self, kind: bytes, name: int, file: BinaryIO) -> None:
        """Takes a record of this name; the content of a blob is passed over."""
        if kind == b'S':
            self.found.add(f'{name:040x}')
        elif kind == b'U':
            self.found.discard(f'{name:040x}')
        elif kind in (b'B', b'R'):
            if kind == b'R':
                file.seek(8, os.SEEK_CUR)
                file.seek(number(file, 4), os.SEEK_CUR)
            file.seek(number(file, 8), os.SEEK_CUR)
