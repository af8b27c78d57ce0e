"""What move-in and move-out share: the two programs, the repository file, and a place for what isn't whole yet."""
import hashlib
import os
import resource
import shutil
import signal
import sqlite3
import subprocess
import sys
import tempfile
import time
from typing import BinaryIO, Callable, Iterable, Iterator, NamedTuple, TypeVar
from urllib.parse import quote

TOP = os.path.dirname(os.path.dirname(os.path.abspath(__file__)))
ARTIFACT = 1 << 24
PAUSE = 2.0
LONGEST_LOGIN = 1 << 20
# the milliseconds from the beginning of the year 0 to the end of the year 9999
LAST_MOMENT = 3_652_425 * 86_400_000
HEAD, NOTHING = b'fossil-blobs-', memoryview(b'')
SIGNALS = signal.SIGTERM, signal.SIGHUP, signal.SIGINT
told: list[int] = []


class Stop(Exception):
    """What ends a move. Its text is said, and nothing is left under the name that was asked for."""


def say(text: str) -> None:
    """Says on standard error how far a move is. Signs that a terminal would obey are written out: what a project has came from anybody."""
    plain = ''.join(sign if sign.isprintable() or sign == '\n' else ascii(sign)[1:-1] for sign in text)
    print(f'{os.path.basename(sys.argv[0])}: {plain}', file=sys.stderr, flush=True)


def program() -> str:
    """The built program, or the script that builds it."""
    built = os.path.join(TOP, 'crates', 'fossil_main', 'out', 'fossil_main')
    # (an installed one stands beside the folder of the tools)
    for path in (os.environ.get('FOSSIL_PROGRAM'), built, os.path.join(TOP, 'fossil_main'), os.path.join(TOP, 'fossil')):
        if path and os.access(path, os.X_OK):
            return path
    raise Stop("the program isn't built, and FOSSIL_PROGRAM names none")


def need_fossil() -> None:
    """Stops where the command `fossil` isn't the real one: README links the script of this repository by the same name."""
    if not shutil.which('fossil') or not run(['fossil', 'version']).startswith(b'This is fossil version 2'):
        raise Stop("Fossil 2 isn't installed under the name fossil")


def go_on() -> None:
    """Ends the move where it was told to: a signal is only noted, so that nothing half done, as a process that just began, is left behind."""
    if told:
        sys.exit(128 + told[0])


Item = TypeVar('Item')


def counted(items: Iterable[Item], what: str = '', total: int | None = None) -> Iterator[Item]:
    """Hands items on, and ends the move where it was told to. Says every few seconds, and at the end, of how many items that are; `total`
    has how many there are where `items` itself doesn't say so."""
    count = len(items) if total is None else total
    last = time.monotonic()
    for number, item in enumerate(items, 1):
        go_on()
        yield item
        if what and (number == count or time.monotonic() - last > PAUSE):
            say(f'{number} of {count} {what}')
            last = time.monotonic()


class Limits(NamedTuple):
    """What a command may take: the bytes of a file that it writes and those of its memory. `look` is called every moment, and may stop it."""
    file: int
    memory: int
    look: Callable[[], None] = lambda: None

    def set(self) -> None:
        """Sets the limits for this process."""
        resource.setrlimit(resource.RLIMIT_FSIZE, (self.file, self.file))
        resource.setrlimit(resource.RLIMIT_AS, (self.memory, self.memory))


def bound(words: list[str]) -> list[str]:
    """The words of a command that ends when this process is gone, also where that is killed (by setpriv of util-linux). It is told by a
    signal that the script `fossil` hands on to the program."""
    return ['setpriv', '--pdeathsig', 'TERM', '--', *words] if shutil.which('setpriv') else words


def run(words: list[str], given: Iterable[bytes] = (), limits: Limits | None = None) -> bytes:
    """What a command prints that gets these pieces as its input; stops where it fails, and ends the command where the move is broken off."""
    # (a file, since communicate sends no input after its first time out)
    with tempfile.TemporaryFile() as source:
        source.writelines(given)
        source.seek(0)
        process = subprocess.Popen(bound(words), stdin=source, stdout=subprocess.PIPE, stderr=subprocess.PIPE, preexec_fn=limits and limits.set)
    try:
        while True:
            try:
                out, said = process.communicate(timeout=0.1)
                break
            except subprocess.TimeoutExpired:
                go_on()
                if limits:
                    limits.look()
    finally:
        process.kill()
        process.wait()
    go_on()
    if process.returncode != 0:
        raise Stop(failure(words[0], process.returncode, (out + said).decode('utf-8', 'replace').strip()[-500:], limits))
    return out


def failure(command: str, status: int, said: str, limits: Limits | None) -> str:
    """What is said of a command that failed."""
    if limits and status == -signal.SIGXFSZ:
        return f'{os.path.basename(command)} was ended: an artifact has more bytes than OLD says ({limits.file} are the most that it may write)'
    bounds = f' (it may take {limits.memory >> 20} MiB of memory)' if limits else ''
    return f'{os.path.basename(command)} ended with status {status}{bounds}: {said}'


def name_of(content: bytes) -> str:
    """The name of an artifact."""
    return hashlib.sha1(content).hexdigest()


# ---- the repository file: docs/FORMATS.md, The repository file


class Repository(NamedTuple):
    """What the records of a file leave: each held artifact with whether it is private and its bytes, and the shunned names."""
    project: str
    fields: list[str]
    held: dict[str, tuple[bool, memoryview]]
    shunned: set[str]


class Records:
    """Walks through the records of a group."""

    def __init__(self, body: memoryview):
        self.body, self.at = body, 0

    def take(self, count: int) -> memoryview:
        """The next bytes of a record."""
        if count > len(self.body) - self.at:
            raise Stop('this is no repository: a record runs past its group')
        self.at += count
        return self.body[self.at - count:self.at]

    def number(self, count: int) -> int:
        """The next number of so many bytes."""
        return int.from_bytes(self.take(count), 'big')

    def name(self) -> str:
        """The next name."""
        return self.take(20).hex()

    def config(self) -> tuple[str, list[str]]:
        """The project's code and the fields of a Config."""
        project = self.name()
        self.name()
        return project, [bytes(self.take(self.number(1))).decode('ascii') for _ in range(self.number(2))]

    def bounded(self, count: int, bound: int) -> int:
        """The next number of so many bytes, which is below a bound."""
        number = self.number(count)
        if number >= bound:
            raise Stop(f'this is no repository: {number} where a record has at most {bound - 1}')
        return number

    def blob(self, has_receipt: bool) -> tuple[bool, str, memoryview]:
        """Whether an artifact is private, its name and its bytes; a receipt, which says when and by whom it came, is passed over."""
        is_private, name = self.bounded(1, 2) == 1, self.name()
        if has_receipt:
            self.bounded(8, LAST_MOMENT)
            self.take(self.bounded(4, LONGEST_LOGIN + 1))
        return is_private, name, self.take(self.bounded(8, ARTIFACT + 1))


def kinds_of(head: bytes) -> bytes:
    """The letters of the records that a file may have behind its Config, by the version that its header tells."""
    if head[:-2] != HEAD or head[-1:] != b'\n':
        raise Stop('this is no repository')
    return b'BPS' if head[-2:-1] == b'1' else b'BRPSU'


def groups_of(file: BinaryIO) -> Iterator[memoryview]:
    """The records of each open group, up to the first closed gate. A group is read when it is asked for."""
    at, gate = len(HEAD) + 2, file.read(1)
    while gate == b'O':
        size = int.from_bytes(file.read(8), 'big')
        if not 0 < size < rest_of(file):
            raise Stop(f'this is no repository from byte {at} on')
        yield memoryview(file.read(size))
        at, gate = at + 9 + size, file.read(1)


def rest_of(file: BinaryIO) -> int:
    """How many bytes of a file weren't read yet."""
    at = file.tell()
    end = file.seek(0, os.SEEK_END)
    file.seek(at)
    return end - at


def fold(found: Repository, kind: bytes, records: Records, kept: Callable[[str, memoryview], memoryview]) -> None:
    """Does what one record behind Config says."""
    if kind in (b'B', b'R'):
        is_private, name, content = records.blob(kind == b'R')
        if name not in found.held and name not in found.shunned:
            found.held[name] = is_private, kept(name, content)
        return
    name = records.name()
    if kind == b'P' and name in found.held:
        found.held[name] = False, found.held[name][1]
    elif kind == b'S':
        found.held.pop(name, None)
        found.shunned.add(name)
    elif kind == b'U':
        found.shunned.discard(name)


def repository_in(file: BinaryIO, kept: Callable[[str, memoryview], memoryview]) -> Repository:
    """What the bytes of a file stand for, with what `kept` makes of the name and the bytes of each held artifact."""
    found = None
    kinds = kinds_of(file.read(len(HEAD) + 2))
    for body in groups_of(file):
        records = Records(body)
        while records.at < len(body):
            kind = bytes(records.take(1))
            if found is None and kind == b'C':
                found = Repository(*records.config(), {}, set())
            elif found is None:
                raise Stop('this is no repository: it begins without its codes')
            elif kind not in kinds:
                raise Stop(f'this is no repository: a record of kind {kind!r}')
            else:
                fold(found, kind, records, kept)
    if found is None:
        raise Stop('this is no repository')
    return found


def repository_of(path: str, has_contents: bool = True) -> Repository:
    """What a file stands for, which is only read. Each artifact is held against its name; where only the names are wanted, none has its
    bytes."""
    def kept(name: str, content: memoryview) -> memoryview:
        go_on()
        if name_of(content) != name:
            raise Stop(f'{path}: {name} has other bytes')
        return content if has_contents else NOTHING

    with open(path, 'rb') as file:
        # (from the front to the end, so that a file that is served may get groups meanwhile: docs/DEPLOY.md, Backup)
        return repository_in(file, kept)


# ---- a repository of Fossil 2


def rows_of(path: str, query: str) -> list[tuple]:
    """The rows of a query on a repository of Fossil, which is only read."""
    try:
        with sqlite3.connect(f'file:{quote(path)}?mode=ro', uri=True) as database:
            # (nor does it run what the file brings along)
            database.execute('PRAGMA trusted_schema = OFF')
            # (a text that isn't UTF-8 is no reason to stop: as little as in a report of the program)
            database.text_factory = lambda text: text.decode('utf-8', 'replace')
            return database.execute(query).fetchall()
    except sqlite3.Error as fault:
        raise Stop(f'{path} is no repository of Fossil 2: {fault}') from None


def fields_of(path: str) -> list[str]:
    """The columns of the ticket table that a project defines."""
    return [row[1] for row in rows_of(path, 'PRAGMA table_info(ticket)') if not row[1].startswith('tkt_')]


# ---- what isn't whole yet


class Workroom:
    """A folder beside the first of the files that are asked for, which is gone at the end (`ended`); whole files get their names there, and
    no other file loses its name."""

    folders: list[str] = []

    def __init__(self, *wanted: str):
        for path in wanted:
            if os.path.lexists(path):
                raise Stop(f'{path} is there already')
        self.folder = os.path.join(os.path.dirname(os.path.abspath(wanted[0])), f'.move-{os.getpid()}-{os.urandom(4).hex()}')
        self.folders.append(self.folder)
        os.mkdir(self.folder, 0o700)

    def path(self, name: str) -> str:
        """A place in the folder."""
        return os.path.join(self.folder, name)

    def give(self, files: dict[str, str]) -> None:
        """Gives whole files of the folder, by their names there, the names that were asked for: all of them, or none."""
        given: list[str] = []
        try:
            for name, wanted in files.items():
                named(self.path(name), wanted)
                given.append(wanted)
        except BaseException:
            for wanted in given:
                os.unlink(wanted)
            raise


def named(path: str, wanted: str) -> None:
    """Gives a file another name that no file has."""
    try:
        os.link(path, wanted)
    except FileExistsError:
        raise Stop(f'{wanted} is there by now') from None
    except OSError:
        # (a file system without links: there a file that comes between the look and the renaming is lost)
        if os.path.lexists(wanted):
            raise Stop(f'{wanted} is there by now') from None
        os.rename(path, wanted)


def ended(main, *words: str) -> None:
    """Runs a move, and ends with 1 where it was stopped. Whatever happens, no folder of it is left."""
    try:
        for number in SIGNALS:
            signal.signal(number, lambda number, _: told.append(number))
        main(*words)
    except (Stop, OSError, UnicodeError) as fault:
        say(str(fault))
        sys.exit(1)
    finally:
        for folder in Workroom.folders:
            shutil.rmtree(folder, ignore_errors=True)
