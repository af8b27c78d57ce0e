"""A copy of a repository of Fossil 2 to work on, since OLD.fossil may come from anybody, and may change meanwhile.

Fossil makes an empty repository, and the rows of OLD that a move needs are written into its tables. So nothing else of OLD comes along:
no trigger, no view, no index and no setting. Fossil makes the paths of files of artifacts' names, so each name is looked at first."""
import contextlib
import os
import re
import shutil
import sqlite3
from typing import Collection
from urllib.parse import quote

from moving import Limits, Stop, go_on, run, told

TABLES = 'blob', 'delta', 'shun', 'private', 'user', 'tag', 'tagxref', 'event', 'leaf', 'filename', 'mlink', 'ticket'
NAME = re.compile('[0-9a-f]{40}|[0-9a-f]{64}')
# the steps of SQLite behind which a move looks whether it was told to end
STEPS = 1_000_000
# the bytes that a file takes beside its content, those that a disk keeps free, and those of Fossil's memory beside what contents take
BLOCK, RESERVE, MEMORY = 1 << 12, 1 << 28, 1 << 30


def copy_of(old: str, target: str) -> None:
    """Copies what a move needs of a repository of Fossil into a new file; stops where it has what no repository of Fossil has."""
    if not os.path.isfile(old):
        raise Stop(f'there is no file {old}')
    # (Fossil wants a folder for the settings of its user, and this one is gone at the end)
    run(['env', f'FOSSIL_HOME={os.path.dirname(target)}', 'fossil', 'new', '--admin-user', 'move-in', target])
    try:
        with contextlib.closing(sqlite3.connect(f'file:{quote(target)}', uri=True, isolation_level=None)) as base:
            base.set_progress_handler(lambda: bool(told), STEPS)
            base.text_factory = lambda text: text.decode('utf-8', 'replace')
            base.execute('PRAGMA trusted_schema = OFF')
            base.execute('ATTACH ? AS old', [f'file:{quote(os.path.abspath(old))}?mode=ro'])
            base.execute('BEGIN')
            fill(base, old)
            look_at_names(base, old)
            base.execute('COMMIT')
    except sqlite3.Error as fault:
        go_on()
        raise Stop(f'{old} is no repository of Fossil 2: {fault}') from None


def fill(base: sqlite3.Connection, old: str) -> None:
    """Gives the copy the rows of OLD, and the project's code."""
    for table in TABLES:
        columns = columns_of(base, old, table)
        if table == 'ticket':
            # (its columns are for each project to choose)
            base.execute('DROP TABLE ticket')
            base.execute(f'CREATE TABLE ticket ({", ".join(columns)})')
        known = {quoted(row[1]) for row in base.execute(f'PRAGMA main.table_xinfo({table})')}
        both = ', '.join(column for column in columns if column in known)
        base.execute(f'DELETE FROM main.{table}')
        base.execute(f'INSERT INTO main.{table} ({both}) SELECT {both} FROM old.{table}')
    columns_of(base, old, 'config')
    base.execute("DELETE FROM main.config WHERE name = 'project-code'")
    base.execute("INSERT INTO main.config (name, value) SELECT name, value FROM old.config WHERE name = 'project-code'")


def columns_of(base: sqlite3.Connection, old: str, table: str) -> list[str]:
    """The columns of a table of OLD; stops where that is no plain one, as a view that gives other rows each time."""
    found = base.execute('SELECT type, rootpage > 0 FROM old.sqlite_master WHERE lower(name) = ?', [table]).fetchall()
    rows = base.execute(f'PRAGMA old.table_xinfo({table})').fetchall()
    # (the last column of that says whether another one is worked out)
    if found != [('table', 1)] or any(row[6] for row in rows):
        raise Stop(f'{old} is no repository of Fossil 2: it has no plain table {table}')
    return [quoted(row[1]) for row in rows]


def quoted(name: str) -> str:
    """A name as it stands in a query."""
    return '"' + name.replace('"', '""') + '"'


def look_at_names(base: sqlite3.Connection, old: str) -> None:
    """Stops where what stands in the place of a name is none, or what stands in the place of a size."""
    for name, size in base.execute('SELECT uuid, size FROM main.blob UNION ALL SELECT uuid, 0 FROM main.shun'):
        go_on()
        if not isinstance(name, str) or not NAME.fullmatch(name):
            raise Stop(f'{old} has {ascii(name)[:100]} where a name of 40 or 64 digits, 0 to 9 and a to f, has to stand')
        if not isinstance(size, int):
            raise Stop(f'{old} has {size!a} where the size of {name} has to stand')


# ---- what Fossil makes of the copy


def limits_for(sizes: Collection[int], folder: str) -> Limits:
    """What Fossil may take to write contents of these sizes out: contents are compressed, and a small file may hold what fills a disk."""
    greatest = max(sizes, default=0)
    # (it has some of them in memory at once, and writes files of its own)
    return Limits(max(greatest, 1 << 20), MEMORY + 8 * greatest, lambda: need_room([], folder))


def need_room(sizes: Collection[int], folder: str) -> None:
    """Stops where the disk of a folder hasn't room for files of these sizes."""
    size, free = sum(sizes) + BLOCK * len(sizes), shutil.disk_usage(folder).free - RESERVE
    if size > free:
        raise Stop(f'the artifacts take {size >> 20} MiB beside NEW for a while, and {max(free, 0) >> 20} MiB are free there' if size else
                   'the disk of NEW is nearly full')
