"""Tests of move-in with repositories of Fossil that somebody made or changed to do harm, and of what a move leaves where it is killed."""
import os
import shutil
import signal
import sqlite3
import subprocess
import time
import zlib

from moves import MOVE_IN, is_clean, move, small, sql, words_for
from renames import users_of
import taking_over

def letters_as_up_takes_them(room):
    """NEW.users has the letters that `up user import` gives the same users."""
    small(room, '--sha1')
    for number, letters in enumerate(('a', 's', 'v', 'u', 'ei', 'oigx', 'kptw', 'vx')):
        room.fossil('user', 'new', f'user{number}', '', 'pw', '-R', 'old.fossil')
        room.fossil('user', 'capabilities', f'user{number}', letters, '-R', 'old.fossil')
    room.fossil('user', 'capabilities', 'nobody', 'cgjoi', '-R', 'old.fossil')
    project = move(room, MOVE_IN, 'old.fossil', 'new').splitlines()[-1]
    room.write('taken', b'')
    taking_over.taken_over(room.path('taken'), project, room.path('old.fossil'))
    with open(room.path('taken'), encoding='utf-8') as file:
        assert sorted(file.read().splitlines()) == sorted(users_of(room, 'new')[1:]) and os.path.getsize(file.fileno()) > 0


def names_that_are_paths(room):
    """What stands in the place of a name and is none stops the move before Fossil makes a path of it."""
    small(room, '--sha1')
    os.mkdir(room.path('outside'))
    way = 'aa/././/../../../outside/planted'
    for number, (table, name) in enumerate((
        ('blob', way + '_' * (40 - len(way))), ('blob', '/dev/zero' + '0' * 31), ('blob', 'A' * 40), ('blob', 'a' * 41),
        ('shun', '../' * 13 + 'x'), ('shun', "'" * 40), ('blob', 'a' * 39 + '\n'),
    )):
        old = f'{number}.fossil'
        shutil.copy(room.path('old.fossil'), room.path(old))
        with sqlite3.connect(room.path(old)) as base:
            base.execute("INSERT INTO blob (rid, rcvid, size, uuid, content) SELECT 99, rcvid, size, ?, content FROM blob WHERE rid = 1", ['aa' + '0' * 38])
            if table == 'blob':
                base.execute('INSERT INTO blob (rid, rcvid, size, uuid, content) SELECT 100, rcvid, size, ?, content FROM blob WHERE rid = 1', [name])
            else:
                base.execute('INSERT INTO shun (uuid) VALUES (?)', [name])
        base.close()
        said = move(room, MOVE_IN, old, 'new', status=1)
        assert 'where a name of 40 or 64 digits' in said and 'writes the artifacts' not in said, said
        is_clean(room)
        assert os.listdir(room.path('outside')) == []


def tables_that_are_none(room):
    """A view, a table of a module and a column that is worked out are no tables of Fossil; a trigger is, and does nothing."""
    small(room, '--sha1')
    views = {
        'blob': ['ALTER TABLE blob RENAME TO other', 'CREATE VIEW blob AS SELECT * FROM other'],
        'shun': ['DROP TABLE shun', 'CREATE VIRTUAL TABLE shun USING fts4(uuid)'],
        'user': ["ALTER TABLE user ADD COLUMN more AS (hex(zeroblob(1000)))"],
        'leaf': ['DROP TABLE leaf'],
    }
    for table, lines in views.items():
        shutil.copy(room.path('old.fossil'), room.path(f'{table}.fossil'))
        sql(room, f'{table}.fossil', *lines)
        assert f'{table}.fossil is no repository of Fossil 2: it has no plain table {table}' in move(room, MOVE_IN, f'{table}.fossil', 'new', status=1)
        is_clean(room)
    sql(room, 'old.fossil', 'CREATE TRIGGER all_away AFTER INSERT ON tag BEGIN DELETE FROM blob; END',
        "CREATE VIEW mine AS SELECT load_extension('x')", "INSERT INTO config (name, value) VALUES ('th1-setup', 'error here')")
    move(room, MOVE_IN, 'old.fossil', 'new')


def sizes_that_are_wrong(room):
    """What holds more than it says, by a content or by what differs from another one, is ended before it fills a disk or all memory."""
    small(room, '--sha1')
    for number, (content, said) in enumerate((
        ((3 << 30).to_bytes(4, 'big') + zlib.compress(bytes(1 << 20), 1), 'MiB of memory'),
        ((1 << 26).to_bytes(4, 'big') + zlib.compress(bytes(1 << 26), 1), 'more bytes than OLD says'),
    )):
        shutil.copy(room.path('old.fossil'), room.path(f'{number}.fossil'))
        with sqlite3.connect(room.path(f'{number}.fossil')) as base:
            base.execute('INSERT INTO blob (rid, rcvid, size, uuid, content) VALUES (99, 1, 5, ?, ?)', ['ab' * 20, content])
        base.close()
        found = move(room, MOVE_IN, f'{number}.fossil', 'new', status=1)
        assert said in found, found
        is_clean(room)
    sql(room, 'old.fossil', "INSERT INTO blob (rid, size, uuid) VALUES (99, 'much', 'abababababababababababababababababababab')")
    assert "'much' where the size" in move(room, MOVE_IN, 'old.fossil', 'new', status=1)
    sql(room, 'old.fossil', 'UPDATE blob SET size = 1 << 60 WHERE rid = 99')
    assert 'MiB are free there' in move(room, MOVE_IN, 'old.fossil', 'new', '--leave-out', status=1)


def processes_in(folder):
    """The processes with a word that names a place in a folder."""
    found = []
    for number in filter(str.isdigit, os.listdir('/proc')):
        try:
            with open(f'/proc/{number}/cmdline', 'rb') as file:
                found += [int(number)] if folder.encode() in file.read() else []
        except OSError:
            pass
    return found


def killed(room):
    """A move that is killed leaves no process behind, neither its server nor one of Fossil."""
    folder = small(room, '--sha1')
    room.commit(folder, {f'file{number}': os.urandom(1000) for number in range(200)}, 'some')
    for what in ('Fossil writes', 'artifacts are read', 'artifacts go in'):
        process = subprocess.Popen([MOVE_IN, 'old.fossil', room.path('new')], stdin=subprocess.DEVNULL, stdout=subprocess.DEVNULL,
                                   stderr=subprocess.PIPE, **words_for(room))
        while what.encode() not in process.stderr.readline():
            assert process.poll() is None, what
        process.send_signal(signal.SIGKILL)
        process.stderr.close()
        process.wait(60)
        end = time.monotonic() + 10
        while processes_in(room.folder.name) and time.monotonic() < end:
            time.sleep(0.05)
        assert not processes_in(room.folder.name), what


TESTS = [letters_as_up_takes_them, names_that_are_paths, tables_that_are_none, sizes_that_are_wrong, killed]
