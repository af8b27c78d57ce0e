"""What the tests of move-in and move-out share: a project of Fossil with everything in it, artifacts made by hand, and the tools as they are
typed."""
import os
import sqlite3
import subprocess
import sys

TOP = os.path.dirname(os.path.dirname(os.path.dirname(os.path.abspath(__file__))))
sys.path[:0] = [os.path.join(TOP, 'gateway', 'tests'), os.path.join(TOP, 'tools')]
sys.path.append(os.path.join(TOP, 'gateway'))

from playing import SECONDS, program, sealed, sha1, thread_of_posts
import moving

MOVE_IN, MOVE_OUT = os.path.join(TOP, 'tools', 'move-in'), os.path.join(TOP, 'tools', 'move-out')


def words_for(room):
    """Where a tool runs, and what it finds there."""
    environment = {**os.environ, 'HOME': room.folder.name, 'USER': 'ann', 'FOSSIL_USER': 'ann', 'FOSSIL_PROGRAM': program()}
    return {'cwd': room.folder.name, 'env': environment}


def move(room, *words, status=0):
    """What a tool says."""
    done = subprocess.run(words, stdin=subprocess.DEVNULL, stdout=subprocess.PIPE, stderr=subprocess.STDOUT, timeout=SECONDS, **words_for(room))
    assert done.returncode == status, (words, done.returncode, done.stdout.decode('utf-8', 'replace')[-1500:])
    return done.stdout.decode('utf-8', 'replace')


def is_clean(room, *there):
    """A tool left nothing but the files that are named, of those whose names begin so."""
    found = sorted(name for name in os.listdir(room.folder.name) if name.startswith(('.move', 'new')))
    assert found == sorted(there), found


def sql(room, repository, *lines):
    """Changes a repository of Fossil."""
    with sqlite3.connect(room.path(repository)) as database:
        for line in lines:
            database.execute(line)
    database.close()


def rows(room, repository, query):
    return sorted(moving.rows_of(room.path(repository), query))


def corpus(room, name='old', named=sha1):
    """A project of Fossil with everything in it, under SHA-1 names or those of SHA3: its folder."""
    room.fossil('new', *['--sha1'] * (named == sha1), f'{name}.fossil')
    folder = room.path(name)
    os.mkdir(folder)
    room.fossil('open', f'../{name}.fossil', folder=folder)
    room.fossil('settings', 'autosync', 'off', folder=folder)
    for number in range(12):
        room.commit(folder, {'text': b'line\n' * number, f'file{number % 7}': os.urandom(200 * number), 'empty': b''}, f'change {number}')
    room.commit(folder, {'of side': b'side\n'}, 'on a\nbranch \\ with signs', '--branch', 'side', '--tag', 'one')
    room.fossil('update', 'trunk', folder=folder)
    room.commit(folder, {'big': bytes(3_000_000)}, 'on trunk')
    room.fossil('merge', 'side', folder=folder)
    room.commit(folder, {}, 'merged')
    room.commit(folder, {'more': b'more\n'}, 'closed one', '--branch', 'old', '--close')
    room.fossil('update', 'trunk', folder=folder)
    room.commit(folder, {'hidden': b'of ann\n'}, 'private one', '--private')
    room.fossil('update', 'trunk', folder=folder)
    room.fossil('tag', 'add', '--propagate', 'stable', 'trunk', '1.0 or so', folder=folder)
    room.fossil('tag', 'add', '--raw', 'raw', 'side', folder=folder)
    room.fossil('tag', 'cancel', 'stable', 'trunk', folder=folder)
    room.fossil('amend', 'side', '-m', 'said again', '--author', 'bob', folder=folder)
    for text in (b'first', b'second', b''):
        room.fossil('wiki', 'create' if text == b'first' else 'commit', 'A Page', '-', folder=folder, given=text)
    room.fossil('wiki', 'create', 'a note', '-', '--technote', '2024-01-02 03:04:05', folder=folder, given=b'text of a note')
    room.fossil('ticket', 'add', 'title', 'broken', 'status', 'Open', folder=folder)
    ticket = rows(room, f'{name}.fossil', 'SELECT tkt_uuid FROM ticket')[0][0]
    room.fossil('ticket', 'set', ticket, 'status', 'Closed', '+comment', 'it works', folder=folder)
    room.fossil('attachment', 'add', 'A Page', room.write('picture', os.urandom(5000)), folder=folder)
    room.put(folder, thread_of_posts(named))
    room.fossil('rebuild', '--cluster', f'../{name}.fossil', folder=folder)
    return folder


def small(room, *flags):
    """A project of one check-in, under names of SHA3 unless `--sha1` is said: its folder."""
    room.fossil('new', *flags, 'old.fossil')
    os.mkdir(room.path('old'))
    room.fossil('open', '../old.fossil', folder=room.path('old'))
    room.fossil('settings', 'autosync', 'off', folder=room.path('old'))
    room.commit(room.path('old'), {'text': b'text\n'}, 'first')
    return room.path('old')


def checkins(room):
    """The names of the check-ins of a project, the oldest first."""
    found = moving.rows_of(room.path('old.fossil'), "SELECT uuid FROM event JOIN blob ON rid = objid WHERE type = 'ci' ORDER BY mtime")
    return [name for name, in found]


def cards(letter, rows):
    """Cards of one letter."""
    return ''.join(f'{letter} {row}\n' for row in rows)


def control(tags, date='2024-05-06T07:08:09'):
    """A control artifact of T cards."""
    return sealed(f'D {date}\n{cards("T", tags)}U ann\n'.encode())


def checkin(parents, comment='C one\n', date='2027-05-06T07:08:09', file='', more='', user='U ann\n'):
    """A check-in of one file or none."""
    return sealed(f'{comment}D {date}\n{file}P {parents}\n{more}{user}'.encode())
