"""The tests of the parts of `up` that need neither the program nor Fossil: children, users, rights, and lists of shunned names."""
import os
import sqlite3
import stat
import subprocess
import sys
import threading
import time
from types import SimpleNamespace

from playing import PROJECT, SECONDS
from teams import wait_until
import children
import disk
import doing
import people
import shuns
import taking_over
import users
import web

# a server of a child: its port and a word that says how it behaves from the second request on (the first one is the look at it)
SERVER = '''
import http.server, os, sys, time
class Answers(http.server.BaseHTTPRequestHandler):
    count = 0
    def do_POST(self):
        Answers.count += 1
        self.rfile.read(int(self.headers['Content-Length']))
        first, how, flag = Answers.count > 1 and not os.path.exists(sys.argv[3]), sys.argv[2], sys.argv[3]
        if first:
            open(flag, 'w').close()
        if first and how == 'ends':
            os._exit(9)
        if first and how == 'resets':
            self.connection.close()
            return
        if first and how == 'slow':
            time.sleep(1)
        self.send_response(500 if first and how == '500' else 200)
        self.send_header('Content-Length', '2')
        self.end_headers()
        self.wfile.write(b'ok')
    def log_message(self, *_):
        pass
http.server.HTTPServer(('127.0.0.1', int(sys.argv[1])), Answers).serve_forever()
'''


def started(room, how):
    """A child that behaves so once, and answers else."""
    flag, script = room.path(f'flag-{how}'), room.write('server.py', SERVER.encode())
    child = children.Child(how, lambda port: [sys.executable, script, str(port), how, flag], children.repository_answers)
    child.begin()
    assert child.wait_open(SECONDS), child.why
    return child


def children_come_back(room):
    """A request is answered though the child ends, resets the connection, answers 500, or is slow; and one that comes while it is away waits."""
    for how in ('ends', 'resets', '500', 'slow'):
        child = started(room, how)
        try:
            assert child.asked([b'a', b'b']) == b'ok', how
            assert child.asked([b'again']) == b'ok', how
            # one that is killed is started again, and the request that comes meanwhile waits
            child.process.kill()
            child.process.wait()
            assert child.asked([b'behind a kill']) == b'ok', how
            assert child.starts >= 2, how
        finally:
            child.stop()
        assert child.process.poll() is not None, how


def jobs_while_away(room):
    """A job is done while the child is away, requests that come wait, and what the job raises comes back."""
    child = started(room, 'job')
    try:
        before, seen = child.process.pid, []

        def job():
            seen.append((child.is_open, child.process.poll() is not None))
            waiting.start()
            time.sleep(0.3)
            seen.append(len(answers))
            return 'done'

        answers = []
        waiting = threading.Thread(target=lambda: answers.append(child.asked([b'x'])))
        assert child.away_for(job) == 'done' and seen == [(False, True), 0], seen
        waiting.join(SECONDS)
        assert answers == [b'ok'] and child.process.pid != before
        try:
            child.away_for(lambda: [].pop())
            raise AssertionError('nothing was raised')
        except IndexError:
            assert child.asked([b'x']) == b'ok'
    finally:
        child.stop()


def children_that_fail(room):
    """A child that ends at once says why; the pause gets longer; a request is told after its time, and no sooner."""
    for status, word, is_lasting in ((2, 'no repository', True), (4, 'another process has it', False)):
        child = children.Child('bad', lambda port, status=status: ['sh', '-c', f'exit {status}'], children.repository_answers)
        child.begin()
        try:
            wait_until(lambda child=child: child.starts >= 3, child.why)
            assert word in child.why and child.is_lasting == is_lasting and child.pause > children.SHORTEST, child.why
            # (one that is away for long isn't waited for as long as one that just went)
            assert children.BRIEF <= child.patience() < children.HOLD
            child.away_since -= 100
            assert child.patience() == children.BRIEF
            begin = time.monotonic()
            try:
                child.asked_once([b'x'], begin + 0.5)
                raise AssertionError('it was answered')
            except web.NoServer as fault:
                assert word in str(fault) and fault.status == 503 and time.monotonic() - begin >= 0.4
        finally:
            child.stop()


def users_files_change_whole(room):
    """Users are put in, changed and taken out; comments and lines of others stay; what is wrong changes nothing; the file is its owner's alone."""
    path = room.write('users', b'# a comment\nnobody og -\n\nann oig aa # 4 words\n')
    try:
        people.change(path, lambda lines: lines + [b'bob o bb'])
        raise AssertionError('a bad file was changed')
    except users.UsersFault as fault:
        assert f'users file {path}, line 4' in str(fault) and '6 words' in str(fault), fault
    room.write('users', b'# a comment\nnobody og -\n\nann oig aa\n')
    people.change(path, lambda lines: people.with_user(lines, 'bob', 'o', 'bb'))
    people.change(path, lambda lines: people.with_user(lines, 'ann', '-', 'cc'))
    with open(path, 'rb') as file:
        assert file.read() == b'# a comment\nnobody og -\n\nann - cc\nbob o bb\n'
    assert stat.S_IMODE(os.stat(path).st_mode) == 0o600 and os.listdir(room.path()) == ['users']
    assert people.remove(path, 'ann') == 'ann is out' and list(users.users_of(path)) == [b'nobody', b'bob']
    for name in ('ann', 'web', ''):
        try:
            people.remove(path, name)
            raise AssertionError(name)
        except people.Wrong:
            pass
    room.write('users', b'ann o a\nbob o b\nann o c\n')
    try:
        users.users_of(path)
    except users.UsersFault as fault:
        assert 'user ann stands twice (lines 1 and 3)' in str(fault), fault


def killed_while_it_writes(room):
    """A process that is killed while it changes the users file leaves the old one or the new one, whole."""
    path = room.write('users', b'ann o a\n')
    script = ('import sys; sys.path[:0] = [sys.argv[2]]; import people\n'
              'for number in range(100000):\n'
              '    people.change(sys.argv[1], lambda lines: people.with_user(lines, "bob", "o" * (number % 60 + 1), "s" * 40))')
    for wait in (0.3, 0.4, 0.5, 0.6):
        process = subprocess.Popen([sys.executable, '-c', script, path, os.path.dirname(people.__file__)])
        time.sleep(wait)
        process.kill()
        process.wait()
        assert users.users_of(path)[b'ann'] == users.User(b'o', b'a')


def letters_on_the_pages(room):
    """What the letters of the users file are on the pages: ours bring Fossil's, any other is Fossil's own, and - is none."""
    assert people.on_pages('o') == '2hjoprz' and people.on_pages('-') == '' and people.on_pages('x') == ''
    assert set(people.on_pages('oigx')) == set('ojprhz2bcefiklmnw34g') and 'w' in people.on_pages('ogw') and 'i' not in people.on_pages('ogw')
    known = users.users_in(b'ann oigxa 1\nbob oig 2\ncarl dei 3\neve - 4\nsue ois 5\n')
    lines = people.warnings(known, True)
    assert len(lines) == 3 and "the letters 'a' of ann count on the pages alone" in lines[0] and "'de' of carl" in lines[1], lines
    assert 's is a shell' in lines[2] and 'shell' not in lines[0]


def secret_of(user, password='pw'):
    return users.secret_of(PROJECT, user, password)


def users_of_fossil_come(room):
    """Users of a repository of Fossil come with their letters and passwords, plain ones too; who has no rights or no password stays out."""
    old, path = room.path('old.fossil'), room.write('users', b'# mine\n')
    with sqlite3.connect(old) as base:
        base.execute('CREATE TABLE config(name, value)')
        base.execute('CREATE TABLE user(login, pw, cap)')
        base.execute("INSERT INTO config VALUES ('project-code', ?)", (PROJECT,))
        rows = [('boss', secret_of('boss'), 's'), ('ann', secret_of('ann'), 'v'), ('bob', 'plain', 'u'), ('gast', secret_of('gast'), ''),
                ('nopw', '', 'oi'), ('nobody', '', 'go'), ('anonymous', 'x', 'hmn'), ('developer', '', 'eiojx'), ('reader', '', 'kptw'),
                ('no name', 'x', 'oi'), ('lines', 'x', 'o\n x'), ('number', 'x', 5), ('bytes', b'x', 'oi')]
        base.executemany('INSERT INTO user VALUES (?, ?, ?)', rows)
    base.close()
    said = taking_over.taken_over(path, PROJECT, old)
    known = users.users_of(path)
    assert set(known) == {b'boss', b'ann', b'bob', b'nobody'}, known
    assert known[b'boss'].letters == b'oigxa' and 'a in the place of s' in said and known[b'boss'].secret == secret_of('boss').encode()
    assert known[b'ann'].letters.startswith(b'oix') and known[b'bob'].letters[:1] not in b'oigx'
    assert known[b'bob'].secret == secret_of('bob', 'plain').encode()
    assert known[b'nobody'] == users.User(b'og', b'-') and 'no password' in said and "'no name' is left out" in said, said
    assert "'lines' is left out: its rights aren't letters" in said and said.count('is left out: its row is no text') == 2, said
    # the passwords of another project are of no use
    assert 'another project' in taking_over.taken_over(path, '3' * 40, old)
    for wrong in (room.write('text', b'text' * 100), room.path('missing')):
        try:
            taking_over.taken_over(path, PROJECT, wrong)
            raise AssertionError(wrong)
        except people.Wrong as fault:
            assert 'no repository of Fossil 2' in str(fault), fault


def commands_beside_or_away(room):
    """A command that reads runs beside the server where the program lets it, and else while the server is away, as every command that writes does."""
    fake = room.write('program', b'#!/bin/sh\n[ -e "$(dirname "$0")/held" ] && exit 4\nshift\necho "$@"\n')
    os.chmod(fake, 0o700)
    before, os.environ['FOSSIL_PROGRAM'] = os.environ.get('FOSSIL_PROGRAM'), fake
    try:
        for is_held, words, is_away in (
            (True, ['timeline', '9'], True), (True, ['put'], True), (False, ['put'], True), (False, ['timeline', '9'], False),
        ):
            room.write('held', b'') if is_held else os.path.exists(room.path('held')) and os.unlink(room.path('held'))
            away = []

            def away_for(job):
                away.append(1)
                if is_held:
                    os.unlink(room.path('held'))
                return job()

            with open(os.devnull) as given, open(room.path('out'), 'w') as out:
                told = SimpleNamespace(words=[room.path(), *words], streams=[given.fileno(), out.fileno(), out.fileno()])
                assert doing.Doing('r.fossil', away_for).do(doing.Command(told)) == 0 and bool(away) == is_away, (is_held, words)
            with open(room.path('out')) as out:
                assert out.read() == ' '.join(words) + '\n'
        for words in ([], ['serve'], ['-x']):
            try:
                doing.Command(SimpleNamespace(words=[room.path(), *words], streams=[0, 1, 2]))
                raise AssertionError(words)
            except people.Wrong:
                pass
    finally:
        os.environ.pop('FOSSIL_PROGRAM') if before is None else os.environ.update(FOSSIL_PROGRAM=before)


def record_of(kind, name):
    return kind + bytes.fromhex(name)


def group_of(*records):
    body = b''.join(records)
    return b'O' + len(body).to_bytes(8, 'big') + body


def shunned_names(room):
    """The shunned names of a file are those of its open groups; what is added is read on; another file under its name is read anew."""
    one, two, three = 'a' * 40, 'b' * 40, 'c' * 40
    config = b'C' + bytes(40) + (2).to_bytes(2, 'big') + b'\x05title\x06status'
    blob = lambda name, content: b'R\0' + bytes.fromhex(name) + bytes(8) + (3).to_bytes(4, 'big') + b'ann' + len(content).to_bytes(8, 'big') + content
    old = b'B\1' + bytes.fromhex(two) + (4).to_bytes(8, 'big') + b'SSSS'
    blobs = group_of(blob(one, b'S' * 50), old, record_of(b'P', two))
    text = b'fossil-blobs-2\n' + group_of(config) + blobs + group_of(record_of(b'S', one), record_of(b'S', two))
    path = room.write('r.fossil', text + b'C')
    found = shuns.Shuns(path)
    assert found.names() == {one, two} and shuns.project_of(path) == '0' * 40
    room.write('r.fossil', text + group_of(record_of(b'U', two), record_of(b'S', three)) + b'C')
    assert found.names() == {one, three}
    # behind a closed gate nothing is read
    room.write('r.fossil', text + b'C' + group_of(record_of(b'S', three))[1:])
    other = shuns.Shuns(path)
    assert other.names() == {one, two}
    os.replace(room.write('other', b'fossil-blobs-2\n' + group_of(config) + b'C'), path)
    assert found.names() == set() and other.names() == set()
    for wrong in (b'', b'text', b'SQLite format 3\0' * 4, b'fossil-blobs-2\nC' + bytes(40)):
        try:
            shuns.project_of(room.write('wrong', wrong))
            raise AssertionError(wrong)
        except shuns.NoRepository as fault:
            assert 'is no repository' in str(fault)


def rooms_of_disks(room):
    """How much room there is, in words that say what it means."""
    found = disk.Disk(room.path('r.fossil'))
    for free, word, why in (
        (0, 'full, 0 bytes free at ', 'the disk is full (0 bytes free)'), (40 << 20, '40 MiB free at ', 'the disk is nearly full (40 MiB free)'),
        (900 << 20, '900 MiB free at ', 'other'),
    ):
        found.free = lambda free=free: free
        assert found.status().startswith(word) and found.why('other', True) == why and ('soon full' in found.status()) == (free == 40 << 20)
        assert found.why('other', False) == ('other' if free else why)


OF_PARTS = [children_come_back, jobs_while_away, children_that_fail, users_files_change_whole, killed_while_it_writes, letters_on_the_pages,
            users_of_fossil_come, commands_beside_or_away, shunned_names, rooms_of_disks]
