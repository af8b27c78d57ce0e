"""The tests of `up` that need the program, and no Fossil: its words, its ends, users and commands while it serves, and what goes wrong."""
import contextlib
import os
import re
import shutil
import signal
import socket
import ssl
import stat
import subprocess
import threading
import time
import urllib.request
import zlib

from messages import FIRST, PUSH, delta_card, delta_of, file_card
from playing import PACKED, PROJECT, SECONDS, SERVER, LeftOut, asked, exchanged, held, logged_in, packed, posted, secret, sha1
from teams import UP, in_team, kill, processes_of, wait_until
import door
import web

PULL = f'pull {SERVER} {PROJECT}\n'.encode()


def new_and_words(room):
    """`up new` makes a repository that has a check-in and a folder that is its owner's alone; each wrong word is said in one line."""
    said = room.up('new', 'n.fossil', 'folder')
    project = re.match(r'project ([0-9a-f]{40})\n', said)[1]
    assert 'now: up user folder add NAME oig; up n.fossil folder' in said
    for name, mode in (('n.fossil', 0o600), ('folder', 0o700), ('folder/users', 0o600)):
        assert stat.S_IMODE(os.stat(room.path(name)).st_mode) == mode, name
    assert b'initial\\sempty\\scheck-in' in room.run(room.path('n.fossil'), 'timeline', '5') and room.run(room.path('n.fossil'), 'tip', 'trunk')
    room.up('user', 'folder', 'add', 'ann', 'oigx', given=b'pass word\n')
    with open(room.path('folder', 'users')) as file:
        assert f'ann oigx {secret("ann", "pass word", project)}\n' in file.read()
    assert room.up('user', 'folder', 'list').splitlines()[0].startswith('web oig')
    room.write('text', b'no repository')
    room.make()
    for word, status, words in (
        ('is there already', 1, ['new', 'n.fossil', 'other']), ('folder of a project already', 1, ['new', 'x.fossil', 'folder']),
        ('no command', 1, []), ('no command', 1, ['new']), ('no command', 1, ['status']), ('no option', 1, ['r.fossil', 'team', '--wbe']),
        ('is no PORT', 1, ['r.fossil', 'team', '--listen', 'x']), ('needs 2 words', 1, ['r.fossil', 'team', '--tls', 'x']),
        ('from 1 to 16', 1, ['r.fossil', 'team', '--workers', '17']), ('is for --web', 1, ['r.fossil', 'team', '--web-user', 'x']),
        ('missing: No such file', 1, ['missing', 'team']), ('is no repository', 1, ['text', 'team']),
        ('of another project', 1, ['r.fossil', 'folder']), ('is no folder of up', 1, ['user', 'missing', 'list']),
        ('is a name that', 1, ['user', 'folder', 'add', 'web', 'o']), ('no name of a user', 1, ['user', 'folder', 'add', 'a b', 'o']),
        ("aren't letters", 1, ['user', 'folder', 'add', 'ann', 'o,i']), ('no password', 1, ['user', 'folder', 'add', 'ann', 'oi']),
        ('no user who', 1, ['user', 'folder', 'remove', 'who']), ('no repository of Fossil 2', 1, ['user', 'folder', 'import', 'missing']),
        ('nothing runs', 2, ['status', 'folder']), ('nothing runs', 2, ['reload', 'folder']), ('nothing runs', 2, ['do', 'folder', 'leaves']),
    ):
        said = room.up(*words, status=status)
        assert word.lower() in said.lower() and said.startswith('up: ') and said.count('\n') == 1, (words, said)
    assert room.up('help').startswith('Runs all of a team')


def starts_and_ends(room):
    """It says one line on standard output when it answers; TERM, INT and HUP end it at once with their statuses; nothing is left running."""
    room.make()
    for sign, status in ((signal.SIGTERM, 0), (signal.SIGINT, 130), (signal.SIGHUP, 129)):
        port, process = room.begin()
        assert process.lines().count(f'up: http://127.0.0.1:{port}/ answers (') == 1
        assert asked(port, logged_in('ann', 'pw', PULL)) == b'igot ' + sha1(FIRST).encode() + b'\n'
        assert re.search(r'server: answers in .* started 1 time\nusers: 5; .*\ndisk: ', room.up('status', 'team'))
        process.process.send_signal(sign)
        assert process.process.wait(SECONDS) == status
        assert not processes_of(room.path()) and 'Traceback' not in process.lines(), process.lines()


def killed_itself(room):
    """Where `up` is killed, the program ends with it, and the next start goes on."""
    if not shutil.which('setpriv'):
        raise LeftOut('there is no setpriv of util-linux')
    room.make()
    for _ in range(2):
        port, process = room.begin()
        asked(port, logged_in('ann', 'pw', PUSH + file_card(b'abc')))
        process.process.kill()
        process.process.wait()
        wait_until(lambda: not processes_of(room.path()), 'the program lives on')
    port, process = room.begin()
    assert sha1(b'abc') in held(port, 'ann', 'pw')


def bad_starts(room):
    """What can't be right at a start is said in one line, and nothing is left running."""
    room.make()
    port, _ = room.begin()
    users = room.path('team', 'users')
    with open(users) as file:
        good = file.read()
    shutil.copy(room.repository(), room.path('second.fossil'))
    room.run(room.path('other.fossil'), 'init', '3' * 40, SERVER)
    room.write('cert.pem', b'no certificate')

    def start(*words):
        said = room.up(*words, status=1)
        # (the program says more on the lines in front)
        assert 'Traceback' not in said, said
        return said.splitlines()[-1]

    assert 'another up runs with' in start('r.fossil', 'team', '--listen', '0')
    assert 'folder of another project' in start('other.fossil', 'team', '--listen', '0')
    assert f'nothing can listen at 127.0.0.1:{port}: another program listens there' in start('second.fossil', 'two', '--listen', str(port))
    assert 'no such address' in start('second.fossil', 'two', '--listen', '192.0.2.1:9999')
    assert 'are no certificate' in start('second.fossil', 'two', '--listen', '0', '--tls', 'cert.pem', 'cert.pem')
    assert "can't be read" in start('second.fossil', 'two', '--listen', '0', '--tls', 'missing', 'cert.pem')
    (one, _), (_, another) = room.certificate('one'), room.certificate('another')
    assert 'the key belongs to another certificate' in start('second.fossil', 'two', '--listen', '0', '--tls', one, another)
    room.write('two/users', good.encode() + b'one two three four\n')
    said = start('second.fossil', 'two', '--listen', '0')
    assert re.search('users file .*two/users, line .*: a line is USER LETTERS SECRET, and this one has 4 words', said), said
    os.unlink(room.path('two', 'users'))
    # (the file of the first one, which is held)
    assert 'another process has it' in start('r.fossil', 'three', '--listen', '0')
    assert len([words for words in processes_of(room.path()).values() if 'serve' in words and words[0] != 'setpriv']) == 1


def server_killed(room):
    """The program is killed again and again amid pushes: each is answered, and all of it is there."""
    room.make()
    port, process = room.begin()
    texts, faults, is_over = [os.urandom(200_000) for _ in range(40)], [], threading.Event()

    def push():
        try:
            for text in texts:
                reply = asked(port, logged_in('ann', 'pw', PUSH + file_card(text)))
                assert reply == b'', reply
        except BaseException as fault:
            faults.append(fault)
        finally:
            is_over.set()

    pusher = threading.Thread(target=push)
    pusher.start()
    for _ in range(4):
        number = room.child('serve')
        with contextlib.suppress(ProcessLookupError):
            kill(number)
        wait_until(lambda number=number: number not in processes_of(room.path()), 'it lives on')
        is_over.wait(0.4)
    pusher.join(SECONDS)
    assert not faults, faults
    assert held(port, 'ann', 'pw').keys() == {sha1(text) for text in texts} | {sha1(FIRST)}
    assert 'started again' in process.lines()


def users_under_clients(room):
    """Users come and go while five clients push: no push is lost, and each change holds from its end on."""
    room.make()
    port, process = room.begin()
    pushed, faults, is_over = [], [], threading.Event()

    def push(number):
        try:
            while not is_over.is_set():
                text = os.urandom(500)
                reply = asked(port, logged_in('ann', 'pw', PUSH + file_card(text)))
                assert reply == b'', reply
                pushed.append(sha1(text))
                time.sleep(0.1)
        except BaseException as fault:
            faults.append(fault)

    threads = [threading.Thread(target=push, args=(number,)) for number in range(5)]
    for thread in threads:
        thread.start()
    login = lambda password: asked(port, logged_in('new', password, PULL)).startswith(b'igot')
    for number in range(3):
        said = room.up('user', 'team', 'add', 'new', 'o', given=b'pw%d\n' % number)
        assert 'users hold; requests waited' in said and login(f'pw{number}') and not login(f'pw{number - 1}'), said
    room.up('user', 'team', 'remove', 'new')
    assert not login('pw2')
    is_over.set()
    for thread in threads:
        thread.join(SECONDS)
    assert not faults, faults
    assert pushed and {*pushed} <= held(port, 'ann', 'pw').keys() and process.process.poll() is None


def asked_by_tls(port, message, certificate):
    """The message that comes back for a message through TLS."""
    context = ssl.create_default_context(cafile=certificate)
    request = urllib.request.Request(f'https://127.0.0.1:{port}/', packed(message), {'Content-Type': PACKED})
    with urllib.request.urlopen(request, timeout=SECONDS, context=context) as reply:
        return zlib.decompress(reply.read()[4:])


def reloads_that_fail(room):
    """A bad users file or certificate at a reload changes nothing: all goes on as before, and the line says why."""
    room.make()
    certificate, key = room.certificate()
    port, process = room.begin('--tls', certificate, key)
    path = room.path('team', 'users')
    with open(path) as file:
        good = file.read()
    with open(path, 'a') as file:
        file.write('bad line\n')
    said = room.up('reload', 'team', status=1)
    assert re.match('nothing is changed: users file .*, line 6: a line is USER LETTERS SECRET, and this one has 2 words', said), said
    # (a start of the program does no harm meanwhile)
    kill(room.child('serve'))
    assert asked_by_tls(port, logged_in('ann', 'pw', PULL), certificate).startswith(b'igot')
    said = room.up('user', 'team', 'add', 'x', 'o', given=b'pw\n', status=1)
    assert 'line 6' in said, said
    with open(path, 'w') as file:
        file.write(good)
    shutil.copy(certificate, room.path('kept'))
    room.write('cert.pem', b'text')
    assert 'nothing is changed: ' in room.up('reload', 'team', status=1)
    # another certificate holds from the reload on
    other, other_key = room.certificate('other')
    shutil.copy(other, certificate)
    assert 'nothing is changed: ' in room.up('reload', 'team', status=1), 'a key that does not fit was taken'
    shutil.copy(other_key, key)
    assert 'users hold' in room.up('reload', 'team')
    seen = subprocess.run(['openssl', 's_client', '-connect', f'127.0.0.1:{port}', '-CAfile', other, '-verify_return_error'], input=b'',
                          capture_output=True, timeout=SECONDS)
    assert b'Verify return code: 0 (ok)' in seen.stdout, seen.stdout[-500:]
    assert process.process.poll() is None and 'users: 5' in room.up('status', 'team')


def commands_while_it_serves(room):
    """`up do` hands bytes through as they are, ends with the status of the command, and requests that come meanwhile wait."""
    room.make()
    port, _ = room.begin()
    content = bytes(range(256)) * 40
    assert 'refused' not in room.up('do', 'team', 'put', given=file_card(content))
    done = subprocess.run([UP, 'do', 'team', 'cat', sha1(content)], capture_output=True, timeout=SECONDS, cwd=room.path(), env=room.environment())
    assert done.returncode == 0 and done.stdout == content and done.stderr == b'', done
    assert held(port, 'ann', 'pw')[sha1(content)] == (False, content)
    assert 'no artifact' in room.up('do', 'team', 'cat', 'f' * 40, status=3) and room.up('do', 'team', 'nonsense', status=1)
    for word in ('serve', 'init', '--help'):
        assert 'is no command for the repository' in room.up('do', 'team', word, status=1)
    replies, is_over = [], threading.Event()

    def look():
        while not is_over.is_set():
            replies.append(asked(port, logged_in('ann', 'pw', PULL)))

    thread = threading.Thread(target=look)
    thread.start()
    for _ in range(3):
        assert 'initial\\sempty\\scheck-in' in room.up('do', 'team', 'timeline', '20')
    is_over.set()
    thread.join(SECONDS)
    assert replies and all(reply.startswith(b'igot') for reply in replies), replies
    # files are those of the folder where it is typed
    os.mkdir(room.path('place'))
    room.up('do', room.path('team'), 'scrub', 'clean.fossil', folder=room.path('place'))
    assert os.path.exists(room.path('place', 'clean.fossil')) and room.run(room.path('place', 'clean.fossil'), 'cat', sha1(content)) == content


def shuns_and_bases(room):
    """Who asks for the list of shuns and may pull gets it; a delta over what is shunned, and a file that is too large, are refused with the way
    out."""
    room.make()
    port, _ = room.begin()
    base = b'secret text\n' * 30
    asked(port, logged_in('ann', 'pw', PUSH + file_card(base)))
    wants = PULL + b'reqconfig /shun\n'
    assert b'config' not in asked(port, logged_in('ann', 'pw', wants))
    room.up('do', 'team', 'shun', sha1(base))
    row = f"1 '{sha1(base)}' scom 'shunned at the server'"
    card = f'config /shun {len(row)}\n{row}\n'.encode()
    for text in (wants, PULL + b'reqconfig /all\n'):
        assert asked(port, logged_in('ann', 'pw', text)).startswith(card), text
    assert b'config' not in asked(port, logged_in('ann', 'pw', PULL + b'reqconfig /skin\n'))
    room.up('user', 'team', 'remove', 'nobody')
    assert b'config' not in asked(port, wants)
    said = asked(port, logged_in('ann', 'pw', PUSH + delta_card(base + b'tail', base, delta_of(base, b'tail'))))
    assert b'it\\sis\\sshunned\\sthere' in said and b'fossil\\spurge\\scheckins' in said and said.count(b'\n') == 1, said
    large = b'x' * ((1 << 24) + 1)
    checkin = f'C large\nD 2024-01-02T00:00:00\nF big\\sfile.bin {sha1(large)}\n'.encode()
    before = held(port, 'ann', 'pw')
    for text, word in ((file_card(checkin) + file_card(large), b'big\\sfile.bin'), (file_card(large), b'a\\sfile\\s(' + sha1(large).encode())):
        said = asked(port, logged_in('ann', 'pw', PUSH + text))
        assert word in said and b'has\\s16,777,217\\sbytes' in said and b'at\\smost\\s16,777,216' in said and b'purge\\scheckins' in said, said
    assert held(port, 'ann', 'pw') == before
    room.up('do', 'team', 'unshun', sha1(base))
    assert b'config' not in asked(port, logged_in('ann', 'pw', wants))


def silent_connections(room):
    """A hundred connections that say nothing don't delay a request, and three hundred keep nobody out: the oldest go."""
    room.make()
    port, process = room.begin()
    silent = []
    try:
        for count in (100, 300):
            while len(silent) < count:
                silent.append(socket.create_connection(('127.0.0.1', port), timeout=SECONDS))
            assert posted(port, packed(PULL))[0] == 200
        # (that request was the 301st, so these were let go of before it)
        for link in silent[:300 - door.SILENT]:
            assert link.recv(1) == b''
    finally:
        for link in silent:
            link.close()
    assert process.process.poll() is None


def bodies_that_do_not_come(room):
    """Connections with a head and no body hold no place: a sync and a page are answered beside more of them than there are places."""
    room.make()
    port, process = room.begin()
    head = b'POST / HTTP/1.0\r\nContent-Type: application/x-fossil\r\nContent-Length: 9\r\n\r\n'
    slow = [socket.create_connection(('127.0.0.1', port), timeout=SECONDS) for _ in range(4 * door.SYNCS)]
    try:
        for link in slow:
            link.sendall(head)
        assert posted(port, packed(PULL))[0] == 200 and b'200 OK' in exchanged(port, b'GET / HTTP/1.1\r\nHost: h\r\n\r\n')
        # each is let go of once no byte came for long, and not before
        begin = time.monotonic()
        assert slow[0].recv(1) == b'' and time.monotonic() - begin < web.SECONDS - 10
        wait_until(lambda: 'broke off: timed out' in process.lines(), process.lines())
    finally:
        for link in slow:
            link.close()


def garbage_at_the_door(room):
    """What isn't a request is answered by a status or not at all, with TLS and without, and all goes on."""
    room.make()
    certificate, key = room.certificate()
    port, process = room.begin()
    kind = 'Content-Type: application/x-fossil'
    for status, sent in (
        (400, b'\0\xff\r\n\r\n'), (400, b'POST / HTTP/1.0\r\n' + kind.encode() + b'\r\nno colon\r\n\r\n'),
        (400, b'GET / HTTP/1.0\r\na: ' + b'b' * 17000 + b'\r\n\r\n'), (400, b'GET / HTTP/1.0\r\na: b\nX-Forwarded-For: 198.51.100.1\r\n\r\n'),
        (415, f'POST / HTTP/1.0\r\n{kind}-other\r\n\r\n'.encode()), (415, f'POST / HTTP/1.0\r\nContent-Type: text/html\r\n{kind}\r\n\r\n'.encode()),
        (411, f'POST / HTTP/1.0\r\n{kind}\r\n\r\n'.encode()), (200, b'GET / HTTP/1.1\r\nHost: h\r\n\r\n'),
        (404, b'GET /timeline HTTP/1.1\r\nHost: h\r\n\r\n'),
    ):
        reply = exchanged(port, sent)
        assert reply.split(b' ')[1:2] == [str(status).encode()], (sent[:80], reply[:80])
    assert b'There are no web pages here' in exchanged(port, b'GET / HTTP/1.1\r\nHost: h\r\n\r\n')
    assert asked(port, logged_in('ann', 'pw', PULL)).startswith(b'igot')
    process.end()
    port, process = room.begin('--tls', certificate, key)
    assert b'speaks TLS alone: type https://' in exchanged(port, b'GET / HTTP/1.1\r\nHost: h\r\n\r\n')
    for sent in (b'\x16\x03\x01\x00\x05hello', b'\0\0', b''):
        assert b'HTTP' not in exchanged(port, sent, is_all=True), sent
    assert room.browser(port, certificate=certificate).get('/').startswith('This is a Fossil repository')
    assert process.process.poll() is None and 'Traceback' not in process.lines()


def forwarded_and_refused(room):
    """The log names who a refused login says it is, and behind a proxy of this machine the address that it forwards."""
    room.make()
    port, process = room.begin()
    body = packed(logged_in('mallory', 'pw', PULL))
    fields = f'Content-Type: application/x-fossil\r\nX-Forwarded-For: 198.51.100.1, 203.0.113.9\r\nContent-Length: {len(body)}'
    assert b'200 OK' in exchanged(port, f'POST / HTTP/1.0\r\n{fields}\r\n\r\n'.encode() + body)
    wait_until(lambda: '203.0.113.9 by 127.0.0.1 application/x-fossil: ; refused: login failed as mallory' in process.lines(), process.lines())


def tells_systemd(room):
    """Where systemd started it, it is told when all answers, of a reload, and of the end."""
    room.make()
    with socket.socket(socket.AF_UNIX, socket.SOCK_DGRAM) as told:
        told.bind(room.path('notify'))
        told.settimeout(SECONDS)
        _, process = room.begin(NOTIFY_SOCKET=room.path('notify'))
        assert told.recv(99) == b'READY=1'
        room.up('reload', 'team')
        assert told.recv(99).startswith(b'RELOADING=1\nMONOTONIC_USEC=') and told.recv(99) == b'READY=1'
        process.end()
        assert told.recv(99) == b'STOPPING=1'


def file_away(room):
    """Where the file of the repository is away, a client reads that; it comes back by itself."""
    room.make()
    port, process = room.begin()
    os.rename(room.repository(), room.path('away'))
    kill(room.child('serve'))
    wait_until(lambda: process.lines().count('the file is away') >= 2, process.lines())
    assert 'the file is away' in room.up('status', 'team', status=1)
    os.rename(room.path('away'), room.repository())
    # (within the seconds that a request waits)
    assert asked(port, logged_in('ann', 'pw', PULL)).startswith(b'igot')
    assert room.up('status', 'team')


def full_disk(room):
    """On a full disk a push is refused with the reason, reads go on, and all heals by itself."""
    os.mkdir(room.path('small'))
    mounted = subprocess.run(['mount', '-t', 'tmpfs', '-o', 'size=6m', 'tmpfs', room.path('small')], capture_output=True)
    if mounted.returncode:
        raise LeftOut('nothing can be mounted here')
    try:
        room.repository = lambda: room.path('small', 'r.fossil')
        room.make()
        port, process = room.begin()
        with open(room.path('small', 'filler'), 'wb', buffering=0) as filler, contextlib.suppress(OSError):
            while filler.write(bytes(1 << 16)):
                pass
        text = os.urandom(100_000)
        said = asked(port, logged_in('ann', 'pw', PUSH + file_card(text)))
        assert b'the\\sdisk\\sis\\sfull\\s(' in said and b'try\\sagain\\slater' in said, said
        assert asked(port, logged_in('ann', 'pw', PULL)).startswith(b'igot')
        assert 'disk: full, ' in room.up('status', 'team', status=1)
        os.unlink(room.path('small', 'filler'))
        assert asked(port, logged_in('ann', 'pw', PUSH + file_card(text))) == b''
        assert sha1(text) in held(port, 'ann', 'pw') and 'MiB free' in room.up('status', 'team')
        lines = process.lines()
        assert lines.count(' is full; nothing is taken until there is room') == lines.count('there is room again') == 1, lines
        process.end()
    finally:
        for process in room.processes:
            process.end()
        subprocess.run(['umount', room.path('small')], check=True)


OF_UP = [in_team(test) for test in (
    new_and_words, starts_and_ends, killed_itself, bad_starts, server_killed, users_under_clients, reloads_that_fail, commands_while_it_serves,
    shuns_and_bases, silent_connections, bodies_that_do_not_come, garbage_at_the_door, forwarded_and_refused, tells_systemd, file_away, full_disk)]
