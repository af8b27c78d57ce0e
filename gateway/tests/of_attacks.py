"""The tests of `up` about what strangers, members and other users of the machine may try. Those of `OF_ATTACKS` need the real Fossil."""
import json
import os
import re
import shutil
import socket
import sys
import threading
import time
import urllib.request
from types import SimpleNamespace

from messages import PULL, PUSH, TEAM, file_card
from owner import Owner
from playing import PROJECT, SECONDS, TOP, LeftOut, asked, exchanged, held, logged_in, sha1
from teams import Browser, in_team, status_of, wait_until
import cards
import control
import doing
import making
import pages
import people
import places
import team
import users
import web

sys.path.append(os.path.join(TOP, 'tools', 'tests'))

# who may file on the pages, and can't push
MEMBERS = [*TEAM, 'carl ogncwrk pw']


def attached(browser, title, content):
    """Attaches a file to a wiki page."""
    path = f'/attachadd?page={title}'
    word = re.search(r'name="csrf" value="([^"]+)"', browser.get(path))
    fields = {'page': title, 'from': '/home', 'comment': '', 'ok': 'Add Attachment', **({'csrf': word[1]} if word else {})}
    part = '--border\r\nContent-Disposition: form-data; name="{}"{}\r\n\r\n'.format
    body = ''.join(part(name, '') + f'{value}\r\n' for name, value in fields.items()).encode()
    body += part('f', '; filename="file.bin"\r\nContent-Type: application/octet-stream').encode() + content + b'\r\n--border--\r\n'
    head = {'Referer': browser.base + path, 'Content-Type': 'multipart/form-data; boundary=border'}
    with browser.opener.open(urllib.request.Request(browser.base + path, body, head), timeout=SECONDS) as page:
        return page.read()


def rows_with(room, word):
    """The rows of our timeline with a word."""
    return [row for row in room.report('timeline', '1000').splitlines() if word in row]


def refused_uploads(room):
    """What Fossil names in another way, and what gets too large, is taken out of the mirror; what is made behind it comes into the repository."""
    from renames import COLLIDING
    room.make(MEMBERS)
    port, process = room.begin('--web')
    page = room.browser(port, 'bob')
    page.wiki('Plan', 'the plan')
    wait_until(lambda: rows_with(room, ' wiki bob '), process.lines())
    attached(page, 'Plan', COLLIDING[0])
    wait_until(lambda: process.lines().count('were taken out into') == 1, process.lines())
    named, = os.listdir(room.path('team', 'pages', 'refused'))
    assert named != sha1(COLLIDING[0])
    with open(room.path('team', 'pages', 'refused', named), 'rb') as file:
        assert file.read() == COLLIDING[0]
    # (a blank has one byte in a form, and two in an artifact)
    page.ticket('large', comment=f'a{" " * 9_000_000}b')
    wait_until(lambda: process.lines().count('were taken out into') == 2, process.lines())
    page.wiki('Goes-on', 'text')
    wait_until(lambda: rows_with(room, ' wiki bob Goes'), process.lines())
    wait_until(lambda: 'mirror: in step' in room.up('status', 'team', status=None), process.lines())
    # a list of shunned names that follows that of the repository leaves them out
    room.up('do', 'team', 'shun', sha1(b'anything'))
    assert (named,) in room.mirror('SELECT uuid FROM shun') and not room.mirror('SELECT 1 FROM blob WHERE uuid = ? AND size >= 0', named)


def syncs_past_the_gateway(room):
    """No message of a sync comes to Fossil's own server, by whatever path, type or field it is tried."""
    room.make(MEMBERS)
    port, process = room.begin('--web')
    body = b'pull %s %s\n' % (b'1' * 40, b'1' * 40)

    def tried(target, kind=b'text/plain', fields=b''):
        sent = b'POST %s HTTP/1.1\r\nHost: h\r\n%sContent-Type: %s\r\nContent-Length: %d\r\n\r\n' % (target, fields, kind, len(body)) + body
        reply = exchanged(port, sent)
        assert b'x-fossil' not in reply, (target, kind, reply)
        return reply.split(b' ')[1]

    for target in (b'/xfer', b'/xfer/foo', b'//xfer', b'/%78fer/a', b'/draft1/xfer', b'/skn_x/xfer/y', b'/xfer?a'):
        assert tried(target) == b'415', target
    assert tried(b'/xfer\tz') == b'400' and tried(b'/index', b'application/octet-stream') == b'415'
    for blanks in (b'', b' '):
        assert tried(b'/index', fields=b'X-A: ' + b'a' * 1994 + b'content-type: application/x-fossil-uncompressed%s\r\n' % blanks) == b'431'
    assert tried(b'/index?' + b'a' * 2000) == b'414'
    # a page that a browser comes from is left out where it is too long
    long = b'GET /timeline HTTP/1.1\r\nHost: h\r\nReferer: http://h/%s\r\n\r\n' % (b'a' * 2000)
    assert exchanged(port, long).split(b' ')[1] == b'200'
    page = room.browser(port, 'bob')
    page.wiki('Plan', 'the plan')
    wait_until(lambda: rows_with(room, ' wiki bob '), process.lines())
    assert status_of(page.get, '/timeline') == 200


def refused_makes_no_sync(room):
    """What is refused, of a client or on a page, makes the mirror sync as little as what isn't sent."""
    room.make(MEMBERS)
    port, process = room.begin('--web')
    wait_until(lambda: 'mirror: in step (start' in process.lines(), process.lines())
    for user in ('eve', 'bob'):
        asked(port, logged_in(user, 'pw', PUSH + file_card(b'of %s' % user.encode())))
    wait_until(lambda: 'mirror: in step (bob pushed' in process.lines(), process.lines())
    stranger, syncs = Browser(f'http://127.0.0.1:{port}'), lambda: process.lines().count('mirror: in step (')
    # (the first page of all writes something of Fossil's own)
    assert status_of(stranger.wiki, 'Page', 'of a stranger') == 403
    time.sleep(2)
    before = syncs()
    for _ in range(3):
        assert status_of(stranger.wiki, 'Page', 'of a stranger') == 403
    time.sleep(2)
    assert syncs() == before and 'eve pushed' not in process.lines(), process.lines()
    room.browser(port, 'bob').wiki('Page', 'of bob')
    wait_until(lambda: rows_with(room, ' wiki bob Page'), process.lines())


def login_of_the_mirror(room):
    """The mirror's own door takes nothing without the mirror's login, and no process has that in its words."""
    words = room.path('words')
    script = room.write('recorded', f'#!/bin/sh\necho "$@" >> {words}\nexec {shutil.which("fossil")} "$@"\n'.encode())
    os.chmod(script, 0o700)
    room.make(['nobody oig -', *MEMBERS[1:]])
    port, process = room.begin('--web', FOSSIL_CLIENT=script)
    wait_until(lambda: 'mirror: in step' in process.lines(), process.lines())
    with open(words) as file:
        said = file.read()
    assert 'clone --args -\n' in said and 'sync -R ' in said and 'http' not in said and 'w-' not in said, said
    (address,), = room.mirror("SELECT value FROM config WHERE name = 'last-sync-url'")
    inner, text = int(address.rpartition(':')[2].strip('/')), b'from a stranger'
    for message in (PULL, PUSH + file_card(text), PUSH + b'private\n' + file_card(text), PULL + b'reqconfig /shun\n'):
        reply = asked(inner, message)
        assert reply.startswith(b'error ') and reply.count(b'\n') == 1, (message, reply)
    assert asked(inner, b'clone 3 1\n').endswith(b'error not\\sauthorized\\sto\\sclone\n')
    assert asked(inner, logged_in('ann', 'pw', PULL)) == b'error login\\sfailed\n'
    # (where everybody may push, the outer door takes it)
    assert asked(port, PUSH + file_card(text)) == b'' and sha1(text) in held(room.server_port(process), 'ann', 'pw')


OF_ATTACKS = [in_team(test) for test in (refused_uploads, syncs_past_the_gateway, refused_makes_no_sync, login_of_the_mirror)]

# ---- what needs no Fossil


def raised(kind, call, *words):
    """The text of what a call raises."""
    try:
        call(*words)
    except kind as fault:
        return str(fault)
    raise AssertionError((call, words))


def users_in_bytes(room):
    """A line of the users file ends at a line feed alone, and a word at a blank: bytes that other readers take for either stay as they are."""
    lines = b'# Mist\xe4\xc2\x85 x\nnobody og -\n\xc3\x85sa oig aa\n\xc3\xa0 o bb\na\xa0b o cc\n'
    path = room.write('users', lines)
    people.change(path, lambda lines: people.with_user(lines, 'bob', 'o', 'dd'))
    with open(path, 'rb') as file:
        assert file.read() == lines + b'bob o dd\n'
    assert people.remove(path, '\u00c5sa') and set(users.users_of(path)) == {b'nobody', b'\xc3\xa0', b'a\xa0b', b'bob'}
    people.change(room.write('empty', b''), lambda lines: people.with_user(lines, 'bob', 'o', 'dd'))
    with open(room.path('empty'), 'rb') as file:
        assert file.read() == b'bob o dd\n'
    # a change that couldn't be read isn't made
    with open(path, 'rb') as file:
        before = file.read()
    for wrong in ([b'one two'], [b'bob o again'], [b'x' * users.LONGEST_FILE + b' o x']):
        assert 'nothing is changed' in raised(people.Wrong, people.change, path, lambda lines, wrong=wrong: lines + wrong), wrong
    with open(path, 'rb') as file:
        assert file.read() == before
    # a password that is changed on the page comes into the line of a name beyond ASCII
    team_like = SimpleNamespace(users_file=path, reload=lambda: (0, 'reloaded'))
    team.Team.take_passwords(team_like, {'\u00e0': 'f' * 40, 'web': 'e' * 40})
    assert users.users_of(path)[b'\xc3\xa0'] == users.User(b'o', b'f' * 40)


def kept_names(room):
    """Names that Fossil or the mirror needs are refused at the first start, at later ones, and at a reload; so is a folder of another user."""
    path = room.write('team/users', b'web o aa\n')
    assert 'has a user web already' in raised(people.Wrong, making.make_folder, room.path('team'), PROJECT)
    for name in ('anonymous', 'reader', 'developer'):
        room.write('team/users', f'{name} o aa\n'.encode())
        assert f'has a user {name}, which' in raised(people.Wrong, making.make_folder, room.path('team'), PROJECT)
    room.write('team/users', b'ann o aa\n')
    making.make_folder(room.path('team'), PROJECT)
    good = users.users_of(path)
    assert set(good) == {b'ann', b'web'}
    people.hold_to_names(good, path, good)
    web = good[b'web']
    for wrong in ({**good, b'web': users.User(b'oigx', web.secret)}, {**good, b'web': users.User(b'oig', b'other')}, {b'ann': good[b'ann']},
                  {**good, b'reader': web}):
        assert path in raised(people.Wrong, people.hold_to_names, wrong, path, good)
    if os.geteuid() == 0:
        os.chown(room.path('team'), 65534, 65534)
        assert 'belongs to' in raised(people.Wrong, making.make_folder, room.path('team'), PROJECT)


def files_given_away(room):
    """What is given to the user of the pages is what is in the folder, and nothing to which a link in it leads."""
    if os.geteuid() != 0 or not shutil.which('setpriv'):
        raise LeftOut('this user may give nothing away')
    os.chmod(room.path(), 0o755)
    mine, deep = room.write('mine', b'mine'), room.write('pages/a/b/c', b'deep')
    os.link(mine, room.path('pages', 'a', 'hard'))
    os.symlink(mine, room.path('pages', 'a', 'soft'))
    os.symlink(room.path(), room.path('pages', 'a', 'folder'))
    nobody = Owner('nobody')
    nobody.take(room.path('pages'))
    assert os.stat(mine).st_uid == os.stat(room.path()).st_uid == 0
    for path in (deep, os.path.dirname(deep), room.path('pages')):
        assert os.stat(path).st_uid == nobody.user, path
    assert os.lstat(room.path('pages', 'a', 'soft')).st_uid == nobody.user


def control_that_breaks(room):
    """Who goes away amid its words, or says none, leaves neither a thread nor a stream behind; the socket has no long path and no current folder."""
    os.makedirs(room.path('d' * 120, 'team'))
    folder = room.path('d' * 120, 'team')
    door = control.listen(folder, lambda told: (0, f'{told.word} {len(told.streams)}'))
    try:
        count = lambda: (threading.active_count(), len(os.listdir('/proc/self/fd')))
        before = count()
        assert control.tell(folder, ['word']) == (0, 'word 3')
        for text in (b'["half', b'5\n', b'[]\n', b'no words\n', b'[1]\n'):
            with socket.socket(socket.AF_UNIX) as link, control.place_of(folder) as place:
                link.connect(place)
                socket.send_fds(link, [text], [0, 1, 2])
                link.shutdown(socket.SHUT_WR)
                assert json.loads(link.recv(9999))[0] == 1, text
        wait_until(lambda: all(now <= then for now, then in zip(count(), before)), (before, count()))
        here = os.getcwd()
        assert control.tell(folder, ['again']) and os.getcwd() == here
    finally:
        door.shutdown(socket.SHUT_RDWR)
        door.close()


def edits_wait_for_their_turn(_room):
    """An edit that doesn't get its turn is refused, and not made beside what has it."""
    answers, sent = [], []
    held = SimpleNamespace(turn=threading.Lock(), keep_policy=lambda: sent.append('kept'), watched=lambda because: sent.append('watched'))
    child = SimpleNamespace(wait_open=lambda seconds: True, port=1, wake=threading.Event())
    page = pages.Pages(child, held, places.Bytes(), False)
    link = SimpleNamespace(again=lambda: None, send=answers.append)
    before, pages.TURN = pages.TURN, 0.1
    try:
        with held.turn:
            status = page.answered(link, pages.Request('POST', '/tktnew', {}, b'', '127.0.0.1'))
    finally:
        pages.TURN = before
    assert status.startswith('503 (no turn') and answers[0].startswith(b'HTTP/1.1 503 ') and not sent, (status, answers, sent)
    assert not held.turn.locked()


def places_and_bytes(_room):
    """A place is for one at a time; bytes are shared, the first ones of each request uncounted, and all come back."""
    link, found = SimpleNamespace(end=0.0, on_heard=lambda: found.append('heard')), []
    two = places.Places(2)
    with two.one(link), two.one(link):
        thread = threading.Thread(target=lambda: two.one(link).__enter__() and None or found.append('place'))
        thread.start()
        thread.join(0.3)
        assert found == ['heard'] * 3 and thread.is_alive()
    thread.join(SECONDS)
    assert found[-1] == 'place' and link.end > 0.2
    before, places.WAIT_FOR_BYTES = places.WAIT_FOR_BYTES, 0.1
    try:
        memory = places.Bytes(100)
        with places.Share(memory) as one, places.Share(memory) as other:
            one.take(places.UNCOUNTED)
            assert memory.free == 100
            one.take(60)
            other.take(places.UNCOUNTED + 30)
            assert memory.free == 10
            assert raised(web.Fault, one.take, 11) == '503' and memory.free == 10
            one.take(10)
        assert memory.free == 100
    finally:
        places.WAIT_FOR_BYTES = before


def private_files_apart(_room):
    """What a member made on a page and is private doesn't go on as what isn't."""
    text = PUSH + file_card(b'one') + b'private\n' + file_card(b'two') + file_card(b'three')
    both = [cards.files_of(text, is_all) for is_all in (True, False)]
    assert [set(files.values()) for files in both] == [{b'one', b'two', b'three'}, {b'one', b'three'}], both


def commands_as_written(_room):
    """What writes and what is refused are as the page of the commands says of their files."""
    found = {}
    with open(os.path.join(TOP, 'docs', 'commands')) as page:
        for row in page.read().split('\n\n'):
            keys = dict(line.split(': ', 1) for line in row.splitlines() if ': ' in line and not line.startswith('#'))
            if 'command' in keys:
                found[keys['command'].split()[0]] = keys.get('file')
    assert doing.WRITING == {name for name, file in found.items() if file == 'writes'} - {'serve', 'push'}, found
    assert doing.REFUSED == {name for name, file in found.items() if file in ('makes', None)} | {'serve'}, found


OF_TRIED = [edits_wait_for_their_turn, users_in_bytes, kept_names, files_given_away, control_that_breaks, places_and_bytes, private_files_apart,
            commands_as_written]
