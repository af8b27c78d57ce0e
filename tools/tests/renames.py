"""Tests of `move-in --rename`: what a project holds under names of SHA3 comes in under SHA-1 names, and Fossil itself reads the result as it read
the project, row by row through the map of names."""
import hashlib
import os
import pwd
import re
import shlex
import shutil
import subprocess

from moves import MOVE_IN, MOVE_OUT, TOP, checkins, corpus, is_clean, move, rows, small, sql, words_for
from playing import Room, post, sealed, sha1
import moves
import moving
from points import Point

NAME = re.compile('[0-9a-f]{40,64}')
# two texts of one SHA-1, the published ones: their common front, and the blocks in which they differ
FRONT = bytes.fromhex(
    '255044462d312e330a25e2e3cfd30a0a0a312030206f626a0a3c3c2f57696474682032203020522f4865696768742033203020522f547970652034203020522f5375'
    '62747970652035203020522f46696c7465722036203020522f436f6c6f7253706163652037203020522f4c656e6774682038203020522f42697473506572436f6d70'
    '6f6e656e7420383e3e0a73747265616d0affd8fffe00245348412d3120697320646561642121212121852fec092339759c39b1a1c63c4c97e1fffe01')
BLOCKS = [bytes.fromhex(text) for text in (
    '7f46dc93a6b67e013b029aaa1db2560b45ca67d688c7f84b8c4c791fe02b3df614f86db1690901c56b45c1530afedfb76038e972722fe7ad728f0e4904e046c230'
    '570fe9d41398abe12ef5bc942be33542a4802d98b5d70f2a332ec37fac3514e74ddc0f2cc1a874cd0c78305a21566461309789606bd0bf3f98cda8044629a1',
    '7346dc9166b67e118f029ab621b2560ff9ca67cca8c7f85ba84c79030c2b3de218f86db3a90901d5df45c14f26fedfb3dc38e96ac22fe7bd728f0e45bce046d23c'
    '570feb141398bb552ef5a0a82be331fea48037b8b5d71f0e332edf93ac3500eb4ddc0decc1a864790c782c76215660dd309791d06bd0af3f98cda4bc4629b1')]
COLLIDING = [FRONT + block for block in BLOCKS]
TABLES = {
    'event': "SELECT uuid, type, mtime, user, euser, CASE type WHEN 'ci' THEN comment ELSE '' END, ecomment FROM event JOIN blob ON objid = rid",
    'leaf': 'SELECT uuid FROM leaf JOIN blob USING (rid)',
    'plink': 'SELECT p.uuid, c.uuid, isprim, mtime FROM plink JOIN blob p ON pid = p.rid JOIN blob c ON cid = c.rid',
    'mlink': "SELECT m.uuid, f.uuid, p.uuid, n.name, o.name, mperm, isaux FROM mlink JOIN blob m ON mid = m.rid LEFT JOIN blob f ON fid = f.rid "
             'LEFT JOIN blob p ON pid = p.rid JOIN filename n USING (fnid) LEFT JOIN filename o ON pfnid = o.fnid',
    'tagxref': 'SELECT b.uuid, tagname, tagtype, value, s.uuid, mtime FROM tagxref JOIN tag USING (tagid) JOIN blob b USING (rid) '
               "LEFT JOIN blob s ON srcid = s.rid WHERE tagname <> 'cluster'",
    'cherrypick': 'SELECT p.uuid, c.uuid, isExclude FROM cherrypick JOIN blob p ON parentid = p.rid JOIN blob c ON childid = c.rid',
    'ticket': 'SELECT tkt_uuid, tkt_mtime, status, title, comment FROM ticket',
    'ticketchng': 'SELECT b.uuid, tkt_mtime, icomment FROM ticketchng JOIN blob b ON tkt_rid = b.rid',
    'attachment': 'SELECT b.uuid, isLatest, mtime, src, target, filename, user FROM attachment JOIN blob b ON attachid = b.rid',
    'forumpost': 'SELECT b.uuid, r.uuid, p.uuid, i.uuid, fmtime FROM forumpost JOIN blob b ON fpid = b.rid JOIN blob r ON froot = r.rid '
                 'LEFT JOIN blob p ON fprev = p.rid LEFT JOIN blob i ON firt = i.rid',
    'private': 'SELECT uuid FROM private JOIN blob USING (rid)',
}


def sha3(data):
    return hashlib.sha3_256(data).hexdigest()


def lines_of(room, name='new.names'):
    """The lines of a map of names: each old name with the words behind it."""
    with open(room.path(name), encoding='utf-8') as file:
        return {words[0]: words[1:] for words in map(str.split, file)}


def through(names, row):
    """A row of OLD with each name in it as NEW has it."""
    return tuple(NAME.sub(lambda found: names.get(found[0], found[0]), cell) if isinstance(cell, str) else cell for cell in row)


def table_of(room, repository, table):
    """The rows of a table; none where Fossil hasn't made it yet."""
    is_there = rows(room, repository, f"SELECT 1 FROM sqlite_master WHERE name = '{table}'")
    return moving.rows_of(room.path(repository), TABLES[table]) if is_there else []


def same_rows(room, old='old.fossil', new='new', tables=TABLES):
    """Fossil reads what came out of NEW as it reads OLD, through the map."""
    move(room, MOVE_OUT, new, f'{new}.fossil')
    room.fossil('test-integrity', '--parse', '-R', f'{new}.fossil')
    names = {name: words[0] for name, words in lines_of(room, f'{new}.names').items()}
    for table in tables:
        theirs = {repr(through(names, row)) for row in table_of(room, old, table)}
        ours = {repr(row) for row in table_of(room, f'{new}.fossil', table)}
        assert ours == theirs, (table, sorted(ours - theirs)[:5], sorted(theirs - ours)[:5])
    return names


def renamed(room, *words, old='old.fossil', new='new', status=0):
    """What move-in says, by whatever move-in these tests are about."""
    return move(room, moves.MOVE_IN, old, new, '--rename', *words, status=status)


def artifact(room, name):
    """The bytes of an artifact of NEW."""
    return room.run(room.path('new'), 'cat', name)


def every_kind(room):
    """All kinds of artifacts come in, with renames, a cherry-pick, a delta manifest and a branch that is integrated."""
    folder = corpus(room, named=sha3)
    room.fossil('mv', '--hard', 'file1', 'file one', folder=folder)
    room.commit(folder, {'more': b'of a delta\n'}, 'renamed', '--delta')
    room.commit(folder, {'picked': b'picked\n'}, 'on a branch', '--branch', 'picks')
    room.fossil('update', 'trunk', folder=folder)
    room.fossil('merge', '--cherrypick', 'picks', folder=folder)
    room.commit(folder, {}, 'picked from there')
    room.fossil('merge', '--integrate', 'picks', folder=folder)
    room.commit(folder, {}, 'integrated')
    said = renamed(room)
    assert 'leaves and timeline are the same' in said and "Old clones can't go on" in said, said
    is_clean(room, 'new', 'new.names', 'new.users')
    names = same_rows(room)
    is_clean(room, 'new', 'new.fossil', 'new.names', 'new.users')
    before, after = (room.artifacts(repository, '--private') for repository in ('old.fossil', 'new.fossil'))
    lines = lines_of(room)
    assert names.keys() == before.keys() and set(names.values()) - {'-'} == after.keys()
    assert all(after[new] == before[old] for old, (new, kind, *_) in lines.items() if kind == 'content')
    assert {kind for _, kind, *_ in lines.values()} >= {'content', 'checkin', 'control', 'wiki', 'ticket', 'attachment', 'technote', 'forum'}
    assert all(room.run(room.path('new'), 'verify', name) == b'right\n' for name, kind, *_ in lines.values() if kind == 'checkin')
    code = rows(room, 'old.fossil', "SELECT value FROM config WHERE name = 'project-code'")[0][0]
    assert said.splitlines()[-1] == moving.repository_of(room.path('new')).project == sha1(b'fossil sha1 ' + code.encode())
    modes = {name: os.stat(room.path(name)).st_mode & 0o777 for name in ('new', 'new.names', 'new.users')}
    assert set(modes.values()) == {0o600}, modes


def several_closed(room):
    """A check-in that closes several branches at once has its T cards in order again, where the order of the new names is another one."""
    folder, flips = small(room), 0
    for number in range(4):
        for branch in (f'a{number}', f'b{number}'):
            room.commit(folder, {f'of {branch}': branch.encode()}, f'on {branch}', '--branch', branch)
            room.fossil('update', 'trunk', folder=folder)
        for branch in (f'a{number}', f'b{number}'):
            room.fossil('merge', '--integrate', branch, folder=folder)
        room.commit(folder, {}, f'closes two, {number}')
    renamed(room)
    names = same_rows(room)
    for name in checkins(room):
        targets = re.findall('T .closed ([0-9a-f]{64})', room.fossil('artifact', name, '-R', 'old.fossil'))
        flips += targets != sorted(targets, key=names.get)
    assert len(checkins(room)) == 14 and flips, 'no order flipped: once in 16 runs'


def mixed_names(room):
    """A project that had SHA-1 names first: what has one and names only such keeps its bytes."""
    folder = small(room, '--sha1')
    room.fossil('tag', 'add', '--raw', 'first', 'trunk', folder=folder)
    old = {name for name, in rows(room, 'old.fossil', 'SELECT uuid FROM blob')}
    room.fossil('hash-policy', 'sha3', folder=folder)
    room.commit(folder, {'new': b'of another hash\n'}, 'long names', '--branch', 'side')
    room.fossil('hash-policy', 'sha1', folder=folder)
    room.commit(folder, {'newer': b'of the first hash\n'}, 'over it')
    said = renamed(room)
    assert f'of which {len({n for n, in rows(room, "old.fossil", "SELECT uuid FROM blob")} - old) - 2} have' in said, said
    names = same_rows(room)
    assert all(names[name] == name for name in old) and names[checkins(room)[-1]] != checkins(room)[-1]


def within_signatures(room):
    """What stands in a PGP frame comes in without it, under SHA-1 names too, and the map says so."""
    folder = small(room, '--sha1')
    tip = checkins(room)[-1]
    frame = b'-----BEGIN PGP SIGNED MESSAGE-----\nHash: SHA1\n\n%s-----BEGIN PGP SIGNATURE-----\n\nabc\n-----END PGP SIGNATURE-----\n'
    bare = sealed(f'C signed\nD 2027-05-06T07:08:09\nF text {sha1(b"text" + bytes([10]))}\nP {tip}\nU ann\n'.encode())
    child = sealed(f'C child\nD 2027-05-06T07:08:10\nF text {sha1(b"text" + bytes([10]))}\nP {sha1(frame % bare)}\nU ann\n'.encode())
    room.put(folder, [frame % bare, child])
    said = renamed(room)
    assert '1 signatures and 0 clusters are dropped' in said, said
    names = same_rows(room)
    assert names[sha1(frame % bare)] == sha1(bare) and lines_of(room)[sha1(frame % bare)][1:] == ['checkin', 'signed']
    assert f'P {sha1(bare)}\n'.encode() in artifact(room, names[sha1(child)])


def not_held(room):
    """What isn't held is stood for by the first 40 digits of its name, in every card that names it."""
    folder = small(room)
    tip = checkins(room)[-1]
    absent = {letter: sha3(b'absent ' + letter.encode()) for letter in 'BFPQTAGI'}
    text, day = sha3(b'text\n'), 'D 2027-05-06T07:08:0'
    room.put(folder, [
        sealed(f'B {absent["B"]}\nC over\n{day}1\nF more {text}\nP {tip}\nU ann\n'.encode()),
        sealed(f'C file\n{day}2\nF more {absent["F"]}\nP {tip}\nU ann\n'.encode()),
        sealed(f'C parent\n{day}3\nF more {text}\nP {absent["P"]}\nU ann\n'.encode()),
        sealed(f'C picked\n{day}4\nF more {text}\nP {tip}\nQ +{absent["Q"]}\nU ann\n'.encode()),
        sealed(f'{day}5\nT +one {absent["T"]}\nU ann\n'.encode()),
        sealed(f'A file Page {absent["A"]}\n{day}6\nU ann\n'.encode()),
        post('2027-05-06T07:08:07', 'ann', b'a', thread=absent['G'], answers=absent['G']),
        post('2027-05-06T07:08:08', 'ann', b'b', thread=absent['G'], answers=absent['I']),
    ])
    said = renamed(room)
    assert "8 names of 64 digits aren't held" in said and "timeline: 1 differ: a check-in over a baseline that isn't held" in said, said
    lines = lines_of(room)
    assert all(lines[name] == [name[:40], 'not-held'] for name in absent.values())
    wanted = {line.split()[1] for line in room.run(room.path('new'), 'phantoms').decode().splitlines()}
    assert wanted == {name[:40] for name in absent.values()}
    same_rows(room, tables=TABLES.keys() - {'mlink'})


def shunned_names(room):
    """Shuns go along, with the bytes at hand and without; what names a shunned artifact names what is shunned, and nothing wants it."""
    folder = small(room)
    for number in range(2):
        room.commit(folder, {f'secret{number}': b'secret %d\n' % number}, f'with secret {number}')
    gone, there, other = sha3(b'secret 0\n'), sha3(b'secret 1\n'), sha3(b'nobody has this')
    sql(room, 'old.fossil', f"INSERT INTO shun (uuid, mtime) VALUES ('{gone}', 1)")
    room.fossil('rebuild', folder=folder)
    sql(room, 'old.fossil', f"INSERT INTO shun (uuid, mtime) VALUES ('{there}', 1), ('{other}', 1)")
    renamed(room)
    lines, found = lines_of(room), moving.repository_of(room.path('new'))
    assert found.shunned == {gone[:40], sha1(b'secret 1\n'), other[:40]} and sha1(b'secret 1\n') not in found.held
    assert lines[gone] == [gone[:40], 'shunned'] and lines[there] == [sha1(b'secret 1\n'), 'shunned']
    assert room.run(room.path('new'), 'phantoms') == b''
    same_rows(room, tables=TABLES.keys() - {'mlink'})


def one_content_twice(room):
    """Two names of one content become one, public where one of them was."""
    folder, hidden = small(room, '--sha1'), [b'in public\n', b'twice hidden\n']
    room.commit(folder, dict(zip(('one', 'two'), hidden)), 'private', '--private')
    for text in hidden:
        sql(room, 'old.fossil', f"INSERT INTO blob (rcvid, size, uuid, content) SELECT rcvid, size, '{sha3(text)}', content FROM blob "
                                f"WHERE uuid = '{sha1(text)}'")
    sql(room, 'old.fossil', f"INSERT INTO private SELECT rid FROM blob WHERE uuid = '{sha3(hidden[1])}'")
    renamed(room)
    found, lines = moving.repository_of(room.path('new')).held, lines_of(room)
    assert [found[sha1(text)][0] for text in hidden] == [False, True], found
    assert all(lines[of(text)] == [sha1(text), 'content'] for text in hidden for of in (sha1, sha3))
    same_rows(room, tables=TABLES.keys() - {'private'})


def file_of_a_manifest(room):
    """A file that has the bytes of an artifact keeps them for the file; the artifact is written anew beside it, and what the kept bytes may read
    as is no difference without a point."""
    folder = small(room)
    room.fossil('tag', 'add', '--raw', 'mark', 'trunk', folder=folder)
    manifest, tag = (room.artifacts('old.fossil')[name] for name, in (
        *moving.rows_of(room.path('old.fossil'), "SELECT uuid FROM event JOIN blob ON objid = rid WHERE type = 'ci' ORDER BY mtime DESC LIMIT 1"),
        *rows(room, 'old.fossil', "SELECT uuid FROM event JOIN blob ON objid = rid WHERE type = 'g'")))
    room.commit(folder, {'copy': manifest, 'tag': tag}, 'with copies')
    said = renamed(room)
    assert all(f'a file has the bytes of an artifact, and keeps them: {path}\n' in said for path in ('copy', 'tag')), said
    assert f'timeline: 1 differ: {Point.COPY.value}' in said, said
    names = {name: words[0] for name, words in lines_of(room).items()}
    tip = names[checkins(room)[-1]]
    assert artifact(room, sha1(manifest)) == manifest and tip != sha1(manifest)
    files = room.run(room.path('new'), 'files', tip).decode()
    assert f'{sha1(manifest)} - copy\n' in files and room.run(room.path('new'), 'verify', tip) == b'right\n', files


def pages_and_parents(room):
    """A page about a check-in, what is attached to it or to a post, and a tag that gives a check-in another parent go by the new names."""
    folder = small(room)
    for number, words in enumerate(((), ('--branch', 'side', '--tag', 'aside'), ())):
        room.fossil('update', 'trunk', folder=folder)
        room.commit(folder, {'text': b'text\n' * (number + 2)}, f'change {number}', *words)
    *_, third, second, tip = checkins(room)
    page = sealed(f'D 2027-05-06T07:08:09\nL checkin/{third}\nU ann\nW 5\nabout\n'.encode())
    attached = sealed(f'A file checkin/{third} {sha3(b"text" + bytes([10]))}\nD 2027-05-06T07:08:10\nU ann\n'.encode())
    first = post('2027-05-06T07:08:11', 'ann', b'a', title='one')
    room.put(folder, [page, attached, first, sealed(f'A file {sha3(first)} {sha3(b"text" + bytes([10]))}\nD 2027-05-06T07:08:12\nU ann\n'.encode())])
    room.fossil('reparent', tip, second, folder=folder)
    room.fossil('rebuild', folder=folder)
    said = renamed(room)
    names = same_rows(room, tables=TABLES.keys() - {'event', 'tagxref', 'plink', 'mlink', 'leaf'})
    assert f'differ: {Point.PARENT_TAG.value}' in said, said
    assert artifact(room, names[sha3(page)]).splitlines()[1] == f'L checkin/{names[third]}'.encode()
    tag = next(artifact(room, new) for new, kind, *_ in lines_of(room).values() if kind == 'control')
    assert f'T +parent {names[tip]} {names[second]}\n'.encode() in tag, tag


def links_in_texts(room):
    """With --links each form of a link is written anew, where it names one artifact alone; the same comes out each time."""
    folder = small(room)
    first, tip = checkins(room)
    other = sha3(b'text\n')
    room.fossil('ticket', 'add', 'title', 'a ticket', folder=folder)
    ticket = rows(room, 'old.fossil', 'SELECT tkt_uuid FROM ticket')[0][0]
    forms = {f'[{tip[:10]}]': '[{t:.16}]', f'/info/{tip}.': '/info/{t}.', f'/info?name={tip[:20]}': '/info?name={t:.20}',
             f'/ci/{tip[:12]}/x': '/ci/{t:.16}/x',
             f'/vinfo/{first[:9]}': '/vinfo/{f:.16}', f'/artifact/{other}': '/artifact/{o}', f'/timeline?c={first}': '/timeline?c={f}',
             f'/forumpost/{tip[:40]}': '/forumpost/{t}', f'({tip})': '({t})', f'is {first}': 'is {f}',
             # too short, unknown, a ticket's, and within a word
             f'[{tip[:7]}]': f'[{tip[:7]}]', '[0123456789]': '[0123456789]', f'[{ticket[:10]}]': f'[{ticket[:10]}]',
             f'x{tip}': f'x{tip}', tip[:40]: tip[:40]}
    text = '\n'.join(forms)
    room.commit(folder, {'more': b'more\n'}, text)
    room.fossil('wiki', 'create', 'A Page', '-', folder=folder, given=text.encode())
    room.fossil('ticket', 'set', ticket, 'comment', text, folder=folder)
    room.fossil('amend', tip, '-m', f'see [{first[:10]}]', folder=folder)
    said = renamed(room, '--links')
    assert '31 links in texts are written anew, 0 stay' in said, said
    names = {name: words[0] for name, words in lines_of(room).items()}
    wanted = '\n'.join(forms.values()).format(t=names[tip], f=names[first], o=names[other])
    move(room, MOVE_OUT, 'new', 'new.fossil')
    assert rows(room, 'new.fossil', "SELECT comment FROM event WHERE comment LIKE '%/info/%'") == [(wanted,)]
    assert wanted in room.fossil('wiki', 'export', 'A Page', '-R', 'new.fossil')
    assert rows(room, 'new.fossil', 'SELECT comment FROM ticket') == [(wanted,)]
    assert rows(room, 'new.fossil', 'SELECT ecomment FROM event WHERE ecomment IS NOT NULL') == [(f'see [{names[first][:16]}]',)]
    renamed(room, '--links', new='newer')
    assert lines_of(room) == lines_of(room, 'newer.names')
    renamed(room, new='newest')
    assert len({moving.repository_of(room.path(name)).project for name in ('new', 'newest')}) == 2


def moved_again(room):
    """A project that grew is moved again: what is new in it alone is new in the result."""
    folder = small(room)
    renamed(room)
    room.commit(folder, {'more': b'more\n'}, 'later', '--branch', 'side')
    room.fossil('wiki', 'create', 'A Page', '-', folder=folder, given=b'text')
    room.fossil('tag', 'add', '--raw', 'mark', 'trunk', folder=folder)
    renamed(room, new='newer')
    before, after = (moving.repository_of(room.path(name)) for name in ('new', 'newer'))
    assert before.project == after.project != moving.rows_of(room.path('old.fossil'), "SELECT value FROM config WHERE name = 'project-code'")[0][0]
    assert before.held.keys() < after.held.keys() and len(after.held) == len(before.held) + 4
    assert lines_of(room).items() < lines_of(room, 'newer.names').items()
    assert room.run(room.path('new'), 'pull-local', room.path('newer')).endswith(b'stored 4\n')


def refused_names(room):
    """What can't be done is said, and nothing is made."""
    folder = small(room)
    said = move(room, MOVE_IN, 'old.fossil', 'new', status=1)
    assert '--rename brings all under SHA-1 names' in said, said
    assert 'nothing would be left' in move(room, MOVE_IN, 'old.fossil', 'new', '--leave-out', status=1)
    assert '--links is for --rename' in move(room, MOVE_IN, 'old.fossil', 'new', '--links', status=1)
    assert 'no user nobody-here' in renamed(room, '--owner', 'nobody-here', status=1)
    move(room, MOVE_IN, 'old.fossil', 'new', '--other', status=1)
    for name in ('new.names', 'new.users'):
        room.write(name, b'of somebody else')
        assert f'{name} is there already' in renamed(room, status=1)
        with open(room.path(name), 'rb') as file:
            assert file.read() == b'of somebody else'
        os.unlink(room.path(name))
    is_clean(room)
    shutil.copy(room.path('old.fossil'), room.path('hurt.fossil'))
    sql(room, 'hurt.fossil', f"UPDATE blob SET content = (SELECT content FROM blob WHERE uuid = '{sha3(b'text' + bytes([10]))}') "
                             f"WHERE uuid = '{checkins(room)[-1]}'")
    assert 'the project is damaged' in renamed(room, old='hurt.fossil', status=1)
    room.commit(folder, dict(zip(('one', 'two'), COLLIDING)), 'two texts of one SHA-1')
    said = renamed(room, status=1)
    assert f'are other bytes under one SHA-1 name, {sha1(COLLIDING[0])}' in said and sha1(COLLIDING[0]) == sha1(COLLIDING[1]), said
    is_clean(room)


def hardened_names(room):
    """A text with the known attack on SHA-1 has another name in Fossil than its SHA-1: its file is named, and left out only where that is said."""
    for flags, words in (('--sha1',), ()), ((), ('--rename',)):
        folder = small(room, *flags)
        room.commit(folder, {'attack': COLLIDING[0]}, 'with an attack')
        said = move(room, MOVE_IN, 'old.fossil', 'new', *words, status=1)
        assert 'attack: a known attack on SHA-1 is in it' in said and '--leave-out' in said, said
        is_clean(room)
        said = move(room, MOVE_IN, 'old.fossil', 'new', '--leave-out', *words)
        found = moving.repository_of(room.path('new'))
        assert sha1(COLLIDING[0]) not in found.held and 'of what was taken, leaves and timeline are the same' in said, said
        name = lines_of(room)[checkins(room)[-1]][0] if words else checkins(room)[-1]
        hardened = room.fossil('sha1sum', room.write('artifact', COLLIDING[0])).split()[0]
        assert f'{hardened} - attack\n' in room.run(room.path('new'), 'files', name).decode()
        for path in ('old.fossil', 'old', 'new', 'new.users'):
            (shutil.rmtree if os.path.isdir(room.path(path)) else os.unlink)(room.path(path))


def users_of(room, name):
    """The lines of a users file beside a new repository."""
    with open(room.path(f'{name}.users'), encoding='utf-8') as file:
        return file.read().splitlines()


def users_beside(room):
    """NEW.users has the users with their letters; they keep what stands for their passwords where the project's code stays."""
    small(room, '--sha1')
    for login, letters in {'fay': 's', 'bob': 'v', 'carl': 'o', 'dora': 'xk', 'eve': '', "o'neil;id": 'o'}.items():
        room.fossil('user', 'new', login, '', f'pw of {login}', '-R', 'old.fossil')
        room.fossil('user', 'capabilities', login, letters or 'd', '-R', 'old.fossil')
    sql(room, 'old.fossil', "UPDATE user SET cap = 'ghi' WHERE login = 'nobody'", "UPDATE user SET cap = 'h' WHERE login = 'anonymous'",
        "UPDATE user SET cap = 'ei' WHERE login = 'developer'", "UPDATE user SET cap = 'k' WHERE login = 'reader'",
        "UPDATE user SET pw = 'plain' WHERE login = 'carl'", "UPDATE user SET pw = '' WHERE login IN ('dora', 'o''neil;id')",
        "INSERT INTO user (login, pw, cap) VALUES ('mal' || char(10) || 'ory', 'x', 'o'), ('gus', 'x', 'o' || char(10) || 'bob oi')")
    project = move(room, MOVE_IN, 'old.fossil', 'new').splitlines()[-1]
    secret = lambda login, password: sha1(f'{project}/{login}/{password}'.encode())
    lines = users_of(room, 'new')
    # (nobody pushes unnamed; who administers Fossil has every right here, and on the pages all but the letter for a shell)
    assert 'nobody gh -' in lines and f'carl o {secret("carl", "plain")}' in lines, lines
    assert f'fay oigxa {secret("fay", "pw of fay")}' in lines and f'bob i {secret("bob", "pw of bob")}' in lines, lines
    assert f'# dora xk SECRET: has no password in OLD: gateway/gateway secret {project} dora' in lines, lines
    assert f'eve - {secret("eve", "pw of eve")}' in lines and not any(line.startswith(('anonymous', 'developer', 'reader')) for line in lines), lines
    # (a name and letters that somebody made so do nothing in a shell, and bring no line of their own)
    command = next(line for line in lines if line.startswith("# o'neil")).split('OLD: ')[1]
    assert shlex.split(command)[2:] == [project, "o'neil;id"] and any(line.startswith("# 'mal\\nory' o: a user's name") for line in lines), lines
    assert f'gus oi {secret("gus", "x")}' in lines, lines
    project = renamed(room, new='newer').splitlines()[-1]
    lines = users_of(room, 'newer')
    assert f'# bob i SECRET: gateway/gateway secret {project} bob' in lines and 'nobody gh -' in lines, lines
    if os.geteuid() == 0:
        renamed(room, '--owner', 'daemon', '--no-reports', new='newest')
        owners = {os.stat(room.path(name)).st_uid for name in ('newest', 'newest.users', 'newest.names')}
        assert owners == {pwd.getpwnam('daemon').pw_uid}, owners
    # (both files are read as a users file)
    for name in ('new', 'newer'):
        room.serve(room.path(name), room.path(f'{name}.users'))


def many_names(room):
    """Where many names stand in no cluster, clusters are made, private names in none; and what goes out again has no others."""
    folder = small(room)
    room.commit(folder, {f'file{number}': b'%d\n' % number for number in range(850)}, 'many')
    room.commit(folder, {'hidden': b'hidden\n'}, 'private', '--private')
    said = renamed(room)
    assert 'NEW has 2 clusters of them too' in said, said
    found = moving.repository_of(room.path('new')).held
    clusters = [bytes(content).decode() for _, content in found.values() if bytes(content[:2]) == b'M ']
    listed = {line[2:] for cluster in clusters for line in cluster.split('\n') if line[:2] == 'M '}
    public = {name for name, (is_private, content) in found.items() if not is_private and bytes(content[:2]) != b'M '}
    assert listed == public and found[sha1(b'hidden\n')][0]
    same_rows(room)
    assert room.artifacts('new.fossil', '--private').keys() == found.keys()
    # a repository whose names stand in no cluster goes out too
    room.run(room.path('bare'), 'init', '1' * 40, '2' * 40)
    room.run(room.path('bare'), 'put', given=b''.join(b'file %s 3\n%03d\n' % (sha1(b'%03d' % number).encode(), number) for number in range(150)))
    move(room, MOVE_OUT, 'bare', 'newer.fossil')
    assert len(room.artifacts('newer.fossil')) == 150 and rows(room, 'newer.fossil', 'SELECT count(*) FROM unclustered') == [(150,)]


def names_broken_off(room):
    """A move that is broken off leaves no NEW, no map and no users, whatever it is at."""
    corpus(room, named=sha3)
    words = [MOVE_IN, 'old.fossil', 'new', '--rename']
    for said in ('artifacts are read', 'artifacts go in', 'both sides hold'):
        process = subprocess.Popen(words, stdin=subprocess.DEVNULL, stdout=subprocess.DEVNULL, stderr=subprocess.PIPE, **words_for(room))
        while said.encode() not in process.stderr.readline():
            assert process.poll() is None, said
        process.terminate()
        process.stderr.read()
        assert process.wait(60) in (143, -15), said
        is_clean(room)


def program_that_ends(room):
    """Where the program ends before the artifacts are in, that is said, and nothing is made."""
    small(room)
    words = words_for(room)
    for number, serve in enumerate(('exit 7', 'echo "fossil: listening at $3" >&2; exec sleep 60')):
        path = room.write(f'program{number}', f'#!/bin/sh\nif [ "$2" = serve ]; then {serve}; fi\nexec "$REAL" "$@"\n'.encode())
        os.chmod(path, 0o700)
        environment = {**words['env'], 'REAL': words['env']['FOSSIL_PROGRAM'], 'FOSSIL_PROGRAM': path}
        done = subprocess.run([MOVE_IN, 'old.fossil', 'new', '--rename'], cwd=words['cwd'], env=environment, capture_output=True)
        assert done.returncode == 1 and (b'serves nothing', b'took no message')[number] in done.stderr, done.stderr
        is_clean(room)


# what breaks a rule of the renaming, in which file, and a test that must notice it
WRONG = {
    'tags_as_they_stood': ('renaming.py', 'iter(sorted(tags, key=place_of_tag))', 'iter(tags)', several_closed),
    'tickets_renamed': ('renaming.py', "'L': Writer.first_title",
                        "'K': lambda writer, card: card._replace(words=[b'1' * 40]), 'L': Writer.first_title", every_kind),
    'files_by_their_meaning': ('renaming.py', 'new = self.content.get(name)\n', 'new = self.new.get(name)\n', file_of_a_manifest),
    'frames_kept': ('renaming.py', 'return text_of(written)', 'return content if content[:5] == b"-----" else text_of(written)', within_signatures),
    'old_project_code': ('old.py', 'self.project = old.project_anew(renaming.links is not None)', 'pass', moved_again),
}


def noticed(what, file, right, wrong, test):
    """A test that a wrong rule is noticed by another test."""
    def wrong_rule(room):
        tools = room.path('tools')
        shutil.copytree(os.path.join(TOP, 'tools'), tools, ignore=shutil.ignore_patterns('tests', '__pycache__'))
        with open(os.path.join(tools, file), encoding='utf-8') as source:
            text = source.read()
        assert text.count(right) == 1, (what, text.count(right))
        os.symlink(os.path.join(TOP, 'gateway'), room.path('gateway'))
        room.write(f'tools/{file}', text.replace(right, wrong).encode())
        moves.MOVE_IN = os.path.join(tools, 'move-in')
        try:
            with Room() as other:
                test(other)
        except AssertionError:
            return
        finally:
            moves.MOVE_IN = MOVE_IN
        raise AssertionError(f'{what}: {test.__name__} holds')

    wrong_rule.__name__ = what
    return wrong_rule


TESTS = [every_kind, several_closed, mixed_names, within_signatures, not_held, shunned_names, one_content_twice, file_of_a_manifest,
         pages_and_parents, links_in_texts, moved_again, refused_names, hardened_names, users_beside, many_names, names_broken_off,
         program_that_ends]
TESTS += [noticed(what, *rule) for what, rule in WRONG.items()]
