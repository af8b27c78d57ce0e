"""The messages of the tests of the gateway: their users, and cards in each form."""
import os
import sys

HERE = os.path.dirname(os.path.abspath(__file__))
sys.path[:0] = [os.path.dirname(HERE)]

from playing import PROJECT, SERVER, held, packed, sealed, sha1
import deltas

TEAM = ['nobody og -', 'ann oigx pw', 'bob oig pw', 'eve og pw']
PUSH = f'push {SERVER} {PROJECT}\n'.encode()
PULL = f'pull {SERVER} {PROJECT}\n'.encode()


# the check-in by which Fossil begins a project: its client opens no repository without one
FIRST = sealed(b'C initial\\sempty\\scheck-in\nD 2024-01-02T03:04:05.678\nR d41d8cd98f00b204e9800998ecf8427e\n'
               b'T *branch * trunk\nT *sym-trunk *\nU ann\n')
ALONE = {sha1(FIRST): (False, FIRST)}


def file_card(content):
    return f'file {sha1(content)} {len(content)}\n'.encode() + content + b'\n'


def delta_card(content, base, delta):
    return f'file {sha1(content)} {sha1(base)} {len(delta)}\n'.encode() + delta


def cfile_card(content, base=None, delta=None):
    plain = content if base is None else delta
    body = packed(plain)
    names = sha1(content) if base is None else f'{sha1(content)} {sha1(base)}'
    return f'cfile {names} {len(plain)} {len(body)}\n'.encode() + body


def digits(number):
    """A number as a delta has it."""
    text = deltas.DIGITS[number % 64:number % 64 + 1]
    return digits(number // 64) + text if number >= 64 else text


def delta_of(base, tail):
    """A delta for a base with a tail behind it."""
    return digits(len(base) + len(tail)) + b'\n' + digits(len(base)) + b'@0,' + digits(len(tail)) + b':' + tail + b'0;'


def is_same(room, server, repository, words=(), user='ann'):
    """A server holds what a repository of Fossil does, byte for byte, and is told what differs."""
    ours, theirs = held(server, user, 'pw'), room.artifacts(repository, *words)
    ours = {name: content for name, (is_private, content) in ours.items() if words or not is_private}
    # (clusters that only one side made yet)
    differing = {name for name in ours.keys() ^ theirs.keys() if not (ours.get(name) or theirs[name]).startswith(b'M ')}
    assert not differing, (sorted(differing), len(ours), len(theirs))
    assert all(ours[name] == theirs[name] for name in ours.keys() & theirs.keys())
