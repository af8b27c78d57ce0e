"""What the measuring scripts share: inputs, the built program, and times and memory of one run."""
import functools
import hashlib
import json
import os
import shutil
import subprocess
import sys
import tempfile
import time

TOP = os.path.dirname(os.path.dirname(os.path.abspath(__file__)))
PROGRAM = os.path.join(TOP, 'crates', 'fossil_main', 'out', 'fossil_main')


def program():
    """The built program; the wrapper builds it where it isn't there or is out of date."""
    subprocess.run([os.path.join(TOP, 'fossil'), 'r', 'ingest'], stdin=subprocess.DEVNULL, check=True)
    return PROGRAM


def name_of(content):
    return hashlib.sha1(content).hexdigest()


def sealed(lines):
    """The text of a structural artifact: its lines and their Z card."""
    return lines + b'Z ' + hashlib.md5(lines).hexdigest().encode() + b'\n'


def file_card(content):
    return b'file %s %d\n' % (name_of(content).encode(), len(content)) + content + b'\n'


class Room:
    """A folder of its own, which is gone at the end."""

    def __enter__(self):
        self.folder = tempfile.TemporaryDirectory(prefix='fossil-bench-')
        return self

    def __exit__(self, *_):
        self.folder.cleanup()

    def path(self, name):
        return os.path.join(self.folder.name, name)

    def write(self, name, pieces):
        with open(self.path(name), 'wb') as out:
            for piece in pieces:
                out.write(piece)
        return self.path(name)


def below(lines, names):
    """The crates of these names and all that they stand on."""
    uses = {line.split(':')[0]: line.split(':')[1].split() for line in lines if ':' in line and not line.startswith('#')}
    found, more = set(), set(names)
    while more:
        found |= more
        more = {use for name in more for use in uses[name] if use in uses} - found
    return found


def program_over(room, name, uses, sources, words):
    """A program over crates of the repository, proved and built in a folder of its own, and run once with these words.

    The sources are files by their places in the crate."""
    repository = room.path('repository')
    os.makedirs(os.path.join(repository, 'crates'))
    subprocess.run(['git', 'init', '-q', repository], check=True)
    shutil.copy(os.path.join(TOP, 'HANDLES'), repository)
    with open(os.path.join(TOP, 'crates.txt')) as file:
        lines = file.readlines()
    crates = below(lines, uses.split())
    with open(os.path.join(repository, 'crates.txt'), 'w') as out:
        out.writelines(line for line in lines if line.split(':')[0] in crates)
        out.write(f'{name}: {uses}\n')
    for crate in crates:
        shutil.copytree(os.path.join(TOP, 'crates', crate), os.path.join(repository, 'crates', crate))
    crate = os.path.join(repository, 'crates', name)
    for place, text in sources.items():
        to = os.path.join(crate, place)
        os.makedirs(os.path.dirname(to), exist_ok=True)
        with open(to, 'w') as out:
            out.write(text)
    print('building the program from its proofs', file=sys.stderr)
    done = subprocess.run(['rt', 'run', '--', *words], cwd=crate, stdout=subprocess.PIPE, stderr=subprocess.STDOUT)
    if done.returncode != 0:
        sys.exit(done.stdout.decode())
    return os.path.join(crate, 'out', name)


def timed(words, stdin=None, check=True):
    """The seconds that a command takes, and what it prints."""
    source = open(stdin, 'rb') if stdin else subprocess.DEVNULL
    begin = time.perf_counter()
    done = subprocess.run(words, stdin=source, stdout=subprocess.PIPE, stderr=subprocess.PIPE)
    seconds = time.perf_counter() - begin
    if stdin:
        source.close()
    if check and done.returncode != 0:
        sys.exit(f'{words[:3]} ended with status {done.returncode}: {done.stdout[:200]!r} {done.stderr[:200]!r}')
    return seconds, done.stdout


# Runs a command as a child of a small process, so that its peak isn't that of the script that asks.
MEASURE = """
import json, resource, subprocess, sys, time
begin = time.perf_counter()
done = subprocess.run(sys.argv[2:])
seconds = time.perf_counter() - begin
with open(sys.argv[1], 'w') as out:
    json.dump([seconds, resource.getrusage(resource.RUSAGE_CHILDREN).ru_maxrss / 1024], out)
sys.exit(done.returncode)
"""


def measured(room, words, stdin=None, check=True):
    """The seconds that a command takes, its peak of memory in MiB, and what it prints."""
    told = room.path('measured')
    _, printed = timed([sys.executable, '-c', MEASURE, told, *words], stdin, check)
    with open(told) as file:
        seconds, peak = json.load(file)
    return seconds, peak, printed


@functools.cache
def has_real_fossil():
    """Whether the command `fossil` is the real one. Our wrapper may have that name too, and it answers `version` without building."""
    if not shutil.which('fossil'):
        return False
    _, printed = timed(['fossil', 'version'], check=False)
    return printed.startswith(b'This is fossil version ')


def row(what, seconds, beside, tool):
    print(f'{what}: {seconds:.3f} s; {tool}: {beside:.3f} s; ratio {seconds / beside:.2f}')
