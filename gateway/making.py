"""Making a repository and its folder, and running the program on it."""
import hashlib
import os
import secrets
import subprocess
import time

import people
import shuns
import users
from owner import bound, name_of
from people import Wrong

# what Fossil's page for a new ticket fills in, and what its reports show
FIELDS = ['type', 'status', 'subsystem', 'priority', 'severity', 'foundin', 'private_contact', 'resolution', 'title', 'comment', 'icomment', 'login',
          'mimetype', 'username']
EMPTY = hashlib.md5(b'').hexdigest()
HEAD = b"# name, letters, secret; letters: o pull, i push, g clone, x private; others are Fossil's own, for the pages alone (gateway/README.md)\n"


def program() -> str:
    """The proved program."""
    top = os.path.dirname(os.path.dirname(os.path.realpath(__file__)))
    beside, built = os.path.join(top, 'fossil_main'), os.path.join(top, 'crates', 'fossil_main', 'out', 'fossil_main')
    for path in (os.environ.get('FOSSIL_PROGRAM'), beside, built):
        if path and os.path.isfile(path) and os.access(path, os.X_OK):
            return os.path.abspath(path)
    raise Wrong("the program isn't built, and FOSSIL_PROGRAM names none")


def run(words: list[str], given: bytes = b'') -> str:
    """What the program says; Wrong where it fails."""
    done = subprocess.run(bound([program(), *words]), input=given, stdout=subprocess.PIPE, stderr=subprocess.STDOUT)
    said = done.stdout.decode('utf-8', 'replace').strip()
    if done.returncode:
        raise Wrong(f'{words[0]}: {words[1]} ended with status {done.returncode}: {said}')
    return said


def first_checkin(user: str) -> bytes:
    """The check-in that Fossil makes with a new repository: no file, and the branch trunk from here on. Without it Fossil opens no clone."""
    moment = time.strftime('%Y-%m-%dT%H:%M:%S.000', time.gmtime())
    text = f'C initial\\sempty\\scheck-in\nD {moment}\nR {EMPTY}\nT *branch * trunk\nT *sym-trunk *\nU {user}\n'
    return f'{text}Z {hashlib.md5(text.encode()).hexdigest()}\n'.encode()


def make_repository(path: str) -> None:
    """Makes a repository that Fossil's clients can clone and open; where that fails, no file is left."""
    if os.path.lexists(path):
        raise Wrong(f'{path} is there already; up {path} FOLDER serves it')
    content = first_checkin(os.environ.get('USER') or 'root')
    try:
        run([path, 'init', secrets.token_hex(20), secrets.token_hex(20), *FIELDS])
        run([path, 'put'], b'file %s %d\n' % (hashlib.sha1(content).hexdigest().encode(), len(content)) + content + b'\n')
    except Wrong:
        if os.path.lexists(path):
            os.unlink(path)
        raise


def hold_folder(folder: str) -> None:
    """Makes the folder where there is none. Wrong for one of another user."""
    os.makedirs(folder, mode=0o700, exist_ok=True)
    owner = os.stat(folder).st_uid
    if owner not in (0, os.geteuid()):
        raise Wrong(f'{folder} belongs to {name_of(owner)}, who could change the users in it: let it belong to the user of up (chown)')


def make_folder(folder: str, project: str) -> None:
    """Makes what is missing of the folder, which is for one project."""
    hold_folder(folder)
    code, path = os.path.join(folder, 'project'), os.path.join(folder, 'users')
    is_new = not os.path.exists(code)
    if is_new and os.path.exists(path) and people.MIRROR.encode() in users.users_of(path):
        raise Wrong(f'{path} has a user {people.MIRROR} already, which is the name of the login of the pages: give that user another name')
    if is_new:
        people.write(code, f'{project}\n'.encode())
    with open(code) as file:
        if file.read().strip() != project:
            raise Wrong(f'{folder} is the folder of another project; give this repository a folder of its own')
    if not os.path.exists(path):
        people.write(path, HEAD)
    os.chmod(path, 0o600)
    if people.MIRROR.encode() not in users.users_of(path):
        people.change(path, lambda lines: people.with_user(lines, people.MIRROR, people.MIRROR_LETTERS, secrets.token_hex(20)))
    people.hold_to_names(users.users_of(path), path)


def project_of_folder(folder: str) -> str:
    """The code of the project whose folder this is."""
    try:
        with open(os.path.join(folder, 'project')) as file:
            return file.read().strip()
    except OSError:
        raise Wrong(f'{folder} is no folder of up; up new FILE {folder} makes one') from None


def new(path: str, folder: str, me: str) -> None:
    """Makes a repository and its folder, and says how it goes on."""
    os.umask(0o077)
    if os.path.exists(os.path.join(folder, 'project')):
        raise Wrong(f'{folder} is the folder of a project already')
    # (first, so that no repository is left where this goes wrong)
    hold_folder(folder)
    make_repository(path)
    make_folder(folder, shuns.project_of(path))
    print(f'project {shuns.project_of(path)}\nnow: {me} user {folder} add NAME oig; {me} {path} {folder} --listen 8080 --web')
