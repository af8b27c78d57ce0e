"""The cards of Fossil's client, read and turned into those of our server: docs/FORMATS.md, Messages of a sync."""
import re
import time
import zlib
from dataclasses import dataclass, field
from typing import Callable

from deltas import DeltaFault, TooLong, apply
from users import User, is_signed, login_of, sha1

MESSAGE = 1 << 27
ARTIFACT = 1 << 24
FILES = 1 << 16
ANNOUNCED = 1 << 17
SHUNS = 1 << 17
BLANKS = b' \t\r'
NAME = re.compile(rb'[0-9a-f]{40}\Z')
LONG_NAME = re.compile(rb'[0-9a-f]{64}\Z')
NUMBER = re.compile(rb'[0-9]{1,18}\Z')
DECODED = {b's': b' ', b'n': b'\n', b't': b'\t', b'r': b'\r', b'v': b'\v', b'f': b'\f', b'0': b'\0'}
# cards that our server reads as they are
KNOWN = {b'push', b'pull', b'clone', b'clone_seqno', b'igot', b'gimme', b'private', b'error', b'message', b'cookie', b'pragma'}
# cards that it doesn't know
DROPPED = {b'reqconfig', b'config', b'uvigot', b'uvgimme', b'uvfile'}
# the settings of a project that are kept here: the list of shunned names alone, which Fossil's client asks for by either word
OF_SHUNS = {b'/shun', b'/all'}
NO_CONFIGURATION, NO_UNVERSIONED = b"configuration isn't kept here", b"unversioned files aren't kept here"
# Fossil's own answer to a client that asks for private artifacts and may not have them
NO_PRIVATE = b'error not\\sauthorized\\sto\\ssync\\sprivate\\scontent\n'
# how a member takes a check-in back that can't be taken here
TAKE_BACK = 'fossil update PARENT; fossil purge checkins HASH'


class Refused(Exception):
    """A message that isn't sent on. Its text goes to the client in an error card. `artifact` is the name of the one that can't be taken, where it
    is for that."""

    def __init__(self, said: str, artifact: bytes = b''):
        super().__init__(said)
        self.artifact = artifact


class NoBase(Refused):
    """A message has a delta over what neither it nor the server has; `name` is what is missing."""

    def __init__(self, name: bytes, said: str):
        super().__init__(f'no base {name.decode()} at the server{said}')
        self.name = name


def unescaped(text: bytes) -> bytes:
    """A text of a card without its escapes."""
    return re.sub(rb'\\(.)', lambda found: DECODED.get(found[1], found[1]), text, flags=re.DOTALL)


def escaped(text: bytes) -> bytes:
    """A text as it stands in a card."""
    for sign, letter in [(b'\\', b'\\'), *((sign, letter) for letter, sign in DECODED.items())]:
        text = text.replace(sign, b'\\' + letter)
    return text


def shown(text: bytes) -> str:
    """A few bytes of a client, as they may stand in a log or in an error card."""
    return ascii(text[:80].decode('latin-1'))[1:-1]


@dataclass(slots=True)
class File:
    """A file card: its name, that of its base where it is a delta, its bytes, and their size unpacked where they are packed."""
    name: bytes
    base: bytes | None
    data: memoryview
    unpacked: int | None

    def size(self) -> int:
        """How many bytes it has, or its delta."""
        return len(self.data) if self.unpacked is None else self.unpacked


@dataclass(slots=True)
class Message:
    """What a client sent: files, and between them what our server reads as it stands."""
    parts: list[bytearray | File] = field(default_factory=list)
    files: dict[bytes, File] = field(default_factory=dict)
    count: int = 0
    user: bytes | None = None
    claimed: bytes = b''
    codes: tuple[bytes, bytes] | None = None
    wants_private: bool = False
    is_clone: bool = False
    announced: dict[bytes, int] = field(default_factory=dict)
    unasked: int = 0
    notes: set[bytes] = field(default_factory=set)
    wants_shuns: bool = False
    counts: dict[bytes, int] = field(default_factory=dict)

    def add(self, line: bytes) -> None:
        """Puts a line behind what is there."""
        if not self.parts or isinstance(self.parts[-1], File):
            self.parts.append(bytearray())
        self.parts[-1] += line + b'\n'


class Reader:
    """Walks through the bytes of a message, card by card."""

    def __init__(self, body: bytes, users: dict[bytes, User], deadline: float):
        self.body, self.users, self.deadline = body, users, deadline
        self.view = memoryview(body)
        self.at = self.line = 0
        self.message = Message()

    def read(self) -> Message:
        """The message of all bytes; raises Refused for the first card that doesn't read."""
        while self.at < len(self.body):
            line = self.next_line()
            if line.startswith(b'#'):
                self.message.add(line)
            elif line:
                self.take([word for word in line.replace(b'\t', b' ').replace(b'\r', b' ').split(b' ') if word])
        return self.message

    def next_line(self) -> bytes:
        """The next line, without the blanks around it."""
        end = self.body.find(b'\n', self.at)
        end = len(self.body) if end < 0 else end
        line, self.at, self.line = self.body[self.at:end], end + 1, self.line + 1
        if self.line % 4096 == 0:
            stop_behind(self.deadline)
        return line.strip(BLANKS)

    def take(self, words: list[bytes]) -> None:
        """Takes one card into the message."""
        operator = words[0]
        counts = self.message.counts
        if operator == b'login':
            self.take_login(words)
        elif operator in (b'file', b'cfile'):
            self.take_file(words)
        elif operator in DROPPED:
            self.pass_over(words)
        elif operator in KNOWN:
            self.take_known(words)
        else:
            raise Refused(f'bad command: {shown(operator)}')
        counts[operator] = counts.get(operator, 0) + 1

    def fault(self) -> Refused:
        """What is said of a line that doesn't read."""
        return Refused(f'malformed line {self.line}')

    def want(self, words: list[bytes], count: int) -> None:
        """Refuses a card that hasn't so many words."""
        if len(words) != count:
            raise self.fault()

    def name(self, word: bytes) -> bytes:
        """A word that is a name of 40 digits."""
        if LONG_NAME.match(word):
            raise Refused('a name of 64 digits (SHA3), and only SHA-1 names are taken here: type "fossil hash-policy sha1" and commit again, or '
                          f'bring the whole project in by "move-in --rename": {word.decode()}')
        if not NAME.match(word):
            raise self.fault()
        return word

    def number(self, word: bytes) -> int:
        """A word that is a decimal number."""
        if not NUMBER.match(word):
            raise self.fault()
        return int(word)

    def take_login(self, words: list[bytes]) -> None:
        """The login, which stands once and before every other card, since it signs what is behind it."""
        if len(words) != 4 or self.message.counts:
            raise self.fault()
        name = self.message.claimed = unescaped(words[1])
        user = self.users.get(name) if name != b'nobody' else None
        if user is None or not is_signed(user, words[2], words[3], self.view[self.at:]):
            raise Refused('login failed')
        self.message.user = name

    def content(self, size: int) -> memoryview:
        """So many bytes from here on."""
        if size > len(self.body) - self.at:
            raise self.fault()
        begin, self.at = self.at, self.at + size
        return self.view[begin:self.at]

    def take_file(self, words: list[bytes]) -> None:
        """A file card: `file NAME ?BASE? SIZE`, or `cfile NAME ?BASE? UNPACKED SIZE`."""
        is_packed = words[0] == b'cfile'
        if len(words) - is_packed not in (3, 4):
            raise self.fault()
        name = self.name(words[1])
        base = self.name(words[2]) if len(words) - is_packed == 4 else None
        unpacked = self.number(words[-2]) if is_packed else None
        file = File(name, base, self.content(self.number(words[-1])), unpacked)
        self.message.parts.append(file)
        self.message.files.setdefault(name, file)
        self.message.count += 1
        if self.message.count > FILES:
            raise Refused(f'more than {FILES} files in one message')

    def pass_over(self, words: list[bytes]) -> None:
        """A card that our server doesn't know, with its content; the client is told what isn't kept of it."""
        if words[0] == b'reqconfig':
            self.message.wants_shuns |= words[1:] in ([word] for word in OF_SHUNS)
        elif words[0] == b'config':
            self.want(words, 3)
            self.content(self.number(words[2]))
            self.message.notes.add(NO_CONFIGURATION)
        elif words[0] == b'uvfile':
            self.want(words, 6)
            # (the flags 1 and 4 say that no content follows)
            self.content(0 if self.number(words[5]) & 5 else self.number(words[4]))
            self.message.notes.add(NO_UNVERSIONED)

    def take_known(self, words: list[bytes]) -> None:
        """A card that our server reads as it is."""
        message, operator = self.message, words[0]
        if operator == b'gimme' and len(words) == 2 and LONG_NAME.match(words[1]):
            # (a client asks so for what an artifact of ours names: nothing is held under it, so nothing would come)
            message.unasked += 1
            return
        if operator in (b'igot', b'gimme') and len(words) > 1:
            self.name(words[1])
            if operator == b'igot' and len(message.announced) < ANNOUNCED:
                message.announced.setdefault(words[1], len(message.announced))
        elif operator in (b'push', b'pull') and len(words) > 2:
            message.codes = message.codes or (words[1], words[2])
        elif words[:2] == [b'pragma', b'send-private']:
            message.wants_private = True
        elif words[:2] == [b'pragma', b'uv-hash']:
            message.notes.add(NO_UNVERSIONED)
        elif operator == b'clone':
            message.is_clone = True
            # our server sends private artifacts by name alone, so such a clone asks by names
            words = words[:1] if message.wants_private else words
        message.add(b' '.join(words))


def stop_behind(deadline: float) -> None:
    """Refuses a message that takes too long."""
    if time.monotonic() > deadline:
        raise Refused('the message took too long')


def unpacked(data: bytes | memoryview, size: int) -> bytes:
    """Bytes of zlib that are exactly so many unpacked; raises ValueError for others, and unpacks no more than that."""
    stream = zlib.decompressobj()
    try:
        out = stream.decompress(data, size + 1)
    except zlib.error:
        raise ValueError('zlib') from None
    if len(out) != size or not stream.eof or stream.unused_data:
        raise ValueError('zlib')
    return out


def path_in(message: Message, name: bytes) -> str | None:
    """The path under which a check-in of the message that comes as it is has a file of this name."""
    card = re.compile(rb'^F (\S+) ' + name + rb'\b', re.MULTILINE)
    for part in message.parts:
        if isinstance(part, File) and part.base is None and part.size() <= 1 << 20:
            found = card.search(plain(part))
            if found:
                return shown(unescaped(found[1]))
    return None


def too_large(message: Message, file: File, size: int) -> Refused:
    """What is said of an artifact that is too large: its file, its size, the limit, and the way out."""
    path = path_in(message, file.name)
    what = f'{path} ({file.name.decode()[:10]})' if path else f'a file ({file.name.decode()})'
    return Refused(f'{what} has {size:,} bytes, and at most {ARTIFACT:,} can be kept here; take the check-in back: {TAKE_BACK}; fossil sync',
                   file.name)


def plain(file: File) -> bytes:
    """The bytes of a file card: an artifact, or a delta."""
    if file.unpacked is None:
        return bytes(file.data)
    if file.unpacked > ARTIFACT or len(file.data) < 4:
        raise Refused(f'{file.name.decode()} has {file.unpacked} bytes or is cut off', file.name)
    try:
        return unpacked(file.data[4:], file.unpacked)
    except ValueError:
        raise Refused(f"{file.name.decode()} doesn't unpack to {file.unpacked} bytes") from None


def made(file: File, base: bytes | None, deadline: float) -> bytes:
    """The artifact of a file card, over its base where it has one. Where it isn't sent as it is, it is held against its name."""
    out = plain(file)
    if file.base is not None:
        try:
            out = apply(base or b'', out, ARTIFACT, lambda: stop_behind(deadline))
        except TooLong:
            raise
        except DeltaFault as fault:
            raise Refused(f'the delta of {file.name.decode()} over {file.base.decode()}: {fault}') from None
    if (file.base is not None or file.unpacked is not None) and sha1(out) != file.name:
        raise Refused(f'{file.name.decode()} comes out with another name', file.name)
    return out


def bases_elsewhere(message: Message) -> list[bytes]:
    """The bases that a message names and doesn't bring, each once."""
    bases = (part.base for part in message.parts if isinstance(part, File) and part.base is not None)
    return list(dict.fromkeys(base for base in bases if base not in message.files))


class Maker:
    """Makes the artifacts of a message, of which some are deltas over others or over bases that the server gave."""

    def __init__(self, message: Message, bases: dict[bytes, bytes], deadline: float):
        self.message, self.bases, self.deadline = message, bases, deadline
        self.made: dict[bytes, bytes] = {}
        self.kept = {part.base for part in message.parts if isinstance(part, File)}
        self.total = sum(map(len, bases.values()))

    def base_of(self, file: File) -> bytes | None:
        """The base of a file, or None where the base, which the message brings, isn't made yet."""
        if file.base is None:
            return b''
        base = self.made.get(file.base)
        return self.bases.get(file.base) if base is None else base

    def make(self, file: File) -> bytes:
        """The artifact of a file. A chain of deltas may be long, so it is walked and not called."""
        chain, waiting = [file], {file.name}
        while (base := self.base_of(chain[-1])) is None:
            below = self.message.files.get(chain[-1].base)
            if below is None or below.name in waiting:
                raise Refused(f'no base {chain[-1].base.decode()} for {chain[-1].name.decode()}')
            chain.append(below)
            waiting.add(below.name)
        while chain:
            base = self.keep(chain.pop(), base)
        return base

    def keep(self, file: File, base: bytes | None) -> bytes:
        """Makes one artifact, and keeps it where it is a base."""
        stop_behind(self.deadline)
        content = self.made.get(file.name)
        if content is None or file is not self.message.files[file.name]:
            try:
                content = made(file, base, self.deadline)
            except TooLong as fault:
                raise too_large(self.message, file, fault.size) from None
            if file.name in self.kept:
                self.made.setdefault(file.name, content)
                self.total += len(content)
        if self.total > MESSAGE:
            raise Refused(f"the message's bases have more than {MESSAGE} bytes: try a lower setting max-upload")
        return content


def translated(message: Message, bases: dict[bytes, bytes], deadline: float) -> bytearray:
    """The message as our server reads it, without a login. Raises Refused for a file that can't be made, or where it gets too long."""
    for part in message.parts:
        if isinstance(part, File) and part.base is None and (size := part.size()) > ARTIFACT:
            raise too_large(message, part, size)
    maker, out = Maker(message, bases, deadline), bytearray()
    for part in message.parts:
        if isinstance(part, File):
            content = maker.make(part)
            out += b'file %s %d\n' % (part.name, len(content)) + content + b'\n'
        else:
            out += part
        # (a login card takes its room too)
        if len(out) > MESSAGE - 4096:
            raise Refused(f'the message is longer than {MESSAGE} bytes when it is unpacked: try a lower setting max-upload')
    return out


def login_for(message: Message, text: bytes | bytearray, users: dict[bytes, User]) -> bytes:
    """The login of a message's user for another text, or nothing where there is none."""
    return b'' if message.user is None else login_of(escaped(message.user), users[message.user].secret, text)


def may(letter: bytes, message: Message, users: dict[bytes, User]) -> bool:
    """Whether the sender of a message has a letter: what `nobody` may is for every message."""
    return any(name in users and letter in users[name].letters for name in (message.user, b'nobody'))


def may_have_private(message: Message, users: dict[bytes, User]) -> bool:
    """Whether the sender of a message may have private artifacts."""
    return may(b'x', message, users)


def shun_card(name: str) -> bytes:
    """The card by which Fossil's client puts a name on its own list of shunned ones: a moment (long ago, so that the client's own rows
    stand), the name, and why."""
    row = f"1 '{name}' scom 'shunned at the server'"
    return f'config /shun {len(row)}\n{row}\n'.encode()


def asked_for(message: Message, names: list[bytes]) -> bytes:
    """The text that asks the server for artifacts, with the rights of the client and no more."""
    if message.codes is None:
        raise Refused(f'no base {names[0].decode()}, and no push or pull card')
    private = b'pragma send-private\n' if message.wants_private else b''
    return b'pull %s %s\n' % message.codes + private + b''.join(b'gimme %s\n' % name for name in names)


def files_of(reply: bytes, has_private: bool = True) -> dict[bytes, bytes]:
    """The files of a reply of our server; where it is said, without those behind the card `private`."""
    at, files, is_private = 0, {}, False
    while at < len(reply):
        end = reply.find(b'\n', at)
        end = len(reply) if end < 0 else end
        words, at = reply[at:end].split(), end + 1
        if len(words) == 3 and words[0] == b'file':
            size = int(words[2])
            if has_private or not is_private:
                files[words[1]] = reply[at:at + size]
            at += size
        # (the line behind a file's bytes is empty)
        is_private = words == [b'private'] or (is_private and not words)
    return files


def said_in(reply: bytes) -> str:
    """What the server says where its reply is an error card alone."""
    return f': {shown(unescaped(reply[6:].strip()))}' if reply.startswith(b'error ') else ''


def fetched(message: Message, ask: Callable[[bytes], bytes], deadline: float) -> dict[bytes, bytes]:
    """The bases of a message that the server holds; `ask` sends one text to it. Raises Refused for the first that it doesn't give."""
    names, bases = bases_elsewhere(message), {}
    while names:
        stop_behind(deadline)
        reply = ask(asked_for(message, names))
        found = files_of(reply)
        left = [name for name in names if name not in found]
        if len(left) == len(names):
            raise NoBase(names[0], said_in(reply))
        bases |= {name: found[name] for name in names if name in found}
        if sum(map(len, bases.values())) > MESSAGE:
            raise Refused(f"the message's bases have more than {MESSAGE} bytes: try a lower setting max-upload")
        names = left
    return bases


def for_client(message: Message, reply: bytes) -> bytes:
    """A reply of the server as Fossil's client wants it.

    The client sends what it is asked for in the order of the gimme cards, and may send it as a delta of what isn't at the server yet; it
    announces in the order in which it got things, so in this order a base comes before its deltas. And a push card, by which it clones on,
    has to stand behind the clone_seqno card that says from where."""
    at, push, lines, gimmes = 0, b'', [], []
    while (end := reply.find(b'\n', at)) >= 0:
        line = reply[at:end + 1]
        if line.startswith(b'push '):
            push = line
        elif line.startswith(b'gimme '):
            gimmes.append(line)
        elif line.startswith((b'error ', b'igot ')):
            lines.append(line)
        else:
            break
        at = end + 1
    gimmes.sort(key=lambda line: message.announced.get(line[6:-1], ANNOUNCED))
    return b''.join(lines + gimmes) + reply[at:] + push
