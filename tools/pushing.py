"""A new repository as the program serves it to a move alone, which pushes artifacts to it: so it is loaded once, however many these are."""
import contextlib
import hashlib
import http.client
import os
import socket
import subprocess
import time
from typing import Iterable

from moving import Stop, bound, go_on, name_of, program

# a message of this many bytes has a reply soon enough, and takes little memory
MESSAGE = 1 << 23
TYPE = 'application/x-fossil-uncompressed'
USER = 'move-in'
TRIES, STEP = 5, 0.02
SECONDS, SOON = 600, 10
# what a reply to a push has where all of it was taken
GOOD = b'gimme', b'igot', b'push', b'pull', b'cookie', b'pragma'


def free_port() -> int:
    """A port of this machine that nobody listens at just now."""
    with socket.socket() as probe:
        probe.bind(('127.0.0.1', 0))
        return probe.getsockname()[1]


class Server:
    """The server of a new repository in a folder of the move. Only who knows a secret that was made for it can push."""

    def __init__(self, new: str, folder: str, project: str):
        self.new, self.project, self.port = new, project, 0
        self.secret = os.urandom(20).hex()
        self.users, self.log = os.path.join(folder, 'pushing'), os.path.join(folder, 'log')
        self.process: subprocess.Popen | None = None

    def __enter__(self) -> 'Server':
        with open(self.users, 'w', encoding='ascii') as out:
            out.write(f'{USER} oix {self.secret}\n')
        try:
            self.start()
        except BaseException:
            self.end()
            raise
        return self

    def __exit__(self, *_: object) -> None:
        self.end()

    def start(self) -> None:
        """Starts the program at a port that is free."""
        for _ in range(TRIES):
            self.port = free_port()
            if self.is_up():
                return
        raise Stop(f'the program serves nothing at 127.0.0.1: {self.said()}')

    def is_up(self) -> bool:
        """Starts the program at the port and waits until it listens there; False where it ended first, as where the port was taken."""
        with open(self.log, 'wb') as log:
            words = [program(), self.new, 'serve', f'127.0.0.1:{self.port}', self.users, '1', '65536']
            self.process = subprocess.Popen(bound(words), stdin=subprocess.DEVNULL, stdout=log, stderr=log)
        while self.process.poll() is None:
            go_on()
            if f'listening at 127.0.0.1:{self.port}' in self.said():
                return True
            time.sleep(STEP)
        return False

    def said(self) -> str:
        """What the program said."""
        with open(self.log, encoding='utf-8', errors='replace') as log:
            return log.read().strip()

    def end(self) -> None:
        """Ends the program: what it answered is committed by then."""
        if self.process is None:
            return
        self.process.terminate()
        try:
            self.process.wait(SOON)
        except subprocess.TimeoutExpired:
            self.process.kill()
            self.process.wait()

    def push(self, parts: Iterable[bytes]) -> None:
        """Pushes parts of a message; stops where not all of it was taken."""
        message = f'push {name_of(os.urandom(20))} {self.project}\n'.encode() + b''.join(parts)
        nonce = hashlib.sha1(message).hexdigest()
        login = f'login {USER} {nonce} {name_of((nonce + self.secret).encode())}\n'.encode()
        status, reply = self.answer(login + message)
        wrong = [line for line in reply.split(b'\n')[:-1] if not line.startswith(GOOD)]
        if status != 200 or wrong:
            raise Stop(f'the program answered {status} {b"; ".join(wrong[:3]).decode("utf-8", "replace")}')

    def answer(self, message: bytes) -> tuple[int, bytes]:
        """The status and the body of the reply to a message. Where the machine is so busy that the server gives the connection up, the same
        message is sent again: what was taken of it is only passed over then."""
        fault: Exception | None = None
        for _ in range(TRIES):
            go_on()
            try:
                return self.answer_at_once(message)
            except (OSError, http.client.HTTPException) as broken:
                fault = broken
            if self.process.poll() is not None:
                break
        go_on()
        raise Stop(f'the program took no message: {fault}; {self.said()}')

    def answer_at_once(self, message: bytes) -> tuple[int, bytes]:
        """The same, of one connection."""
        with contextlib.closing(http.client.HTTPConnection('127.0.0.1', self.port, timeout=SECONDS)) as link:
            link.request('POST', '/', message, {'Content-Type': TYPE})
            reply = link.getresponse()
            return reply.status, reply.read()
