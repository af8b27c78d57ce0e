"""What the scripts on a server share: a server of a repository, requests and their replies."""
import hashlib
import socket
import subprocess
import time

PROJECT, SERVER = '1' * 40, '2' * 40
CODES = f' {SERVER} {PROJECT}\n'.encode()


def push(cards=b''):
    return b'push' + CODES + cards


def pull(cards=b''):
    return b'pull' + CODES + cards


def logged_in(user, secret, message):
    """A message behind its login card, whose nonce is the hash of the message."""
    nonce = hashlib.sha1(message).hexdigest().encode()
    signature = hashlib.sha1(nonce + secret).hexdigest().encode()
    return b'login %s %s %s\n' % (user, nonce, signature) + message


def request(message):
    """The bytes of a request with a message."""
    return b'POST /xfer HTTP/1.1\r\nContent-Type: application/x-fossil-uncompressed\r\nContent-Length: %d\r\n\r\n' % len(message) + message


def free_port():
    with socket.socket() as probe:
        probe.bind(('127.0.0.1', 0))
        return probe.getsockname()[1]


class Serving:
    """A server that runs until each of its workers took so many connections."""

    def __init__(self, built, repository, users, workers, requests):
        self.port = free_port()
        words = ['serve', f'127.0.0.1:{self.port}', users, str(workers), str(requests)]
        self.process = subprocess.Popen([built, repository, *words], stdout=subprocess.PIPE)

    def ended(self, seconds=60):
        """Its status and what it printed, once its last connection is served."""
        printed, _ = self.process.communicate(timeout=seconds)
        return self.process.returncode, printed


def connected(port, patience=0):
    """A connection; for so many seconds a server is waited for that doesn't listen yet."""
    end = time.monotonic() + patience
    while True:
        try:
            return socket.create_connection(('127.0.0.1', port), timeout=max(90, patience))
        except ConnectionRefusedError:
            if time.monotonic() > end:
                raise
            time.sleep(0.01)


def replied(port, sent, patience=0, is_all=False):
    """Everything that is sent back to these bytes, to the end of the connection; where they are all, the server sees their end."""
    with connected(port, patience) as link:
        link.sendall(sent)
        if is_all:
            link.shutdown(socket.SHUT_WR)
        pieces = []
        while piece := link.recv(1 << 16):
            pieces.append(piece)
    return b''.join(pieces)


def ready(port, patience=60):
    """Waits until a server has loaded its repository: it listens before that, and answers behind it."""
    assert replied(port, b'GET / HTTP/1.0\r\n\r\n', patience).startswith(b'HTTP/1.1 405')


def body_of(reply):
    """The message of a reply, or None where it isn't one, or isn't whole."""
    head, found, body = reply.partition(b'\r\n\r\n')
    if not found:
        return None
    lines = head.split(b'\r\n')
    lengths = [int(line.split(b':')[1]) for line in lines if line.lower().startswith(b'content-length:')]
    return body if b' 200 ' in lines[0] + b' ' and lengths == [len(body)] else None
