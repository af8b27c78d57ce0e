"""Telling the `up` that runs with a folder something: by a socket in it that its user alone reaches."""
import contextlib
import json
import os
import socket
import threading
from typing import Callable

from people import Wrong
from saying import say

LONGEST = 1 << 20
NOTHING = 2


def path_in(folder: str) -> str:
    """The place of the socket."""
    return os.path.join(folder, 'control')


class Told:
    """What is asked of the one that runs: a word, what comes with it, and the three streams of the one that asks."""

    def __init__(self, link: socket.socket):
        text, self.streams, _, _ = socket.recv_fds(link, LONGEST, 3)
        try:
            self.word, *self.words = words_of(link, text)
        except BaseException:
            self.close()
            raise

    def close(self) -> None:
        """Lets go of the streams."""
        for stream in self.streams:
            os.close(stream)


def words_of(link: socket.socket, text: bytes) -> list[str]:
    """The words of a line, of which some bytes came already. Wrong for what isn't a line of words."""
    while not text.endswith(b'\n'):
        data = link.recv(LONGEST)
        if not data or len(text) + len(data) > LONGEST:
            raise Wrong('the one that asked went away amid its words, or has too many')
        text += data
    try:
        words = json.loads(text)
    except ValueError:
        words = []
    if not isinstance(words, list) or not words or not all(isinstance(word, str) for word in words):
        raise Wrong('these are no words')
    return words


def listen(folder: str, answer: Callable[[Told], tuple[int, str]]) -> socket.socket:
    """Answers what is asked, each in a thread of its own, with a status and a text; gives the socket."""
    path = path_in(folder)
    with contextlib.suppress(FileNotFoundError):
        os.unlink(path)
    door = socket.socket(socket.AF_UNIX)
    with place_of(folder) as place:
        door.bind(place)
    os.chmod(path, 0o600)
    door.listen(8)

    def serve(link: socket.socket) -> None:
        with link:
            try:
                told = Told(link)
                try:
                    said = answer(told)
                finally:
                    told.close()
            except Wrong as fault:
                said = 1, f'{fault}'
            except Exception as fault:
                said = 1, f'{fault}'
                say(f'control: {fault!r}')
            with contextlib.suppress(OSError):
                link.sendall(json.dumps(said).encode())

    def loop() -> None:
        with contextlib.suppress(OSError):
            while True:
                threading.Thread(target=serve, args=(door.accept()[0],), daemon=True).start()

    threading.Thread(target=loop, daemon=True).start()
    return door


@contextlib.contextmanager
def place_of(folder: str):
    """The path of the socket, by the open folder: a path of a socket has at most some hundred bytes."""
    at = os.open(folder, os.O_PATH | os.O_DIRECTORY)
    try:
        yield f'/proc/self/fd/{at}/control'
    finally:
        os.close(at)


def tell(folder: str, words: list[str]) -> tuple[int, str] | None:
    """What the one that runs with a folder answers; None where none runs."""
    with socket.socket(socket.AF_UNIX) as link:
        try:
            with place_of(folder) as place:
                link.connect(place)
        except PermissionError:
            raise Wrong(f'{path_in(folder)} is for the user of up alone') from None
        except OSError:
            return None
        socket.send_fds(link, [json.dumps(words).encode() + b'\n'], [0, 1, 2])
        answer = b''
        with contextlib.suppress(OSError):
            while data := link.recv(LONGEST):
                answer += data
    if not answer:
        return 1, 'it ended meanwhile'
    status, text = json.loads(answer)
    return status, text
