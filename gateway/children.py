"""Children that are started again: none outlives this process, and what needs one waits while it is away."""
import http.client
import os
import signal
import socket
import subprocess
import sys
import threading
import time
from typing import Any, Callable

import web
from owner import Owner, bound
from saying import say

# how long a request waits for a child that went away, and at least for one that is away for long; how long a child may take until it answers, and
# how long one has to end: seconds
HOLD, BRIEF, START, END = 45.0, 12.0, 300.0, 5.0
# how long a child that goes away for a command is left to those who asked before; then they ask again
PATIENCE = 20.0
# how long a child is left alone between two starts, at first and at most, and behind how many good seconds that begins anew
SHORTEST, LONGEST, GOOD = 0.2, 10.0, 30.0
# how often a child is looked at, and how many of these looks may fail one after the other
LOOK, BAD = 10.0, 3
# how often a request is asked in all that meets a child which goes away, and one that is refused by a repository which stopped (that of a full disk)
TRIES, REFUSALS = 12, 3
STOPPED = 'the server answers 500'
# what the statuses of the program mean here, and those behind which a start is of no use
WHY = {0: 'its workers took all their connections', 1: 'its words are wrong', 2: 'the file is no repository of this program',
       3: 'the users file is wrong', 4: 'the file is away, fails, or another process has it', 5: "the users file can't be read",
       7: 'nothing could listen at its port', 9: 'it was out of memory'}
LASTING = {1, 2, 3}


def free_port() -> int:
    """A port of this machine that nobody had a moment ago."""
    with socket.create_server(('127.0.0.1', 0)) as door:
        return door.getsockname()[1]


def why_ended(status: int) -> str:
    """What the status of a child says."""
    return f'ended by {signal.Signals(-status).name}' if status < 0 else WHY.get(status, f'ended with status {status}')


class Child:
    """A server in a process of its own, on a port of this machine. `words` makes its words of a port, and `answers` says what is wrong with the one
    at a port, or None."""

    def __init__(self, name: str, words: Callable[[int], list[str]], answers: Callable[[int], str | None], owner: Owner | None = None):
        self.name, self.words, self.answers, self.owner = name, words, answers, owner
        self.process: subprocess.Popen | None = None
        self.port = self.starts = self.asking = 0
        self.pause, self.why, self.is_lasting = SHORTEST, 'not started yet', False
        self.is_open = self.is_told = False
        self.away_since = time.monotonic()
        self.turn, self.wake = threading.Condition(), threading.Event()
        self.jobs: list[tuple[Callable[[], Any], list]] = []
        # (one thread for good, since a child ends with the thread that started it)
        self.thread = threading.Thread(target=self.keep, daemon=True)

    # ---- the thread that keeps it

    def keep(self) -> None:
        """Starts the child, looks at it, and starts it again."""
        while not self.is_told:
            begin = time.monotonic()
            try:
                self.serve()
            except Exception as fault:
                self.why = f"can't be started: {fault}"
            self.let_through(False)
            self.end()
            if self.jobs:
                self.do_jobs()
            elif not self.is_told:
                self.rest(time.monotonic() - begin > GOOD)

    def serve(self) -> None:
        """Starts the child, lets requests through, and looks at it until it is away or has to go."""
        begin = time.monotonic()
        if self.is_started():
            self.let_through(True)
            say(f'{self.name}: answers at {self.port} (process {self.process.pid}) after {time.monotonic() - begin:.2f} s')
            self.look()

    def is_started(self) -> bool:
        """Starts the child, and waits until it answers; `why` says what is wrong where it doesn't."""
        self.port, self.starts = free_port(), self.starts + 1
        words = bound(self.words(self.port), self.owner)
        self.process = subprocess.Popen(words, stdin=subprocess.DEVNULL, stdout=sys.stderr, start_new_session=True)
        end, said = time.monotonic() + START, ''
        while said is not None and not self.is_told and time.monotonic() < end:
            if self.process.poll() is not None:
                self.why, self.is_lasting = why_ended(self.process.returncode), self.process.returncode in LASTING
                return False
            said = self.answers(self.port)
            if said is not None:
                time.sleep(0.02)
        self.why = said or ''
        return said is None

    def look(self) -> None:
        """Looks at a child that answers, until it ends, fails, or is to go away for a job."""
        bad, last = 0, time.monotonic()
        while not self.is_told and not self.jobs:
            is_asked = self.wake.wait(0.1)
            self.wake.clear()
            if self.process.poll() is not None:
                self.why = why_ended(self.process.returncode)
                return
            if is_asked or time.monotonic() - last > LOOK:
                last = time.monotonic()
                said = self.answers(self.port)
                bad = 0 if said is None else bad + 1
                # (a repository that stopped answers 500 until its file is opened again)
                if said is not None and (said == STOPPED or bad == BAD):
                    self.why = said
                    return

    def rest(self, was_good: bool) -> None:
        """Lets some time go by before the next start, more behind each failure."""
        if was_good:
            self.pause = SHORTEST
        say(f'{self.name}: {self.why}; started again in {self.pause:.1f} s')
        self.wake.clear()
        end = time.monotonic() + self.pause
        while not self.is_told and not self.jobs and time.monotonic() < end:
            self.wake.wait(end - time.monotonic() if end > time.monotonic() else 0)
            self.wake.clear()
        self.pause = min(self.pause * 2, LONGEST)

    def do_jobs(self) -> None:
        """Does what needs the child away."""
        jobs, self.jobs = self.jobs, []
        for job, done in jobs:
            try:
                done.append(job())
            except Exception as fault:
                done.append(fault)
        self.why, self.pause = 'away for a command', SHORTEST

    def end(self) -> None:
        """Ends the child with all that it started, once no request is under way."""
        with self.turn:
            self.turn.wait_for(lambda: self.is_told or not self.asking or self.process is None or self.process.poll() is not None, PATIENCE)
        if self.process is None:
            return
        for sign in (signal.SIGTERM, signal.SIGKILL):
            try:
                os.killpg(self.process.pid, sign)
            except OSError:
                pass
            try:
                self.process.wait(END)
                return
            except subprocess.TimeoutExpired:
                pass

    def let_through(self, is_open: bool) -> None:
        """Lets requests through, or has them wait."""
        with self.turn:
            if self.is_open and not is_open:
                self.away_since = time.monotonic()
            self.is_open = is_open
            self.turn.notify_all()

    def patience(self) -> float:
        """How many seconds a request waits that comes now."""
        return HOLD if self.is_open else max(BRIEF, self.away_since + HOLD - time.monotonic())

    # ---- for other threads

    def begin(self) -> None:
        """Begins to keep it."""
        self.thread.start()

    def wait_open(self, seconds: float) -> bool:
        """Whether it answers, at the latest behind so many seconds."""
        with self.turn:
            return self.turn.wait_for(lambda: self.is_open, max(0.0, seconds))

    def away_for(self, job: Callable[[], Any], seconds: float = 24 * 3600.0) -> Any:
        """What a job gives that is done while the child is away, once the child is back; requests wait meanwhile. Raises what the job raises."""
        done: list = []
        self.jobs.append((job, done))
        end = time.monotonic() + seconds
        while not done and time.monotonic() < end:
            self.wake.set()
            time.sleep(0.01)
        if not done:
            raise TimeoutError(f'{self.name} was busy all the time')
        self.wait_open(HOLD)
        if isinstance(done[0], Exception):
            raise done[0]
        return done[0]

    def asked(self, pieces: list[bytes | bytearray]) -> bytes:
        """The reply to a message. It waits while the child is away, and asks again where the child went away meanwhile: a message that was taken
        twice is as one that was taken once."""
        end, count = time.monotonic() + self.patience(), 0
        while True:
            try:
                return self.asked_once(pieces, end)
            except web.NoServer as fault:
                count += 1
                if count == (REFUSALS if fault.status == 500 else TRIES) or time.monotonic() > end:
                    raise
                say(f'{self.name}: {fault}; asked again')
                if self.process and self.process.poll() is not None:
                    self.let_through(False)
                self.wake.set()
            # (until the thread that keeps it has seen that it is away)
            time.sleep(0.3)

    def asked_once(self, pieces: list[bytes | bytearray], end: float) -> bytes:
        """The reply to a message, for which the child is waited for up to a moment."""
        with self.turn:
            if not self.turn.wait_for(lambda: self.is_open, max(0.0, end - time.monotonic())):
                raise web.NoServer(self.why, 503)
            self.asking += 1
            port = self.port
        try:
            return web.asked(('127.0.0.1', port), *pieces)
        finally:
            with self.turn:
                self.asking -= 1
                self.turn.notify_all()

    def stop(self) -> None:
        """Ends it for good."""
        self.is_told = True
        if self.thread.ident is not None:
            self.wake.set()
            self.thread.join(2 * END + 2)
        self.end()


def repository_answers(port: int) -> str | None:
    """What is wrong with the program that serves, which stores nothing for an empty message."""
    try:
        web.asked(('127.0.0.1', port), b'')
    except web.NoServer as fault:
        return str(fault)
    return None


def pages_answer(port: int) -> str | None:
    """What is wrong with Fossil's own server."""
    link = http.client.HTTPConnection('127.0.0.1', port, timeout=20)
    try:
        link.request('GET', '/login', headers={'Connection': 'close'})
        status = link.getresponse().status
        return None if status < 500 else f'the pages answer {status}'
    except (OSError, http.client.HTTPException) as fault:
        return f'no pages at 127.0.0.1:{port}: {fault!r}'
    finally:
        link.close()
