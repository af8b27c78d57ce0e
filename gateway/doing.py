"""Commands of the program on the repository that is served, for `up do`."""
import os
import subprocess
from typing import Callable

from control import Told
from making import program
from owner import bound
from people import Wrong

# what changes the file: for these the server is away. All others read
WRITING = {'put', 'shun', 'unshun', 'scrub', 'checkin', 'pull', 'pull-local', 'uv-add', 'uv-remove', 'uv-sync'}
# what makes a file or holds it for good, and what needs no repository
REFUSED = {'serve', 'init', 'clone', 'new', 'uv-init', 'help', 'version'}


class Command:
    """A command that is asked for: its words, the folder where it was typed, and the streams of the one that typed it."""

    def __init__(self, told: Told):
        self.folder, *self.words = told.words
        self.streams = told.streams
        if not self.words:
            raise Wrong('there is no command; up do FOLDER timeline 20')
        if self.words[0] in REFUSED or self.words[0].startswith('-'):
            raise Wrong(f'{self.words[0]} is no command for the repository that is served')
        if len(self.streams) != 3:
            raise Wrong('standard input, output and error have to be open')

    def run(self, path: str) -> int:
        """Runs the command on a file, and gives its status."""
        given, out, said = self.streams
        if not os.path.isdir(self.folder):
            raise Wrong(f"{self.folder} isn't there for the user of up")
        return subprocess.run(bound([program(), path, *self.words]), stdin=given, stdout=out, stderr=said, cwd=self.folder).returncode

    def is_writing(self) -> bool:
        """Whether the command changes the file."""
        return self.words[0] in WRITING


class Doing:
    """Does commands on a file: those that read beside the server where the program opens a file that another process has for reading, all others
    while the server is away and requests wait."""

    def __init__(self, path: str, away_for: Callable[[Callable[[], int]], int]):
        self.path, self.away_for, self.reads_beside = path, away_for, False

    def can_read_beside(self) -> bool:
        """Whether the program reads the file beside the server. That it can is found out once, by a report whose lines nobody sees."""
        if not self.reads_beside:
            nothing = subprocess.DEVNULL
            report = subprocess.run(bound([program(), self.path, 'leaves']), stdin=nothing, stdout=nothing, stderr=nothing)
            self.reads_beside = report.returncode == 0
        return self.reads_beside

    def do(self, command: Command) -> int:
        """Does a command, and gives its status."""
        if not command.is_writing() and self.can_read_beside():
            return command.run(self.path)
        return self.away_for(lambda: command.run(self.path))
