"""How much room there is for a file, in words, with a line when it ends and when there is some again."""
import os

from saying import say

FULL, SOON = 1 << 20, 64 << 20


class Disk:
    """The disk on which a file is."""

    def __init__(self, path: str):
        self.path, self.was_full = os.path.abspath(path), False

    def free(self) -> int:
        """How many bytes this process may still write there; enough where that can't be found out."""
        try:
            known = os.statvfs(os.path.dirname(self.path))
        except OSError:
            return SOON
        return (known.f_bfree if os.geteuid() == 0 else known.f_bavail) * known.f_frsize

    def is_full(self) -> bool:
        """Whether no more goes there. It is said once when that begins, and once when it ends."""
        is_full = self.free() < FULL
        if is_full != self.was_full:
            self.was_full = is_full
            say(f'the disk of {self.path} is full; nothing is taken until there is room' if is_full else f'there is room again for {self.path}')
        return is_full

    def status(self) -> str:
        """The line of a status."""
        free = self.free()
        if self.is_full():
            return f'full, {free} bytes free at {self.path}'
        return f'{free >> 20} MiB free at {self.path}{", soon full" if free < SOON else ""}'

    def why(self, otherwise: str, was_refused: bool) -> str:
        """Why the repository takes nothing: there is no room, or something else. Where the program refused something, little room is too little."""
        free = self.free()
        if self.is_full():
            return f'the disk is full ({free} bytes free)'
        return f'the disk is nearly full ({free >> 20} MiB free)' if was_refused and free < SOON else otherwise
