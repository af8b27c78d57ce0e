"""The links in texts of a project to its artifacts, and how they are written anew where these get other names."""
import bisect
import re
from typing import Iterable, Mapping

LINK = re.compile(rb'(?:(?<=\[)|(?<=/info/)|(?<=/info\?name=)|(?<=/ci/)|(?<=/vinfo/)|(?<=/artifact/)|(?<=/timeline\?c=)|(?<=/forumpost/))'
                  rb'([0-9a-f]{8,64})(?![0-9a-zA-Z_])|(?<![0-9a-zA-Z_])([0-9a-f]{64})(?![0-9a-zA-Z_])')
SHORTEST, LONGEST = 16, 40


def beginning_with(names: list[str], prefix: str) -> list[str]:
    """The first two of these names, which stand by rising name, that begin so; fewer where there are fewer."""
    at = bisect.bisect_left(names, prefix)
    return [name for name in names[at:at + 2] if name.startswith(prefix)]


class Links:
    """The links to the artifacts of a project, which may be named by a part of their digits. Where a ticket's id begins so too, it is no
    link to an artifact."""

    def __init__(self, names: Iterable[str], tickets: Iterable[str]):
        self.names, self.tickets = sorted(names), sorted(tickets)
        self.written: set[str] = set()
        self.count, self.left = 0, 0

    def named(self, prefix: str) -> str | None:
        """The one artifact whose name begins so, or None."""
        found = beginning_with(self.names, prefix)
        return found[0] if len(found) == 1 and not beginning_with(self.tickets, prefix) else None

    def targets(self, text: bytes) -> set[str]:
        """What the links of a text name."""
        found = (self.named((link[1] or link[2]).decode()) for link in LINK.finditer(text))
        return {name for name in found if name is not None}

    def renamed(self, text: bytes, new: Mapping[str, str]) -> bytes:
        """A text with its links under new names: as many digits as before, at least 16 and at most 40. A link to what has no new name yet
        stays as it is, which only a circle of links can bring about."""
        def link(found: re.Match) -> bytes:
            word = (found[1] or found[2]).decode()
            name = self.named(word)
            if name is None or name == new.get(name):
                return found[0]
            if name not in new:
                self.left += 1
                return found[0]
            prefix = new[name][:min(LONGEST, max(len(word), SHORTEST))]
            self.count += 1
            self.written.add(prefix)
            return prefix.encode()
        return LINK.sub(link, text)

    def doubtful(self, names: Iterable[str]) -> list[str]:
        """Those of the digits that were written that don't name one of these names alone."""
        rising = sorted(set(names))
        return sorted(prefix for prefix in self.written if len(beginning_with(rising, prefix)) != 1)
