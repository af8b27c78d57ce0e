"""A repository of Fossil 2 that moves in: as it is, and under new names."""
import os
import re

from copying import limits_for, need_room
from links import Links
from moving import ARTIFACT, Stop, name_of, rows_of, run
from renaming import DIGITS, Renaming

TAGS = "SELECT tagname, coalesce(value, '') FROM tagxref JOIN tag USING (tagid) JOIN blob USING (rid) WHERE tagtype > 0 AND uuid = '{}'"


class Old:
    """What a repository of Fossil 2 holds, private and shunned ones among it. `path` is a copy of it (copying.py), which is only read, and
    `title` what it is called. `long` has the names of 64 digits, `great` what is too large, `others` what has another name than the SHA-1 of
    its bytes, and `copies` files that are kept beside what their bytes mean."""

    def __init__(self, path: str, title: str):
        self.path, self.title = os.path.abspath(path), title
        self.project = self.one("SELECT value FROM config WHERE name='project-code'", '[0-9a-f]{40}')
        # (in the order in which they came)
        self.names = {name: size for name, size in self.rows('SELECT uuid, size FROM blob WHERE size >= 0 ORDER BY rid')}
        self.private = {name for name, in self.rows('SELECT uuid FROM blob JOIN private USING (rid) WHERE size >= 0')}
        self.shunned = {name for name, in self.rows('SELECT uuid FROM shun')}
        self.long = {name for name in self.names if len(name) != DIGITS}
        self.great = {name for name, size in self.names.items() if size > ARTIFACT}
        self.others: set[str] = set()
        self.copies: set[str] = set()
        self.limits = limits_for(self.names.values(), os.path.dirname(self.path))

    def rows(self, query: str) -> list[tuple]:
        """The rows of a query whose first column has no names, or names of artifacts."""
        return rows_of(self.path, query)

    def one(self, query: str, form: str) -> str:
        """The one value of a query, which has a form."""
        rows = self.rows(query)
        if len(rows) != 1 or not re.fullmatch(form, str(rows[0][0])):
            raise Stop(f'{self.title} has no project code of 40 digits')
        return str(rows[0][0])

    @property
    def out(self) -> set[str]:
        """The names that can't be taken."""
        return self.long | self.great | self.others

    def taken(self) -> set[str]:
        """The names that the new repository is to hold."""
        return self.names.keys() - self.out - self.shunned

    def shuns(self) -> set[str]:
        """The names that it is to shun."""
        return {name for name in self.shunned if len(name) == DIGITS}

    def tags_of(self, name: str) -> dict[str, str]:
        """The tags that are in force on an artifact, with their values."""
        return dict(self.rows(TAGS.format(name)))

    def said(self, text: str) -> str:
        """A comment as the new repository has it."""
        return text

    def write_out(self, folder: str) -> None:
        """Has Fossil write the artifacts into a new folder, each at the place of its name."""
        os.mkdir(folder)
        need_room(self.names.values(), folder)
        run(['fossil', 'deconstruct', '--private', '-R', self.path, folder], limits=self.limits)

    def shunned_content(self, name: str) -> bytes:
        """The bytes of a shunned artifact, which Fossil writes into no folder, but gives alone until the next rebuild."""
        return run(['fossil', 'artifact', name, '-R', self.path], limits=self.limits)

    def files_of(self, name: str) -> str:
        """The paths that an artifact is the content of, as they are said, or its name where it is none's."""
        rows = rows_of(self.path, f"SELECT DISTINCT filename.name FROM mlink JOIN filename USING (fnid) JOIN blob ON fid = rid WHERE uuid = '{name}'")
        return ', '.join(sorted(path for path, in rows)) or name

    def shunned_anew(self) -> dict[str, str]:
        """The new names of what is shunned: that of its bytes where Fossil has them yet, else the first 40 digits of the old one."""
        held = self.names.keys() & self.shunned
        return {name: name_of(self.shunned_content(name)) if name in held and len(name) != DIGITS else name[:DIGITS] for name in self.shunned}

    def project_anew(self, has_links: bool) -> str:
        """The code of the project that this one becomes under new names: another one, since a clone that knows the old names would get all
        of it a second time; and always the same one."""
        return name_of(f'fossil sha1 {"links " * has_links}{self.project}'.encode())

    def renaming(self, folder: str, has_links: bool) -> Renaming:
        """New names for its artifacts, which Fossil wrote into a folder."""
        links = Links(self.names, {ticket for ticket, in self.rows('SELECT tkt_uuid FROM ticket')}) if has_links else None
        return Renaming(folder, [name for name in self.names if name not in self.shunned], self.shunned_anew(), links)


class Renamed(Old):
    """What a repository of Fossil 2 holds, under new names."""

    def __init__(self, old: Old, renaming: Renaming):
        self.map: dict[str, str] = {}
        super().__init__(old.path, old.title)
        self.renaming, self.map = renaming, renaming.new
        self.back = {new: name for name, new in reversed([*renaming.new.items()])}
        self.project = old.project_anew(renaming.links is not None)
        # (of two names that become one, it is public where one of them was)
        public = {row.new for row in renaming.written if row.old not in old.private}
        self.names = {row.new: row.size for row in renaming.written}
        self.private = self.names.keys() - public
        self.shunned = set(renaming.shunned.values())
        self.great = {name for name, size in self.names.items() if size > ARTIFACT}
        self.long, self.others, self.copies = set(), renaming.others, set(renaming.copies.values())

    def rows(self, query: str) -> list[tuple]:
        return [(self.map.get(first, first), *others) for first, *others in super().rows(query)]

    def tags_of(self, name: str) -> dict[str, str]:
        found = super().tags_of(self.back.get(name, name))
        return {tag: self.parents(value) if tag == 'parent' else self.said(value) if tag == 'comment' else value for tag, value in found.items()}

    def parents(self, value: str) -> str:
        """The value of a tag that gives a check-in other parents."""
        return ' '.join(self.map.get(word, word) for word in value.split(' '))

    def said(self, text: str) -> str:
        return self.renaming.linked(text.encode()).decode()

    def shunned_content(self, name: str) -> bytes:
        content = super().shunned_content(self.back[name])
        return self.renaming.text(content) if self.renaming.is_cards(content) else content

    def files_of(self, name: str) -> str:
        return super().files_of(self.back.get(name, name))
