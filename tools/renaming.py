"""New names for the artifacts of a project of Fossil, so that each stands under its SHA-1.

What reads as cards is written anew, each behind what it names: names in B, F, P, Q, T, A, G and I cards become the new ones, and those in
tags `parent` and in titles `checkin/NAME`; T cards are put in order again, a PGP frame is dropped, Z is made anew. What names nothing, or
names nothing that gets another name, stays byte for byte. All other contents stay as they are. K and E cards, and A cards of tickets and
technotes, have ids and no names of artifacts, and stay; an A card of a post has its name. Clusters are left out."""
import hashlib
import os
import re
import shutil
from typing import Callable, Iterator, NamedTuple

from artifacts import LENGTH_OF_SEAL, SEAL, SIGNED, Card, cards_of, content_in, escaped, kind_of, place_in, text_of, unescaped
from hardened import hardened_names, is_hardened
from links import Links
from moving import Stop, counted, name_of

HASH = re.compile(rb'[0-9a-fA-F]{40}|[0-9a-fA-F]{64}')
FILE = re.compile(rb'(F [^ ]+ )([0-9a-fA-F]{64}|[0-9a-fA-F]{40})((?: .*)?)')
DIGITS = 40


class Written(NamedTuple):
    """An artifact under its new name: the old one, the new one, its kind, its size in bytes, and whether it had a signature."""
    old: str
    new: str
    kind: str
    size: int
    is_signed: bool = False


def is_named_rightly(name: str, content: bytes) -> bool:
    """Whether bytes have the name that Fossil gave them, plain SHA-1 or SHA3-256."""
    return (hashlib.sha3_256(content).hexdigest() if len(name) > DIGITS else name_of(content)) == name


def lowered(word: bytes) -> str:
    """A name as Fossil looks for it."""
    return word.decode('latin-1').lower()


def place_of_tag(card: Card) -> list[bytes]:
    """By what T cards are in order: their tags and targets."""
    return card.words[:2]


class Writer(NamedTuple):
    """Writes cards anew: each name as `name` gives it, what may be a name as `target` does, that of contents as `content` does, each text as
    `text` and the lines of F cards as `lines` do."""
    name: Callable[[bytes], bytes]
    target: Callable[[bytes], bytes]
    content: Callable[[bytes], bytes]
    text: Callable[[bytes], bytes]
    lines: Callable[[bytes], bytes]

    def card(self, card: Card) -> Card:
        """A card as it is written anew."""
        rule = RULES.get(card.letter)
        return rule(self, card) if rule and (card.words or card.letter == 'F') else card

    # (the rule of each letter, as RULES has them)

    def names(self, card: Card) -> Card:
        return card._replace(words=[self.name(word) for word in card.words])

    def pick(self, card: Card) -> Card:
        first, *more = card.words
        return card._replace(words=[first[:1] + self.name(first[1:]), *map(self.name, more)])

    def files(self, card: Card) -> Card:
        return card if card.words else card._replace(text=self.lines(card.text))

    def attachment(self, card: Card) -> Card:
        file, *target = card.words
        return card._replace(words=[file, *(self.target(self.title(word)) for word in target[:1]), *map(self.content, target[1:2]), *target[2:]])

    def tag(self, card: Card) -> Card:
        tag, *target = card.words
        value = {b'parent': self.parents, b'comment': self.plain_text}.get(tag[1:], bytes)
        return card._replace(words=[tag, *(word if word == b'*' else self.name(word) for word in target[:1]), *map(value, target[1:])])

    def first_title(self, card: Card) -> Card:
        return card._replace(words=[self.title(card.words[0]), *card.words[1:]])

    def comment(self, card: Card) -> Card:
        return card._replace(words=[self.plain_text(card.words[0]), *card.words[1:]])

    def field(self, card: Card) -> Card:
        return card._replace(words=[card.words[0], *map(self.plain_text, card.words[1:])])

    def body(self, card: Card) -> Card:
        text = self.text(card.text)
        return card if text == card.text else card._replace(words=[b'%d' % len(text)], text=text)

    def parents(self, value: bytes) -> bytes:
        """The value of a tag that gives a check-in other parents."""
        return b'\\s'.join(self.name(word) if HASH.fullmatch(word) else word for word in value.split(b'\\s'))

    def plain_text(self, word: bytes) -> bytes:
        """A text that stands in a card."""
        before = unescaped(word)
        after = self.text(before)
        return word if after == before else escaped(after)

    def title(self, title: bytes) -> bytes:
        """The title of a page; that of one about a check-in has its name."""
        head, _, name = title.partition(b'/')
        return head + b'/' + self.name(name) if head == b'checkin' and HASH.fullmatch(name) else title


RULES = {**dict.fromkeys('BGIP', Writer.names), 'Q': Writer.pick, 'F': Writer.files, 'A': Writer.attachment, 'T': Writer.tag,
         'L': Writer.first_title, 'C': Writer.comment, 'J': Writer.field, 'W': Writer.body}


class FileLines(dict):
    """The lines of F cards as they are written anew, each made when it is met first: most stand in many manifests."""

    def __init__(self, renaming: 'Renaming'):
        super().__init__()
        self.renaming = renaming

    def __missing__(self, line: bytes) -> bytes:
        found = FILE.fullmatch(line)
        self[line] = found[1] + self.renaming.content_named(found[2]) + found[3] if found else line
        return self[line]


class Renaming:
    """The new names of artifacts that Fossil wrote into a folder. `names` stand in the order in which they came to the project, so that a
    clone gets them in that order, and `shunned` has the new names of those that are shunned. Behind `run`, `new` has the new name of each
    old one, and `others` the new names that Fossil doesn't give these bytes (`hardened_names`)."""

    def __init__(self, folder: str, names: list[str], shunned: dict[str, str], links: Links | None):
        self.folder, self.names, self.shunned, self.links = folder, names, shunned, links
        self.content: dict[str, str] = dict(shunned)
        self.new: dict[str, str] = dict(shunned)
        self.kinds: dict[str, str] = {}
        self.needs: dict[str, set[str]] = {}
        self.stand_ins: dict[str, str] = {}
        self.clusters: set[str] = set()
        self.files: set[str] = set()
        self.copies: dict[str, str] = {}
        self.others: set[str] = set()
        self.written: list[Written] = []
        self.changed = 0
        self.lines = FileLines(self)

    # ---- reading

    def look(self) -> None:
        """The first pass: the SHA-1 of the bytes of each, which ones are cards, and what these name."""
        lines: set[bytes] = set()
        binary: list[str] = []
        for name in counted(self.names, 'artifacts are read'):
            content = content_in(self.folder, name)
            self.content[name] = name_of(content)
            if not is_named_rightly(name, content) and not is_hardened(self.folder, name):
                raise Stop(f'{name} has other bytes: the project is damaged (fossil test-integrity)')
            binary += [] if content.isascii() else [name]
            cards = cards_of(content) if content.startswith(SIGNED) or SEAL.search(content[-LENGTH_OF_SEAL:]) else []
            self.note(name, cards, lines)
        self.files |= {lowered(file[2]) for file in filter(None, map(FILE.fullmatch, lines))}
        self.refuse_collisions()
        self.take_hardened(binary)
        self.new |= {name: self.content[name] for name in self.names if name not in self.kinds and name not in self.clusters}

    def note(self, name: str, cards: list[Card], lines: set[bytes]) -> None:
        """Notes the kind of an artifact and what it names; its F cards go to the lines."""
        kind = kind_of(cards) if cards else ''
        if kind == 'cluster':
            self.clusters.add(name)
        elif kind:
            self.kinds[name] = kind
            self.needs[name] = {other for card in cards for other in self.named_in(card)}
            lines.update(line for card in cards if card.letter == 'F' for line in card.text.split(b'\n'))
            self.files |= {lowered(word) for card in cards if card.letter == 'A' for word in card.words[2:3]}

    def named_in(self, card: Card) -> set[str]:
        """What has to be named anew before a card can be."""
        found: set[str] = set()

        def name(word: bytes) -> bytes:
            found.add(lowered(word))
            return word

        def text(words: bytes) -> bytes:
            found.update(self.links.targets(words) if self.links else ())
            return words

        Writer(name, name, bytes, text, bytes).card(card)
        return found

    def refuse_collisions(self) -> None:
        """Stops where other bytes have the same SHA-1: SHA3 names tell them apart, and these can't."""
        first: dict[str, str] = {}
        for name in self.names:
            other = first.setdefault(self.content[name], name)
            if other != name and content_in(self.folder, other) != content_in(self.folder, name):
                raise Stop(f'{other} and {name} are other bytes under one SHA-1 name, {self.content[name]}')

    def take_hardened(self, binary: list[str]) -> None:
        """Takes the names that Fossil gives to bytes with a known attack; what is ASCII alone has none."""
        for name, hardened in hardened_names(self.folder, binary).items():
            if hardened != self.content[name] and name not in self.kinds:
                self.content[name] = hardened
                self.others.add(hardened)

    # ---- names

    @staticmethod
    def is_cards(content: bytes) -> bool:
        """Whether bytes read as the cards of a kind."""
        return bool(kind_of(cards_of(content)))

    def named(self, word: bytes) -> bytes:
        """The new name behind a name in a card. Where nothing is held under one of 64 digits, its first 40 stand for it."""
        name = lowered(word)
        new = self.new.get(name)
        if new is None and len(name) > DIGITS and HASH.fullmatch(word):
            new = self.stand_ins[name] = name[:DIGITS]
        return word if new is None or new == name else new.encode()

    def named_if_held(self, word: bytes) -> bytes:
        """The new name of what an attachment is for, where that is an artifact, as a post is: pages, tickets and technotes have no such names."""
        return self.named(word) if lowered(word) in self.new else word

    def content_named(self, word: bytes) -> bytes:
        """The new name of contents, which stay as they are."""
        name = lowered(word)
        new = self.content.get(name)
        return self.named(word) if new is None else word if new == name else new.encode()

    def linked(self, text: bytes) -> bytes:
        """A text with its links under the new names, where links are rewritten."""
        return self.links.renamed(text, self.new) if self.links else text

    # ---- writing

    def text(self, content: bytes) -> bytes:
        """What reads as cards, under the new names. T cards that were in order are so again; others Fossil doesn't read, and they stay."""
        cards = cards_of(content)
        writer = Writer(self.named, self.named_if_held, self.content_named, self.linked, self.lines_of)
        written = [writer.card(card) for card in cards]
        before, tags = ([card for card in cards if card.letter == 'T'] for cards in (cards, written))
        if before == sorted(before, key=place_of_tag):
            place = iter(sorted(tags, key=place_of_tag))
            written = [next(place) if card.letter == 'T' else card for card in written]
        return text_of(written)

    def lines_of(self, text: bytes) -> bytes:
        """Lines of F cards, written anew."""
        return b'\n'.join(map(self.lines.__getitem__, text.split(b'\n')))

    def order(self) -> Iterator[str]:
        """Those that are cards, each behind what it names."""
        for name in self.names:
            if name in self.kinds and name not in self.new:
                yield from self.behind(name)

    def behind(self, first: str) -> Iterator[str]:
        """An artifact, and in front of it what it names and what has no new name yet."""
        stack, waiting = [first], {}
        while stack:
            name = stack[-1]
            if name not in waiting:
                waiting[name] = sorted(other for other in self.needs.pop(name) if other in self.kinds and other not in self.new)
            needed = waiting[name].pop() if waiting[name] else None
            if needed is None:
                yield stack.pop()
            elif needed not in self.new and needed not in waiting:
                # (what waits already is a circle, which only links can make)
                stack.append(needed)

    def move_contents(self, target: str) -> None:
        """Gives contents their new names, in a folder of their own. Bytes that are a file and read as cards too are kept for the file."""
        is_cards = self.kinds.keys() | self.clusters
        for name in counted([name for name in self.names if name not in is_cards or name in self.files], 'contents are under their new names'):
            new, place = self.content[name], place_in(target, self.content[name])
            os.makedirs(os.path.dirname(place), exist_ok=True)
            (shutil.copyfile if name in is_cards else os.replace)(place_in(self.folder, name), place)
            self.copies |= {name: new} if name in is_cards else {}
            self.written.append(Written(name, new, 'content', os.path.getsize(place)))

    def write_cards(self, target: str) -> list[str]:
        """Writes what reads as cards anew; the new names of those that aren't ASCII alone."""
        binary = []
        for name in counted(self.order(), 'artifacts are written anew', len(self.kinds)):
            content = content_in(self.folder, name)
            text = self.text(content)
            new = self.new[name] = name_of(text)
            binary += [] if text.isascii() else [new]
            self.changed += text != content
            os.makedirs(os.path.dirname(place_in(target, new)), exist_ok=True)
            with open(place_in(target, new), 'wb') as out:
                out.write(text)
            self.written.append(Written(name, new, self.kinds[name], len(text), content.startswith(SIGNED)))
        return binary

    def run(self, target: str) -> None:
        """Writes all into a folder under their new names."""
        self.look()
        os.makedirs(target)
        self.move_contents(target)
        binary = self.write_cards(target)
        self.others |= {new for new, hardened in hardened_names(target, binary).items() if new != hardened}
        # (a copy whose artifact keeps its name is that artifact)
        self.copies = {name: new for name, new in self.copies.items() if self.new.get(name) != new}
        doubtful = self.links.doubtful(self.new.values()) if self.links else []
        if doubtful:
            raise Stop(f'a link {doubtful[0]} names several artifacts')

    def map_lines(self) -> Iterator[str]:
        """The lines of the map: old name, new name or `-`, kind, and whether it was signed."""
        yield from sorted(f'{row.old} {row.new} {row.kind}{" signed" * row.is_signed}\n' for row in self.written)
        yield from sorted(f'{name} - cluster\n' for name in self.clusters)
        yield from sorted(f'{name} {new} not-held\n' for name, new in self.stand_ins.items())
        yield from sorted(f'{name} {new} shunned\n' for name, new in self.shunned.items())
