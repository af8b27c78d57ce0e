"""Artifacts of Fossil by their cards: what reads as one, what it says, its text again, and where Fossil writes one out."""
import hashlib
import os
import re
from typing import Iterator, NamedTuple

SIGNED = b'-----BEGIN PGP SIGNED MESSAGE-----'
SIGNATURE = b'\n-----BEGIN PGP SIGNATURE-----'
SEAL = re.compile(rb'Z ([0-9a-f]{32})\n\Z')
LENGTH_OF_SEAL = 35
FILES = re.compile(rb'(?:F [^\n]*\n)+')
ESCAPES = {b's': b' ', b'n': b'\n', b't': b'\t', b'r': b'\r', b'v': b'\v', b'f': b'\f', b'0': b'\0', b'\\': b'\\'}
ESCAPED = {plain: b'\\' + letter for letter, plain in ESCAPES.items()}
# the letters that an artifact of each kind must have, and those that it may have, as wide as Fossil reads them
KINDS = {'checkin': ('D', 'BCDFNPQRTU'), 'cluster': ('M', 'M'), 'control': ('DTU', 'DTU'), 'wiki': ('DLW', 'CDLNPUW'), 'ticket': ('DJK', 'DJKU'),
         'attachment': ('AD', 'ACDNU'), 'technote': ('DEW', 'CDENPTUW'), 'forum': ('DUW', 'DGHINPUW')}
OF_CHECKIN = set('BCFPQR')


class Card(NamedTuple):
    """A line of an artifact: its letter, and its arguments as they stand there. A W card has its text here; F cards that stand together are
    one card without arguments, whose text has their lines."""
    letter: str
    words: list[bytes]
    text: bytes = b''


def unescaped(word: bytes) -> bytes:
    """A text of a card without its escapes."""
    return re.sub(rb'\\(.)', lambda found: ESCAPES.get(found[1], found[1]), word, flags=re.DOTALL)


def escaped(text: bytes) -> bytes:
    """A text as it stands in a card."""
    return re.sub(rb'[ \n\t\r\v\f\0\\]', lambda found: ESCAPED[found[0]], text)


def unsigned(content: bytes) -> bytes:
    """What stands within a PGP signature; a text without one as it is."""
    if not content.startswith(SIGNED):
        return content
    begin, end = content.find(b'\n\n'), content.find(SIGNATURE)
    return content[begin + 2:end + 1] if 0 <= begin < end else b''


def card_at(text: bytes, at: int, end: int) -> tuple[Card | None, int]:
    """The card that begins at a place, or None where there is none, and where it ends. Nothing behind `end` is looked at."""
    files = FILES.match(text, at, end)
    if files:
        return Card('F', [], files[0]), files.end()
    stop = text.find(b'\n', at, end)
    letter, *words = text[at:max(stop, at)].split(b' ')
    if not re.fullmatch(b'[A-Z]', letter):
        return None, at
    if letter != b'W':
        return Card(letter.decode(), words), stop + 1
    if len(words) != 1 or not re.fullmatch(rb'[0-9]{1,10}', words[0]):
        return None, at
    behind = stop + 1 + int(words[0])
    is_whole = behind < end and text[behind:behind + 1] == b'\n'
    return Card('W', words, text[stop + 1:behind]) if is_whole else None, behind + 1


def cards_of(content: bytes) -> list[Card]:
    """The cards of a text without its Z card, or none where it isn't one of cards behind which their checksum comes. Their order and forms
    aren't looked at."""
    text = unsigned(content)
    seal, end = SEAL.search(text[-LENGTH_OF_SEAL:]), len(text) - LENGTH_OF_SEAL
    if not seal or hashlib.md5(memoryview(text)[:end]).hexdigest().encode() != seal[1]:
        return []
    cards, at = [], 0
    while at < end:
        card, at = card_at(text, at, end)
        if card is None:
            return []
        cards.append(card)
    return cards


def text_of(cards: list[Card]) -> bytes:
    """The text of cards, with its Z card."""
    out = bytearray()
    for letter, words, text in cards:
        if letter == 'F' and not words:
            out += text
        else:
            out += b' '.join([letter.encode(), *words]) + b'\n' + (text + b'\n' if letter == 'W' else b'')
    return bytes(out + b'Z ' + hashlib.md5(out).hexdigest().encode() + b'\n')


def kind_of(cards: list[Card]) -> str:
    """The kind of what has these cards, by their letters alone; an empty text where it has none."""
    order = [card.letter for card in cards]
    letters = set(order)
    if order != sorted(order):
        return ''
    fits = [kind for kind, (must, may) in KINDS.items() if set(must) <= letters <= set(may)]
    if 'control' in fits or 'checkin' in fits and not letters & OF_CHECKIN and letters != {'D', 'U'}:
        # (only D, T and U: without a card of a check-in it is no check-in)
        fits.remove('checkin')
    return fits[0] if fits else ''


class Artifact:
    """An artifact by its cards, each F card one of its own."""

    def __init__(self, content: bytes):
        self.is_signed = content.startswith(SIGNED)
        self.cards = [single for card in cards_of(content) for single in singles(card)]
        self.letters = {card.letter for card in self.cards}

    def of(self, letters: str) -> list[list[bytes]]:
        """The arguments of each card of these letters."""
        return [card.words for card in self.cards if card.letter in letters]

    def word(self, letter: str, place: int = 0) -> str:
        """An argument of the first card of a letter, or an empty text."""
        words = next(iter(self.of(letter)), [])
        return words[place].decode('latin-1') if place < len(words) else ''

    def is_checkin(self) -> bool:
        """Whether it has the cards of a check-in and of no other kind."""
        return bool(self.letters & OF_CHECKIN) and self.letters <= set('BCDFNPQRTU')

    def is_post(self) -> bool:
        """Whether it has the cards of a forum post."""
        return 'W' in self.letters and not self.letters & set('LEC')


def singles(card: Card) -> list[Card]:
    """A card, or the F cards that it stands for."""
    return [Card('F', line.split(b' ')[1:]) for line in card.text.split(b'\n')[:-1]] if card.letter == 'F' and not card.words else [card]


# ---- the folder into which Fossil writes artifacts out


def place_in(folder: str, name: str) -> str:
    """Where an artifact stands."""
    return os.path.join(folder, name[:2], name[2:])


def content_in(folder: str, name: str) -> bytes:
    """The bytes of an artifact."""
    with open(place_in(folder, name), 'rb') as source:
        return source.read()


def contents_in(folder: str, wanted: set[str]) -> Iterator[tuple[str, bytes]]:
    """The artifacts that are there and wanted, with their names."""
    for name in sorted(wanted):
        if os.path.exists(place_in(folder, name)):
            yield name, content_in(folder, name)
