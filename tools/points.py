"""The points of docs/DIFFERENCES.md by which reports of Fossil and of this program differ, and the texts that only one of both reads."""
import re
from datetime import datetime
from enum import Enum
from typing import Callable

from artifacts import Artifact, unescaped

DATE = re.compile(r'(\d{4})-(\d\d-\d\dT\d\d:\d\d:\d\d)(\.\d{3})?', re.ASCII)
CAPITALS = re.compile(rb'[+-]?(?=.*[A-F])([0-9A-Fa-f]{32}|[0-9A-Fa-f]{40}|[0-9A-Fa-f]{64})')
FOREIGN = re.compile(rb'[0-9a-f]{64}')
LONGEST_TITLE = 100


class Side(Enum):
    """Where something is: in the project of Fossil, or in the repository that was made of it."""
    OLD = 'OLD'
    NEW = 'NEW'


class Point(Enum):
    """A point of docs/DIFFERENCES.md, with its reason as it is said."""
    # what reads as an artifact in Fossil alone
    OTHER_DATE = 'a date in another form, or of no day or hour that there is, reads in Fossil alone'
    SIGNED = 'a text within a PGP signature reads in Fossil alone'
    CAPITALS = 'a name or a checksum in capitals reads in Fossil alone'
    EMPTY = 'an empty argument reads in Fossil alone'
    PLUS = 'a J card whose name is + alone reads in Fossil alone'
    NO_COMMENT_OR_USER = 'a check-in without a comment or a user reads in Fossil alone'
    UNESCAPED = 'a tab, a vertical tab, a form feed or a carriage return in an argument reads in Fossil alone'
    PERMISSION = "a permission that isn't x, l or w reads in Fossil alone"
    PARENTS = 'two P cards, or one that names a check-in twice, read in Fossil alone'
    POST = 'a post with an I card and no G card, or with a G card and neither H nor I, reads in Fossil alone'
    FOREIGN = 'a name of 64 digits as a baseline, as the first parent of a check-in, or in a G, I, K or E card reads in Fossil alone'
    # what reads here alone
    TAG_ORDER = 'T cards out of order, or twice the same, read here alone'
    FIELD_ORDER = 'J cards out of order, or several of one field, read here alone'
    DIGITS_TAG = 'a tag whose name is hexadecimal digits alone reads here alone'
    TITLE = 'a title with blanks at its ends or two in a row, with a tab or a newline, or of more than 100 bytes reads here alone'
    ATTACHED = "an attached file whose name isn't a simple path reads here alone"
    # what isn't taken
    LEFT_OUT = "an artifact under a name of 64 digits, above 16 MiB, or of a name that isn't its SHA-1, was left out"
    SHUNNED = 'Fossil goes by a shunned artifact until the next rebuild'
    # what is read otherwise
    NO_BASELINE = "a check-in over a baseline that isn't held reads here alone, without files"
    COPY = "a file that has the bytes of an artifact may read as one too, under its own name"
    # tags and dates
    PARENT_TAG = 'a tag `parent` gives a check-in other parents in Fossil alone'
    NEWER_ABOVE = 'a newer tag that comes from above counts here, where Fossil lets an own one of the check-in stand'
    EQUAL_DATES = 'of two tags with equal dates Fossil takes the one that came first'
    NO_DATE = "a tag `date` whose value isn't a date has no meaning here"
    BEFORE_CHILD = "Fossil shows a check-in a little before its child whose date isn't later"
    NO_BRANCH = 'a check-in on which no branch is in force is a leaf in Fossil only sometimes'
    NO_PARENT = 'a check-in without a parent is no leaf in Fossil once its leaves were recomputed'
    OTHER_THREAD = 'a post whose chain ends at another post than its G card names has no row here'


def plain(word: bytes) -> str:
    """A text without its escapes."""
    return unescaped(word).decode('utf-8', 'replace')


def is_date(text: str) -> bool:
    """Whether a text is a date as this program reads one."""
    found = DATE.fullmatch(text)
    try:
        # (the year 0 is none of Python's, and has as many days as the year 4)
        return bool(found) and bool(datetime.strptime(f'{int(found[1]) or 4:04}-{found[2]}', '%Y-%m-%dT%H:%M:%S')) and found[2][-2:] < '60'
    except ValueError:
        return False


# ---- what one of both doesn't read: each function asks whether an artifact has that


def has_other_date(artifact: Artifact) -> bool:
    return any(words and not is_date(words[0].decode('latin-1')) for words in artifact.of('DE'))


def has_capitals(artifact: Artifact) -> bool:
    named = [word for words in artifact.of('BGIKMPQR') for word in words] + [word for words in artifact.of('AEFT') for word in words[1:]]
    return any(CAPITALS.fullmatch(word) for word in named)


def has_empty(artifact: Artifact) -> bool:
    return any(words == [b''] for words in artifact.of('CHNU')) or any(b'' in words[2:] for words in artifact.of('FT'))


def has_plus(artifact: Artifact) -> bool:
    return any(words[:1] == [b'+'] for words in artifact.of('J'))


def has_no_comment_or_user(artifact: Artifact) -> bool:
    return artifact.is_checkin() and not artifact.letters >= set('CU')


def has_unescaped(artifact: Artifact) -> bool:
    return any(re.search(rb'[\t\v\f\r]', word) for card in artifact.cards for word in card.words)


def has_other_permission(artifact: Artifact) -> bool:
    return any(words[2] not in (b'x', b'l', b'w') for words in artifact.of('F') if len(words) > 2)


def has_parents_twice(artifact: Artifact) -> bool:
    parents = artifact.of('P')
    return len(parents) > 1 or any(len(set(words)) < len(words) for words in parents)


def is_post_apart(artifact: Artifact) -> bool:
    return artifact.is_post() and ('I' in artifact.letters and 'G' not in artifact.letters or
                                   'G' in artifact.letters and not artifact.letters & set('HI'))


def has_foreign(artifact: Artifact) -> bool:
    parents = [words[:1] for words in artifact.of('P')] if artifact.is_checkin() or artifact.is_post() else []
    named = [*artifact.of('BGIK'), *(words[1:] for words in artifact.of('E')), *parents]
    return any(FOREIGN.fullmatch(word) for words in named for word in words)


def rises(rows: list[list[bytes]]) -> bool:
    """Whether each of these stands behind the one before it, and none twice."""
    return all(first < second for first, second in zip(rows, rows[1:]))


def has_tags_out_of_order(artifact: Artifact) -> bool:
    return not rises([words[:2] for words in artifact.of('T')])


def has_fields_out_of_order(artifact: Artifact) -> bool:
    return not rises([words[:1] for words in artifact.of('J')])


def has_tag_of_digits(artifact: Artifact) -> bool:
    return any(words and re.fullmatch(rb'[+*-][0-9a-fA-F]+', words[0]) for words in artifact.of('T'))


def has_other_title(artifact: Artifact) -> bool:
    titles = [plain(words[0]) for words in artifact.of('L') if words]
    return any(re.search(r'^ | $|  |[\0-\x1f]', title) or len(title.encode()) > LONGEST_TITLE for title in titles)


def has_other_file(artifact: Artifact) -> bool:
    files = [plain(words[0]) for words in artifact.of('A') if words]
    return any({'', '.', '..'} & set(file.split('/')) or re.search(r'[\0-\x1f\\\ufffd]', file) for file in files)


FORMS: dict[Side, dict[Point, Callable[[Artifact], bool]]] = {
    Side.OLD: {
        Point.SIGNED: lambda artifact: artifact.is_signed, Point.OTHER_DATE: has_other_date, Point.CAPITALS: has_capitals, Point.EMPTY: has_empty,
        Point.PLUS: has_plus, Point.NO_COMMENT_OR_USER: has_no_comment_or_user, Point.UNESCAPED: has_unescaped,
        Point.PERMISSION: has_other_permission, Point.PARENTS: has_parents_twice, Point.POST: is_post_apart, Point.FOREIGN: has_foreign,
    },
    Side.NEW: {
        Point.TAG_ORDER: has_tags_out_of_order, Point.FIELD_ORDER: has_fields_out_of_order, Point.DIGITS_TAG: has_tag_of_digits,
        Point.TITLE: has_other_title, Point.ATTACHED: has_other_file,
    },
}


def read_alone(content: bytes, side: Side) -> Point | None:
    """The point by which one side alone reads a text, where there is one."""
    artifact = Artifact(content)
    return next((point for point, holds in FORMS[side].items() if artifact.cards and holds(artifact)), None)
