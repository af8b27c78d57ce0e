"""Parents, tags and posts as the artifacts of a project say them, and by which point of docs/DIFFERENCES.md both sides read them otherwise."""
from collections import defaultdict
from typing import Iterable, NamedTuple

from artifacts import Artifact
from points import Point, plain


class Assertion(NamedTuple):
    """A tag that an artifact puts on a check-in: the date and the name of that artifact, `+`, `-` or `*`, and the tag's value."""
    date: str
    artifact: str
    prefix: str
    value: str


class Post(NamedTuple):
    """A forum post: the thread that it names, and the post that it answers or edits; either may be missing."""
    thread: str
    next: str


def moment(date: str) -> str:
    """A date with its milliseconds, so that two compare as texts."""
    return date if '.' in date else f'{date}.000'


class History:
    """What artifacts say of check-ins and posts. `apart` has those that one side alone reads or holds, each with its point."""

    def __init__(self, contents: Iterable[tuple[str, bytes]], apart: dict[str, Point]):
        self.apart = apart
        self.dates: dict[str, str] = {}
        self.parents: dict[str, list[str]] = {}
        self.children: dict[str, set[str]] = defaultdict(set)
        self.tags: dict[tuple[str, str], list[Assertion]] = defaultdict(list)
        self.known: set[str] = set()
        self.posts: dict[str, Post] = {}
        self.moved: set[str] = set()
        for name, content in contents:
            self.take(name, Artifact(content))

    def take(self, name: str, artifact: Artifact) -> None:
        """Takes an artifact in."""
        if artifact.is_checkin():
            self.dates[name] = moment(artifact.word('D'))
            self.parents[name] = [word.decode('latin-1').lower() for words in artifact.of('P') for word in words]
            for parent in self.parents[name]:
                self.children[parent].add(name)
        elif artifact.is_post():
            self.posts[name] = Post(artifact.word('G'), artifact.word('I') or artifact.word('P'))
        for tag, target, *value in artifact.of('T'):
            on = name if target == b'*' else target.decode('latin-1').lower()
            text = tag.decode('utf-8', 'replace')
            self.known.add(text[1:])
            self.tags[on, text[1:]].append(Assertion(moment(artifact.word('D')), name, text[:1], repr(value)))
            if text[1:] == 'parent':
                self.move(on, plain(value[0]).split(' ') if value else [])

    def move(self, name: str, parents: list[str]) -> None:
        """Notes that a tag gives a check-in other parents, which Fossil alone heeds."""
        self.moved.add(name)
        for parent in parents:
            self.children[parent].add(name)

    def above(self, name: str) -> Iterable[str]:
        """A check-in, its primary parent, and so on."""
        seen: set[str] = set()
        while name and name not in seen:
            yield name
            seen.add(name)
            name = next(iter(self.parents.get(name, [])), '')

    def tag_point(self, name: str, tag: str) -> Point | None:
        """The point by which a tag on a check-in may differ: one of the assertions on it and above it, or of the way that they come."""
        broken, nearer = None, ''
        if tag not in self.known:
            return None
        for checkin in self.above(name):
            broken = broken or self.apart.get(checkin)
            own = self.tags.get((checkin, tag), [])
            from_above = [assertion for assertion in own if checkin == name or assertion.prefix == '*']
            point = next((self.apart[assertion.artifact] for assertion in own if assertion.artifact in self.apart), None) or (own and broken)
            point = point or dated_point(own, from_above, nearer) or (Point.PARENT_TAG if checkin in self.moved else None)
            if point:
                return point
            nearer = max([nearer, *(assertion.date for assertion in own)])
        return None

    def leaf_point(self, name: str) -> Point | None:
        """The point by which a check-in may be a leaf on one side alone: its own, or one of a child."""
        children = sorted(self.children.get(name, ()))
        points = [self.apart.get(checkin) for checkin in [name, *children]] + [self.tag_point(checkin, 'branch') for checkin in [name, *children]]
        points += [Point.PARENT_TAG for child in children if child in self.moved]
        return next(filter(None, points), None)

    def is_in_other_thread(self, name: str) -> bool:
        """Whether the chain of a post is whole and ends at another post than the one that it names as its thread."""
        post, seen, end = self.posts.get(name), set(), name
        while end in self.posts and end not in seen and self.posts[end].next:
            seen.add(end)
            end = self.posts[end].next
        return bool(post and post.thread) and end in self.posts and end not in seen and end != post.thread


def dated_point(own: list[Assertion], from_above: list[Assertion], nearer: str) -> Point | None:
    """The point of dates by which the assertions of one tag on one check-in, of which some reach the one that is looked at, may count
    otherwise; `nearer` is the greatest date of those that are nearer to that one, or empty."""
    said = {(assertion.date, assertion.prefix, assertion.value) for assertion in own}
    if len({date for date, _, _ in said}) < len(said) or nearer and any(assertion.date == nearer for assertion in from_above):
        return Point.EQUAL_DATES
    if nearer and any(assertion.date > nearer for assertion in from_above):
        return Point.NEWER_ABOVE
    return None
