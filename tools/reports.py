"""Leaves, timeline and tags of both sides of a move, and by which point of docs/DIFFERENCES.md they differ."""
from collections import defaultdict
from datetime import datetime, timedelta
from functools import cached_property
from typing import Callable, Iterable, Iterator, NamedTuple

from artifacts import Artifact, content_in, contents_in
from history import History
from moving import Stop, program, run, say
from old import Old
from points import Point, Side, is_date, plain, read_alone

KINDS = {'ci': 'ci', 'w': 'wiki', 't': 'tkt', 'e': 'note', 'f': 'forum', 'g': 'tag'}
# so much Fossil shows a check-in before its child, where it moves its time; of more than 30 in a row the first ones stay at one time
MOVED = timedelta(milliseconds=25), timedelta()
ROUNDED = timedelta(milliseconds=2)
SHOWN = 20


class Row(NamedTuple):
    """A row of a timeline; of a check-in alone the text is compared."""
    kind: str
    time: str | None
    user: str
    text: str


class Difference(NamedTuple):
    """A row that differs, as it is said, and the point that explains it, or None."""
    said: str
    point: Point | None


def stop_where(what: str, found: list[Difference]) -> int:
    """Says in what two sides differ, by point; stops where a difference has none. How many there are."""
    rows: dict[Point | None, list[str]] = defaultdict(list)
    for difference in found:
        rows[difference.point].append(difference.said)
    for point, said in sorted(rows.items(), key=lambda row: row[0].value if row[0] else ''):
        why = point.value if point else 'no point of docs/DIFFERENCES.md that is known here'
        say('\n  '.join([f'{what}: {len(said)} differ: {why}', *said[:SHOWN], *['and more'] * (len(said) > SHOWN)]))
    if None in rows:
        raise Stop(f'{what}: {len(rows[None])} differences')
    return len(found)


def told(row: Row | str | None) -> str:
    """A row as it is said."""
    return 'nothing' if row is None else repr(row if isinstance(row, str) else ' '.join(word or '-' for word in row))


def differences(ours: dict, theirs: dict, point_of: Callable[[str], Point | None]) -> list[Difference]:
    """What differs in two tables, each key with the point that `point_of` finds for it."""
    keys = sorted(key for key in ours.keys() | theirs.keys() if ours.get(key) != theirs.get(key))
    return [Difference(f'{key}: in OLD {told(theirs.get(key))}, in NEW {told(ours.get(key))}', point_of(key)) for key in keys]


def shown(word: bytes) -> str:
    """A text of a report; `-` stands for none."""
    return '' if word == b'-' else plain(word)


class Reports:
    """The reports of a project of Fossil, of which the artifacts are written out in a folder, and of the repository that was made of it."""

    def __init__(self, old: Old, new: str, folder: str):
        self.old, self.new, self.folder = old, new, folder
        self.taken = old.taken()
        self.ours, self.events, self.moments = self.timeline_of_new(), {}, {}
        self.read_events()
        self.theirs = {name: row for name, row in self.events.items() if name in self.taken}
        self.apart = {name: Point.LEFT_OUT for name in old.out} | {name: Point.SHUNNED for name in old.shunned}
        for name in self.ours.keys() ^ self.theirs.keys():
            point = self.point_of_one_side(name)
            self.apart |= {name: point} if point else {}

    def point_of_one_side(self, name: str) -> Point | None:
        """The point by which one side alone has a row of an artifact."""
        content = content_in(self.folder, name)
        baseline = Artifact(content).word('B')
        if name in self.old.copies:
            return Point.COPY
        if name in self.ours and baseline and baseline not in self.taken:
            return Point.NO_BASELINE
        return read_alone(content, Side.OLD if name in self.theirs else Side.NEW)

    def contents(self) -> Iterator[tuple[str, bytes]]:
        """The artifacts that have a row on either side. Fossil writes no shunned one out, but gives each alone."""
        wanted = self.events.keys() | self.ours.keys()
        yield from contents_in(self.folder, wanted - self.old.shunned)
        for name in sorted(wanted & self.old.shunned):
            yield name, self.old.shunned_content(name)

    @cached_property
    def history(self) -> History:
        """What the artifacts say that have a row on either side."""
        return History(self.contents(), self.apart)

    def report(self, *words: str) -> list[list[bytes]]:
        """The lines of a report, cut at their blanks."""
        return [line.split(b' ') for line in run([program(), self.new, *words]).split(b'\n')[:-1]]

    # ---- timeline

    def timeline_of_new(self) -> dict[str, Row]:
        """The rows of our timeline."""
        rows = {}
        for time, name, kind, user, text in self.report('timeline', '1000000'):
            rows[name.decode()] = Row(kind.decode(), time.decode(), shown(user), shown(text).strip() if kind == b'ci' else '')
        return rows

    def read_events(self) -> None:
        """Reads Fossil's timeline, also of what isn't taken, and the time of each check-in before Fossil moved it."""
        form = "strftime('%Y-%m-%dT%H:%M:%f', {})"
        query = (f"SELECT uuid, type, {form.format('mtime')}, {form.format('coalesce(omtime, mtime)')}, coalesce(euser, user, ''), "
                 "coalesce(ecomment, comment, '') FROM event JOIN blob ON objid = rid")
        for name, kind, time, before, user, text in self.old.rows(query):
            self.events[name] = Row(KINDS.get(kind, kind), time, user, self.old.said(text).strip() if kind == 'ci' else '')
            self.moments[name] = {time, before} - {None}

    def row_point(self, name: str) -> Point | None:
        """The point by which the rows of an artifact differ."""
        ours, theirs = self.ours.get(name), self.theirs.get(name)
        if ours is None or theirs is None:
            is_apart = ours is None and self.history.is_in_other_thread(name)
            return self.apart.get(name) or (Point.OTHER_THREAD if is_apart else None)
        points = [self.time_point(name)] if ours.time != theirs.time else []
        points += [self.history.tag_point(name, 'user')] if ours.user != theirs.user else []
        points += [self.history.tag_point(name, 'comment')] if ours.text != theirs.text else []
        return points[0] if all(points) and ours.kind == theirs.kind == 'ci' else None

    @cached_property
    def date_tags(self) -> dict[str, str]:
        """The value of the tag `date` on the check-ins on which it is in force in Fossil."""
        return dict(self.old.rows("SELECT uuid, coalesce(value, '') FROM tagxref JOIN tag USING (tagid) JOIN blob USING (rid) "
                                  "WHERE tagtype > 0 AND tagname = 'date'"))

    def time_point(self, name: str) -> Point | None:
        """The point by which the times of a check-in differ."""
        if name not in self.date_tags and self.is_before_child(name):
            return Point.BEFORE_CHILD
        has_no_date = name in self.date_tags and not is_date(self.date_tags[name])
        return self.history.tag_point(name, 'date') or (Point.NO_DATE if has_no_date else None)

    def is_before_child(self, name: str) -> bool:
        """Whether our time is that of the check-in before Fossil moved it, and Fossil's the one that it moves it to."""
        time = self.theirs[name].time
        if time is None or self.ours[name].time not in self.moments[name]:
            return False
        children = (moment for child in self.history.children.get(name, ()) for moment in self.moments.get(child, ()))
        gaps = [datetime.fromisoformat(moment) - datetime.fromisoformat(time) for moment in children]
        return any(abs(gap - moved) < ROUNDED for gap in gaps for moved in MOVED)

    # ---- leaves

    @cached_property
    def in_a_branch(self) -> set[str]:
        """The check-ins on which a branch is in force in Fossil."""
        return {name for name, in self.old.rows("SELECT uuid FROM blob JOIN tagxref USING (rid) JOIN tag USING (tagid) "
                                                "WHERE tagtype > 0 AND tagname = 'branch'")}

    @cached_property
    def leaves(self) -> tuple[dict[str, str], dict[str, str]]:
        """The leaves of both sides with their branches."""
        ours = {line[0].decode(): shown(line[1]) for line in self.report('leaves')}
        # (behind leaves --recompute pages, posts and technotes stand in that table too)
        theirs = self.old.rows("SELECT uuid, coalesce(value, 'trunk') FROM leaf JOIN blob USING (rid) LEFT JOIN tagxref ON tagxref.rid = leaf.rid "
                               "AND tagtype > 0 AND tagid = (SELECT tagid FROM tag WHERE tagname = 'branch') WHERE size >= 0")
        return ours, {name: branch for name, branch in theirs if name in self.taken and self.events.get(name, (None,))[0] == 'ci'}

    def leaf_point(self, name: str) -> Point | None:
        """The point by which a leaf differs."""
        branches = {leaves[name] for leaves in self.leaves if name in leaves}
        if name not in self.in_a_branch and name not in self.apart and branches == {'trunk'}:
            return Point.NO_BRANCH
        if len(branches) == 2:
            return self.tag_point(name, 'branch')
        no_parent = not any(parent in self.events for parent in self.history.parents.get(name, []))
        return self.history.leaf_point(name) or (Point.NO_PARENT if no_parent else None)

    # ---- tags

    def tags(self, name: str) -> tuple[dict[str, str], dict[str, str]]:
        """The tags in force on an artifact on both sides."""
        ours = {plain(line[0]): plain(line[1]) if len(line) > 1 else '' for line in self.report('tags', name)}
        return ours, self.old.tags_of(name)

    def tag_point(self, name: str, tag: str) -> Point | None:
        """The point by which a tag of a check-in differs."""
        return self.apart.get(name) or self.history.tag_point(name, tag)

    def compare_tags(self, names: Iterable[str]) -> int:
        """Compares the tags of check-ins: how many differ, each by a point."""
        names, count = sorted(names), 0
        for number, name in enumerate(names, 1):
            count += stop_where(f'tags of {name}', differences(*self.tags(name), lambda tag, name=name: self.tag_point(name, tag)))
            if number % 20 == 0 or number == len(names):
                say(f'the tags of {number} of {len(names)} leaves are compared')
        return count

    def compare(self) -> None:
        """Stops unless leaves, timeline and the tags of the leaves are the same on both sides, but for what a point explains."""
        what = 'leaves and timeline' if not self.old.out else 'of what was taken, leaves and timeline'
        count = stop_where('timeline', differences(self.ours, self.theirs, self.row_point))
        count += stop_where('leaves', differences(*self.leaves, self.leaf_point))
        count += self.compare_tags(self.leaves[0])
        say(f'{what} are the same' + (f' but for {count} rows, each by a point of docs/DIFFERENCES.md' if count else ''))
