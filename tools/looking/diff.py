"""`moos look diff`: where two runs part. What is posted at a stamp is compared without its order, since clients that share a stamp may be
printed in any order; iterations are compared one by one."""
import math
from collections import Counter
from itertools import groupby

from .numbers import thousandths
from .places import Places
from .report import Ending, Iteration, Opening

MOST_SHOWN = 8


class Round:
    """What happens at one stamp of one community: its posts, the helm's iterations, and where vehicles are in the end."""

    def __init__(self, community, stamp):
        self.community, self.stamp = community, stamp
        self.posts, self.iterations, self.places = Counter(), [], {}

    @property
    def key(self):
        return self.community, thousandths(self.stamp)


def rounds(report, ends):
    """The rounds of a report, in order; its Endings are added to `ends`."""
    def stamped():
        community, places = 0, Places()
        for record in report:
            if isinstance(record, Opening):
                community, places = community + 1, Places()
            elif isinstance(record, Ending):
                ends.append(record)
            else:
                yield community, record.stamp, record, places

    for (community, stamp), records in groupby(stamped(), lambda told: told[:2]):
        found = Round(community, stamp)
        for _, _, record, places in records:
            if isinstance(record, Iteration):
                found.iterations.append(record)
            else:
                found.posts.update((post.variable, post.source, post.value) for post in record.posts)
                found.places.update((name, places.place(name)) for name in places.hear(record))
        yield found


def paired(left, right):
    """The rounds of both runs side by side; None where only the other run has one of that stamp."""
    one, two = next(left, None), next(right, None)
    while one or two:
        first = min(found.key for found in (one, two) if found)
        pair = [found if found and found.key == first else None for found in (one, two)]
        yield pair
        one = next(left, None) if pair[0] else one
        two = next(right, None) if pair[1] else two


class Difference:
    """What was found so far: the first stamps at which posts and iterations differ, and how far vehicles got apart."""

    def __init__(self):
        self.posts, self.iteration, self.apart, self.since = None, None, {}, {}

    def hear(self, left, right):
        stamp = (left or right).stamp
        one, two = ([found.posts if found else Counter() for found in (left, right)])
        if self.posts is None and one != two:
            self.posts = stamp, one - two, two - one
        if self.iteration is None:
            self.iteration = first_difference(stamp, *(found.iterations if found else [] for found in (left, right)))
        if left and right:
            for name in left.places.keys() & right.places.keys():
                self.hear_places(name, stamp, math.dist(left.places[name], right.places[name]))

    def hear_places(self, name, stamp, distance):
        if distance:
            self.since.setdefault(name, stamp)
        if distance >= self.apart.get(name, (0, stamp))[0]:
            self.apart[name] = distance, stamp

    def lines(self, names, ends):
        if self.posts is None:
            yield "posts: the same at each stamp"
        else:
            stamp, *only = self.posts
            yield f"posts: the first difference is at {stamp}"
            for name, posts in zip(names, only):
                yield from only_lines(name, posts)
        if self.iteration is None:
            yield "iterations: the same"
        else:
            yield from self.iteration
        for name, (distance, stamp) in sorted(self.apart.items()):
            apart = f"apart from {self.since.get(name)} on, at most {distance:.1f} m at {stamp} (computed)"
            yield f"vehicle {name}: {apart if distance else 'at the same places'}"
        for name, found in zip(names, ends):
            yield f"end of {name}: " + "; ".join(f"{end.entries} entries, {end.posts} posts" for end in found if end.entries)


def only_lines(name, posts):
    for number, (variable, source, value) in enumerate(sorted(posts)):
        if number == MOST_SHOWN:
            yield f"  only in {name}: {len(posts) - number} more"
            return
        yield f"  only in {name}: {variable} {source} {value}"


def first_difference(stamp, left, right):
    """The words on the first two iterations that differ, or None."""
    for one, two in zip(left, right):
        if told(one) != told(two):
            return list(iteration_lines(one, two))
    if len(left) != len(right):
        return [f"iterations: the same before {stamp}, where only the {'first' if left else 'second'} run has one"]
    return None


def told(iteration):
    """What is compared of an iteration, each with its name."""
    found = {"helm": iteration.drive, "mode": iteration.mode or "-", "decision": " ".join(iteration.decision or ["none"])}
    found.update((f"behavior {name}", state) for name, state in iteration.states.items())
    found.update((f"error {name}", cause) for name, cause in iteration.errors)
    found["updates"] = ", ".join(" ".join(update) for update in iteration.updates) or "none"
    return found


def iteration_lines(one, two):
    yield f"iterations: the first difference is in iteration {one.number}, at {one.stamp}"
    left, right = told(one), told(two)
    for what in {**left, **right}:
        if left.get(what) != right.get(what):
            yield f"  {what}: {left.get(what, 'none')} | {right.get(what, 'none')}"


def compare(left, right):
    """Whether two runs are the same, and the lines that say where they part."""
    ends, difference = ([], []), Difference()
    for pair in paired(rounds(left, ends[0]), rounds(right, ends[1])):
        difference.hear(*pair)
    same = difference.posts is None and difference.iteration is None
    return same, list(difference.lines((left.name, right.name), ends))
