"""Follows where vehicles and contacts are, entry by entry of a report."""
import math
import re
from typing import NamedTuple

from .report import number_of, text_of

NAVIGATED = re.compile(r"(.*)NAV_(X|Y|HEADING|SPEED)$")


class Contact(NamedTuple):
    """What the latest node report of a contact says, and when it was posted. Speed and heading are None if it doesn't say them."""

    stamp: float
    x: float
    y: float
    speed: float
    heading: float

    def at(self, stamp):
        """Where it is at a later stamp if it goes on as it was reported."""
        if self.speed is None or self.heading is None:
            return self.x, self.y
        gone, heading = self.speed * (stamp - self.stamp), math.radians(self.heading)
        return self.x + gone * math.sin(heading), self.y + gone * math.cos(heading)


def node_report(text):
    """The contact's name and the numbers of X, Y, SPD and HDG of a node report, in whatever order its keys are; None if it names none."""
    fields = {}
    for part in text.split(","):
        key, _, value = part.partition("=")
        fields.setdefault(key.strip().upper(), value.strip())
    numbers = [as_number(fields.get(key, "")) for key in ("X", "Y", "SPD", "HDG")]
    return (fields["NAME"], numbers) if fields.get("NAME") and None not in numbers[:2] else None


def as_number(words):
    return float(words) if re.fullmatch(r"[+-]?(\d+\.?\d*|\.\d+)", words) else None


class Places:
    """Where everybody is. A vehicle is whoever posts NAV_X and NAV_Y: its name is what is in front of them (a bridge's prefix), and
    without that the client that posts them. `reported` has the names of the contacts that the last entry told of."""

    def __init__(self):
        self.known, self.contacts, self.reported = {}, {}, []

    def hear(self, entry):
        """Hears an entry's posts, and gives the names of the vehicles whose place is told there."""
        moved, self.reported = {}, []
        for post in entry.posts:
            said = "NAV_" in post.variable and NAVIGATED.match(post.variable)
            if said:
                name = said[1].rstrip("_") or post.source
                self.known.setdefault(name, {})[said[2]] = post.value
                moved[name] = moved.get(name, False) or said[2] in "XY"
            elif post.variable == "NODE_REPORT":
                self.hear_of_contact(post)
        return [name for name in moved if moved[name] and self.place(name)]

    def hear_of_contact(self, post):
        said = node_report(text_of(post.value) or "")
        if said:
            self.contacts[said[0]] = Contact(float(post.stamp), *said[1])
            self.reported.append(said[0])

    def place(self, name):
        """Where a vehicle is: x and y in metres, or None if they aren't both known as numbers."""
        numbers = [number_of(self.known[name].get(axis, '"')) for axis in "XY"]
        return None if None in numbers else tuple(numbers)

    def said(self, name):
        """The same as the report prints it."""
        return f"{self.known[name]['X']},{self.known[name]['Y']}"


class Nearness(NamedTuple):
    """How near a vehicle and a contact were at a stamp: the distance, and both places."""

    distance: float
    stamp: str
    vehicle: tuple
    contact: tuple


def nearness(stamp, vehicle, contact):
    return Nearness(math.dist(vehicle, contact), stamp, vehicle, contact)


class Passes:
    """How near a vehicle came to a contact each time that it came near: to where the contact was if it went on as it was last reported,
    and to where it was reported to be. A pass is over when the contact is more than twice as far away as it was at the nearest, and 10 m
    more. The next one begins when it has come within half of the greatest distance since."""

    def __init__(self):
        self.found, self.farthest = [], None

    def hear(self, moved_on, reported):
        if self.farthest is None:
            if not self.found:
                self.found.append((moved_on, reported))
            self.found[-1] = tuple(map(min, self.found[-1], (moved_on, reported)))
            if moved_on.distance > 2 * self.found[-1][0].distance + 10:
                self.farthest = moved_on.distance
        else:
            self.farthest = max(self.farthest, moved_on.distance)
            if moved_on.distance < self.farthest / 2:
                self.farthest = None
                self.found.append((moved_on, reported))


class Watch:
    """The passes of each vehicle and each contact, at the stamps at which the vehicle's place is told."""

    def __init__(self):
        self.passes = {}

    def look(self, places, name, stamp):
        here = places.place(name)
        for contact, report in places.contacts.items():
            told = nearness(stamp, here, report.at(float(stamp))), nearness(stamp, here, (report.x, report.y))
            self.passes.setdefault((name, contact), Passes()).hear(*told)

    def found(self):
        """Each pass: the vehicle, the contact, and the nearest of both kinds."""
        return [(*pair, *both) for pair, passes in self.passes.items() for both in passes.found]
