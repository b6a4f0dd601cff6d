"""`moos look summary`: what a run was, in tables. Counts, stamps and names are the report's; times, distances and nearest passes are
computed here, and their headings say so."""
import math
from collections import Counter

from moos_ivp.words import printed

from .columns import aligned
from .numbers import thousandths
from .places import Places, Watch
from .report import STATES, Ending, Entry, Opening


class Variable:
    """How often a variable was posted, when first and last, and by whom."""

    def __init__(self, stamp):
        self.posts, self.first, self.last, self.sources = 0, stamp, stamp, {}

    def hear(self, post):
        self.posts += 1
        self.last = post.stamp
        self.sources[post.source] = None


class Summary:
    """What was counted of one community so far."""

    def __init__(self, opening):
        self.opening, self.letters, self.decisions, self.iterations = opening, 0, 0, 0
        self.variables, self.updates, self.errors = {}, Counter(), Counter()
        self.times, self.names, self.last = Counter(), {}, None
        self.places, self.watch, self.sailed, self.before, self.ends = Places(), Watch(), Counter(), {}, {}

    def hear(self, record):
        if isinstance(record, Entry):
            self.hear_entry(record)
        else:
            self.hear_iteration(record)

    def hear_entry(self, entry):
        self.letters += len(entry.letters)
        for post in entry.posts:
            self.variables.setdefault(post.variable, Variable(post.stamp)).hear(post)
        for name in self.places.hear(entry):
            here = self.places.place(name)
            self.sailed[name] += math.dist(here, self.before.get(name, here))
            self.before[name] = here
            self.ends.setdefault(name, [self.places.said(name)])[1:] = [self.places.said(name)]
            self.watch.look(self.places, name, entry.stamp)

    def hear_iteration(self, iteration):
        """The time since the iteration before is counted for what held from that one on."""
        if self.last:
            passed = thousandths(iteration.stamp) - thousandths(self.last.stamp)
            self.times["helm", self.last.drive] += passed
            self.times["mode", self.last.mode] += passed
            for name, state in self.last.states.items():
                self.times[name, state] += passed
        self.last = iteration
        self.iterations += 1
        self.decisions += iteration.decision is not None
        self.names.update(dict.fromkeys(iteration.states))
        self.updates.update((update[0], update[1]) for update in iteration.updates)
        self.errors.update(iteration.errors)

    def lines(self, ending):
        for title, rows, sides in self.tables(ending):
            if rows[1:]:
                yield f"\n{title}" if title else ""
                yield from ("  " + line for line in aligned(rows, sides))

    def tables(self, ending):
        counts = [("clients", " ".join(self.opening.clients))]
        counts.append(("entries", ending.entries or "not told, the report breaks off"))
        counts.append(("posts", ending.posts or "not told"))
        counts.append(("letters", str(self.letters)))
        if self.iterations:
            counts.append(("iterations", f"{self.iterations}, of which {self.decisions} decided something"))
        yield "", counts, "ll"
        yield "Parameters that no behaviour uses", [("LINE", "NAME"), *self.opening.unused], "rl"
        yield "Seconds in drive and in modes (computed: an iteration lasts until the next one)", self.mode_rows(), "llr"
        yield "Seconds of each behaviour in each state (computed)", self.state_rows(), "lrrrr"
        yield "Updates", self.counted(("NAME", "ANSWER", "TIMES"), self.updates), "llr"
        yield "Faults of behaviours", self.counted(("NAME", "CAUSE", "ITERATIONS"), self.errors), "llr"
        yield "Vehicles: metres sailed, from place to place (computed)", self.vehicle_rows(), "lrrr"
        yield "Nearest passes, in metres, and their stamps (computed at the stamps of the vehicle's places)", self.pass_rows(), "llrrrr"
        yield "Variables", self.variable_rows(), "lrrrl"

    def mode_rows(self):
        rows = [("", "", "SECONDS")]
        for wanted in ("helm", "mode"):
            rows += [(what, value, printed(passed)) for (what, value), passed in self.times.items() if what == wanted and value]
        return rows

    def state_rows(self):
        rows = [("BEHAVIOR", *map(str.upper, STATES))]
        for name in self.names:
            rows.append((name, *(printed(self.times[name, state]) for state in STATES)))
        return rows

    def counted(self, head, counter):
        return [head, *((*key, str(count)) for key, count in counter.items())]

    def vehicle_rows(self):
        rows = [("VEHICLE", "SAILED", "FROM", "TO")]
        for name, sailed in self.sailed.items():
            rows.append((name, f"{sailed:.1f}", self.ends[name][0], self.ends[name][-1]))
        return rows

    def pass_rows(self):
        rows = [("VEHICLE", "CONTACT", "IF IT WENT ON", "AT", "AS REPORTED", "AT")]
        for vehicle, contact, moved_on, reported in self.watch.found():
            distances = f"{moved_on.distance:.1f}", moved_on.stamp, f"{reported.distance:.1f}", reported.stamp
            rows.append((vehicle, contact, *distances))
        return rows

    def variable_rows(self):
        rows = [("VARIABLE", "POSTS", "FIRST", "LAST", "SOURCES")]
        for name, told in sorted(self.variables.items()):
            rows.append((name, str(told.posts), told.first, told.last, " ".join(told.sources)))
        return rows


def run(report):
    """The lines of a summary, of each community that the report tells of."""
    summary, communities = None, 0
    for record in report:
        if isinstance(record, Opening):
            summary, communities = Summary(record), communities + 1
        elif isinstance(record, Ending):
            yield f"community {communities}"
            yield from summary.lines(record)
        else:
            summary.hear(record)
