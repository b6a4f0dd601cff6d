"""What a picture of a track shows of a run: the places of its vehicles, the reports of its contacts, and their nearest passes."""
import math

from .places import Places, Watch
from .report import Entry, Opening


class Sailed:
    """What one report tells of where everybody was. A vehicle's track is its stamps and places, in order."""

    def __init__(self, report):
        self.tracks, self.contacts, self.passes = {}, {}, []
        places, watch = Places(), Watch()
        for record in report:
            if isinstance(record, Opening):
                self.passes += watch.found()
                places, watch = Places(), Watch()
            elif isinstance(record, Entry):
                self.hear(record, places, watch)
        self.passes += watch.found()

    def hear(self, entry, places, watch):
        for name in places.hear(entry):
            self.tracks.setdefault(name, []).append((float(entry.stamp), *places.place(name)))
            watch.look(places, name, entry.stamp)
        for name in places.reported:
            self.contacts.setdefault(name, []).append(places.contacts[name])


def length(track):
    """The metres from place to place."""
    return sum(math.dist(here[1:], there[1:]) for here, there in zip(track, track[1:]))
