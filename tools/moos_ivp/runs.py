"""A run as its files say it: what is read of each file, what is posted in it and by whom, and which modes there may be."""
import itertools
import os
import re
from typing import NamedTuple

from . import behaviors, conditions, settings, values, words

NAVIGATED = ("NAV_X", "NAV_Y", "NAV_HEADING", "NAV_SPEED", "NAV_DEPTH")
CONTACTS = ("CONTACT_ALERT", "CONTACT_INFO", "CONTACT_RESOLVED")
DESIRED = ("DESIRED_HEADING", "DESIRED_SPEED", "DESIRED_DEPTH")
HELMS = ("IVPHELM_STATE", "IVPHELM_ALLSTOP", *DESIRED)
MOST_CASES = 2_000


class Source(NamedTuple):
    """Where a value is posted: the file, the line and the value."""

    file: str
    number: int
    value: object


LISTED = re.compile(r"[^,=]*,[ \t]*([A-Za-z_]\w*)[ \t]*:?=")


def pairs_meant(pair):
    """The pairs that a pair is meant to be: those of a list such as A=false, B=true, which a run takes as one value."""
    if pair.is_quoted or not isinstance(pair.value, str) or not LISTED.match(pair.value):
        return [pair]
    found = [words.pair_of(part)[0] for part in f"{pair.name}={pair.value}".split(",")]
    return [one for one in found if one]


class Run:
    """The files of one run: the name and what was read of each kind, or None."""

    def __init__(self):
        self.names, self.script, self.mission, self.file = {}, None, None, None
        self.vehicle, self.contacts = None, None
        self.open, self.posted = set(), {}

    def add_posts(self):
        """What the script, the `initialize` lines and the flags post, by the variable, and what has values that no file tells."""
        for post in self.script.posts if self.script else ():
            self.post("script", post.number, post.pair)
        for number, pair in self.file.opening if self.file else ():
            self.post("behaviors", number, pair)
        for block in self.file.behaviors if self.file else ():
            for given in block.given:
                if given.name in values.FLAGS:
                    self.post("behaviors", given.number, words.pair_of(given.value)[0])
        self.open.update(HELMS)
        self.open.update(NAVIGATED + ("DESIRED_RUDDER", "DESIRED_THRUST") if self.vehicle else ())
        self.open.update(CONTACTS if self.contacts else ())

    def post(self, kind, number, pair):
        for one in pairs_meant(pair):
            self.post_one(kind, number, one)

    def post_one(self, kind, number, pair):
        self.posted.setdefault(pair.name, []).append(Source(self.names[kind], number, pair.value))

    def add_unread(self, lines):
        """The words of lines that are refused may each be a variable that is posted there."""
        for line in lines:
            self.open.update(re.findall(r"[A-Za-z_][\w.-]*", line))

    def knows_posts(self):
        """Whether all that is posted in the run is known, but for the values of what is open."""
        return self.script is not None and self.file is not None

    def is_posted(self, name):
        return name in self.posted or name in self.open

    def candidates(self, name, comparisons):
        """The values that a variable may have had last, None for none at all, as far as some comparisons can tell them apart."""
        found = {None}
        for source in self.posted.get(name, ()):
            found.add(conditions.lowered(source.value) if isinstance(source.value, str) else source.value)
        if name in self.open or not self.knows_posts():
            found.update(("", 0))
            for one in comparisons:
                literal = one.literal
                found.update((conditions.lowered(literal),) if isinstance(literal, str) else (literal - 1, literal, literal + 1))
        return found

    def cases(self, comparisons):
        """Each case of the latest values that some comparisons tell apart, or None if there are too many."""
        by_name = {}
        for one in comparisons:
            by_name.setdefault(one.name, []).append(one)
        by_name.pop("MODE", None)
        choices = [[(name, value) for value in self.candidates(name, by_name[name])] for name in by_name]
        total = 1
        for choice in choices:
            total *= len(choice)
        if total > MOST_CASES:
            return None
        return [{name: value for name, value in case if value is not None} for case in itertools.product(*choices)]

    def mode_comparisons(self):
        return [one for mode in self.file.modes for _, condition in mode.conditions for one in conditions.comparisons_of(condition)]

    def mode(self, known):
        """The path of the mode in a case."""
        path, under = [], None
        while True:
            below = [mode for mode in self.file.modes if mode.parent is under]
            first = next((mode for mode in below if self.may_be(mode, known)), None)
            if first is None:
                other = next((mode.other for mode in below if mode.other), None)
                return path + [other] if other else path
            path, under = path + [first.name], first

    def may_be(self, mode, known):
        own = [condition for _, condition in mode.conditions if not is_parent_line(condition)]
        return all(conditions.holds(condition, known, []) for condition in own)

    def paths(self):
        """The paths that some case gives, or all that are declared if there are too many cases."""
        cases = self.cases(self.mode_comparisons())
        if cases is None:
            return self.declared_paths()
        return [list(path) for path in {tuple(self.mode(case)) for case in cases}]

    def declared_paths(self):
        return [mode.path for mode in self.file.modes] + [mode.path[:-1] + [mode.other] for mode in self.file.modes if mode.other]


def is_parent_line(condition):
    return isinstance(condition, conditions.Comparison) and condition.name == "MODE"


KINDS = ("mission", "behaviors", "script", "vehicle", "contacts", "bridge")


def kind_of_name(name):
    """Which kind of file a name tells of, if any."""
    base = os.path.basename(name).lower()
    ends = {".moos": "mission", ".bhv": "behaviors"}
    return ends.get(os.path.splitext(base)[1]) or next((kind for kind in KINDS if kind in base), None)


def kind_of_line(text):
    """Which kind of file a line speaks for, and how much; the lines of a block speak for none."""
    if re.match("processconfig[ \t]*=", text, re.I):
        return "mission", 3
    if behaviors.begins(text):
        return "behaviors", 3
    if words.number_of(words.split(text)[0]) is not None:
        return "script", 1
    if re.match("share[ \t]", text):
        return "bridge", 1
    name = text.partition("=")[0].strip(words.BLANKS).lower()
    for kind, known in (("contacts", settings.CONTACTS), ("vehicle", {*settings.VEHICLE, "start_pos", "thrust_map"})):
        if name in known:
            return kind, 1
    return None, 0


def kind_of(name, text):
    """Which kind of file this is: what most of its lines say, with a word for what its name says."""
    lines = [line.text for line in words.lines_of(text)[0]]
    if lines[:1] == ["ivp 1"]:
        return "problem"
    votes = {kind_of_name(name): 2}
    for line in lines:
        kind, weight = kind_of_line(line)
        votes[kind] = votes.get(kind, 0) + weight
    return max((kind for kind in votes if kind), key=votes.get, default="script")


def behavior_file_of(mission, mission_name):
    """The name under which the behaviour file of a mission is found: from here as a run looks for it, or beside the mission."""
    if not mission.behaviors:
        return None
    beside = os.path.join(os.path.dirname(mission_name), mission.behaviors)
    return next((name for name in (mission.behaviors, beside) if os.path.isfile(name)), None)
