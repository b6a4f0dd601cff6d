"""Reads a mission: the helm's block, the blocks that stand in it, and each line that a run would refuse."""
from typing import NamedTuple

from . import words
from .scripts import Refused
from .words import Finding

HELM = "phelmivp"
MOST_POINTS = 268_435_456


class Axis(NamedTuple):
    """An axis of the domain: its name in lower case, its ends in thousandths and its points."""

    name: str
    low: int
    high: int
    points: int


class Mission:
    """What was read: the axes, the period in milliseconds, the behaviour file's name, and the lines of every block by its app."""

    def __init__(self):
        self.axes, self.period, self.behaviors, self.behaviors_line = [], 250, None, None
        self.blocks, self.findings, self.last = [], [], 1


class Reading:
    """Reads the lines of one mission, one after the other."""

    def __init__(self):
        self.mission, self.app, self.is_opened, self.begins = Mission(), None, False, 0
        self.outer, self.swallowed, self.is_begun = None, None, False

    def line(self, line, behind):
        """`behind` is the text of the line behind this one."""
        self.is_begun = line.text.endswith("{") or behind == "{"
        if line.is_open:
            raise Refused("M1 BadLine", "a quote stays open")
        if self.app is None:
            return self.outside(line)
        if not self.is_opened:
            return self.opened(line)
        if line.text == "}":
            self.app = None
            return None
        if self.app == HELM:
            return self.helm(line)
        name, equals, value = line.text.partition("=")
        if equals and name.strip(words.BLANKS).lower() == "processconfig" and self.is_begun:
            return self.unclosed(line, value)
        if equals:
            self.mission.blocks[-1][2].append((line.number, name.strip(words.BLANKS), value.strip(words.BLANKS)))
        return None

    def outside(self, line):
        name, equals, app = line.text.partition("=")
        if line.text in ("{", "}"):
            mend = "ProcessConfig = APP is missing above it" if line.text == "{" else "take it away"
            raise Refused("M1 BadLine", f"this brace belongs to no block: {mend}")
        if equals and name.strip(words.BLANKS).lower() == "processconfig":
            self.opens(line, app.strip(words.BLANKS))
        elif line.text.lower().startswith("behavior"):
            raise Refused("", "a behaviour's block belongs into the behaviour file, which the mission names; it isn't read here")

    def opens(self, line, app):
        self.is_opened, self.begins = app.endswith("{"), line.number
        app = (app[:-1] if self.is_opened else app).strip(words.BLANKS)
        seen = any(one.lower() == HELM for one, _, _ in self.mission.blocks)
        self.app = app.lower()
        self.mission.blocks.append((app, line.number, []))
        if not app:
            raise Refused("M1 BadLine", "the app is missing behind ProcessConfig =")
        if self.app == HELM and seen:
            self.app = "second " + HELM
            raise Refused("M1 BadLine", "it is the second block of pHelmIvP")

    def opened(self, line):
        """The line behind one that begins a block without a {."""
        self.is_opened, outer, self.outer = True, self.outer, None
        if line.text != "{":
            raise Refused("M1 BadLine", f"the block that begins in line {self.begins} needs its {{ here, alone on this line")
        if outer and outer[0] == HELM:
            above = f"its }} is missing above line {self.begins}"
            raise Refused("M1 BadLine", f"the block of line {outer[1]} isn't closed before this one: {above}")

    def unclosed(self, line, value):
        """A block begins inside another one, where a run reads no further block."""
        outer = self.app, self.begins
        self.opens(line, value.strip(words.BLANKS))
        if outer[0] != HELM and self.app == HELM:
            self.swallowed = outer[1]
        self.outer = None if self.is_opened else outer
        if outer[0] != HELM or self.is_opened:
            raise Refused("", f"the block of line {outer[1]} isn't closed before this one: its }} is missing above")

    def helm(self, line):
        name, equals, value = line.text.partition("=")
        name, value = name.strip(words.BLANKS), value.strip(words.BLANKS)
        if not equals:
            raise Refused("M1 BadLine", "a line of the helm's block is NAME = VALUE")
        self.mission.blocks[-1][2].append((line.number, name, value))
        if name.lower() == "behaviors":
            self.names(line, value)
        elif name.lower() == "domain":
            self.axis(value)
        elif name.lower() == "apptick":
            self.tick(value)
        elif name.lower() == "processconfig" and self.is_begun:
            self.unclosed(line, value)

    def names(self, line, value):
        if self.mission.behaviors is not None:
            named = f"one behaviour file is read, and line {self.mission.behaviors_line} names it"
            raise Refused("M1 BadLine", f"{named}: put all behaviours into it")
        if not value or not words.is_of_bytes(value, words.LONGEST_TEXT) or words.has_control_byte(value):
            raise Refused("M1 BadLine", "the name of the behaviour file is missing or no text")
        self.mission.behaviors, self.mission.behaviors_line = value, line.number

    def axis(self, value):
        form = "write domain = NAME:LOW:HIGH:POINTS"
        fields = [field.strip(words.BLANKS) for field in value.replace(",", ":").split(":")]
        if len(fields) != 4 or not words.is_name(fields[0]):
            raise Refused("M3 BadDomain", form + (": of an optional axis, too, these four alone" if fields[-1:] == ["optional"] else ""))
        low, high, points = (words.number_of(field) for field in fields[1:])
        if low is None or high is None or points is None or points % 1000 or not 2000 <= points:
            raise Refused("M3 BadDomain", form + "; the three are numbers, and POINTS a whole one of at least 2")
        if low >= high:
            raise Refused("M3 BadDomain", "the low end must be below the high one")
        name = fields[0].lower()
        if len(self.mission.axes) == 4 or any(axis.name == name for axis in self.mission.axes):
            raise Refused("M3 BadDomain", "it is the fifth axis, or an earlier one has its name")
        total = points // 1000
        for axis in self.mission.axes:
            total *= axis.points
        if total > MOST_POINTS:
            raise Refused("M4 DomainTooLarge", f"with this axis the domain has {total:,} points, and may have {MOST_POINTS:,}")
        self.mission.axes.append(Axis(name, low, high, points // 1000))

    def tick(self, value):
        found = words.number_of(value)
        if found is None or not 1 <= found <= 1_000_000:
            raise Refused("M6 BadTick", "AppTick is a number from 0.001 to 1,000")
        self.mission.period = 1_000_000 // found

    def end(self):
        """What is missing at the end: a cause and what is said, or None."""
        mission = self.mission
        if self.app is not None:
            return "M2 Unclosed", f"the block that begins in line {self.begins} isn't closed: its }} is missing"
        if self.swallowed:
            return "M5 NoDomain", f"the block of pHelmIvP isn't read: that of line {self.swallowed} isn't closed above it"
        apps = [app for app, _, _ in mission.blocks]
        if HELM not in [app.lower() for app in apps]:
            return "M5 NoDomain", "no block of pHelmIvP" + (f"; there are {', '.join(apps)}" if apps else "; there is no block at all")
        if not mission.axes and not any(found.cause and found.cause[:2] in ("M3", "M4") for found in mission.findings):
            return "M5 NoDomain", "the block of pHelmIvP has no `domain` line, such as domain = course:0:359:360"
        if mission.behaviors is None:
            return "M7 NoBehaviors", "the block of pHelmIvP has no `behaviors` line, such as behaviors = survey.bhv"
        return None


def read(text):
    """What a mission says, with all its findings."""
    reading = Reading()
    lines, last = words.lines_of(text)
    texts = [line.text for line in lines[1:]] + [""]
    for line, behind in zip(lines, texts):
        try:
            reading.line(line, behind)
        except Refused as fault:
            reading.mission.findings.append(Finding(line.number, fault.cause or None, str(fault)))
    missing = reading.end()
    if missing:
        reading.mission.findings.append(Finding(last, *missing))
    reading.mission.last = last
    return reading.mission
