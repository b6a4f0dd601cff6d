"""Reads a behaviour file: its pairs to begin with, its modes and its behaviours, and each line that a run would refuse."""
import difflib
import re
from typing import NamedTuple

from . import conditions, known, values, words
from .scripts import Refused
from .words import Finding


class Given(NamedTuple):
    """A parameter as a line of a block gives it, its name in lower case."""

    number: int
    name: str
    value: str


class Behavior:
    """A block of a behaviour: its type, its line, what its lines give, its conditions (line, condition), and the names of parameters
    whose value is refused."""

    def __init__(self, kind, number):
        self.kind, self.number = kind, number
        self.given, self.conditions, self.flags, self.bad = [], [], 0, set()

    def value(self, *names):
        """The last value that was given of a parameter, by any of its names."""
        found = [one.value for one in self.given if one.name in names]
        return found[-1] if found else None

    def has(self, *names):
        """Whether a parameter is given, be its value good or not."""
        return any(one.name in names for one in self.given) or bool(self.bad & set(names))

    def name(self):
        return self.value("name") or f"the behaviour of line {self.number}"

    def is_template(self):
        return self.value("templating") == "spawn"


class Mode:
    """A declaration of a mode: its name, line, conditions (line, condition), the path down to it, and its OTHER name."""

    def __init__(self, name, number):
        self.name, self.number, self.conditions, self.path, self.other = name, number, [], [name], None
        self.has_parent, self.parent = False, None


class File:
    """What was read of a behaviour file: (line, pair) of each initialize line, modes, behaviours, unused lines, and the findings; and
    whether a line of a mode is refused, so that the modes aren't known."""

    def __init__(self):
        self.opening, self.modes, self.behaviors, self.unused, self.findings = [], [], [], [], []
        self.has_bad_mode = False


def begins(text):
    """What begins in a line: a behaviour, a mode or a pair to begin with."""
    if re.match(r"behavior[ \t]*=", text, re.I):
        return "behavior"
    found = re.match(r"(set|initialize)[ \t]", text, re.I)
    return found[1].lower() if found else None


def begins_block(text, behind):
    """Whether a line inside a block can only be meant as the beginning of another one; `behind` is the text of the line behind it."""
    is_behavior = re.match(r"behavior[ \t]*=[ \t]*BHV_\w*[ \t]*({?)$", text, re.I)
    if is_behavior:
        return bool(is_behavior[1]) or behind == "{"
    return bool(re.match(r"set[ \t]+MODE[ \t]*=|initialize[ \t]+\w+[ \t]*:?=", text, re.I))


class Reading:
    """Reads the lines of one file, one after the other. `axes` has the names of the mission's axes, or None if they aren't known."""

    def __init__(self, axes, domain):
        self.file, self.axes, self.domain = File(), axes, domain
        self.block, self.outer, self.is_opened = None, None, True

    def tell(self, number, said, cause=None):
        self.file.findings.append(Finding(number, cause, said))

    def line(self, line, behind):
        if line.is_open:
            raise Refused("B1 BadLine", "a quote stays open")
        if self.block and not self.is_opened:
            return self.opens(line)
        if self.block and begins_block(line.text, behind):
            return self.unclosed(line)
        if not self.block:
            return self.outside(line)
        if line.text.startswith("}"):
            return self.close(line)
        return self.in_behavior(line) if isinstance(self.block, Behavior) else self.in_mode(line)

    def unclosed(self, line):
        """A block begins inside another one. A run takes the line as one of the outer block, and may accept it."""
        outer, what = self.block, begins(line.text)
        said = f"the block of line {outer.number} isn't closed before this one: its }} is missing above"
        self.keep()
        self.block = None
        if what == "behavior" and not line.text.endswith("{"):
            self.outer = outer
        elif isinstance(outer, Mode):
            self.tell(line.number, said, "B5 BadCondition")
        elif what == "behavior":
            self.tell(line.number, said + ", and a run makes one behaviour of both")
        else:
            self.tell(line.number, said, "B1 BadLine")
        self.outside(line)

    def opens(self, line):
        """The line behind one that begins a block without a {."""
        outer, self.outer, self.is_opened = self.outer, None, True
        if line.text != "{":
            raise Refused("B1 BadLine", f"the block that begins in line {self.block.number} needs its {{ here, alone on this line")
        if outer:
            cause = "B5 BadCondition" if isinstance(outer, Mode) else "B1 BadLine"
            above = f"its }} is missing above line {self.block.number}"
            raise Refused(cause, f"the block of line {outer.number} isn't closed before this one: {above}")

    def outside(self, line):
        if line.text in ("{", "}"):
            what = "the line that begins it is missing above" if line.text == "{" else "take it away"
            raise Refused("B1 BadLine", f"this brace belongs to no block: {what}")
        what = begins(line.text)
        if what == "behavior":
            return self.begin_behavior(line)
        if what == "set":
            return self.begin_mode(line)
        if what == "initialize":
            return self.initialize(line)
        first = words.split(line.text)[0]
        near = difflib.get_close_matches(re.split("[=:]", first)[0].lower(), ("initialize", "behavior", "set"), 1, 0.6)
        forms = {"initialize": "initialize VARIABLE = value", "behavior": "Behavior = TYPE", "set": "set MODE = NAME {"}
        if first.startswith("#"):
            raise Refused("B1 BadLine", "a comment begins with //, and there are no #include lines: write all into one file")
        raise Refused("B1 BadLine", f"'{first}' begins no line here: write " + (forms[near[0]] if near else " or ".join(forms.values())))

    def initialize(self, line):
        pair, fault = words.pair_of(words.split(line.text, 1)[1])
        if fault:
            raise Refused("B1 BadLine", "write initialize VARIABLE = value" + (", one variable a line" if fault != "NoEquals" else ""))
        self.file.opening.append((line.number, pair))
        if len(self.file.opening) > 256:
            raise Refused("B9 TooMany", "it is the 257th `initialize` line")

    def begin_mode(self, line):
        left, _, name = words.split(line.text, 1)[1].partition("=")
        self.is_opened = name.endswith("{")
        name = (name[:-1] if self.is_opened else name).strip(words.BLANKS)
        self.block = Mode(name, line.number)
        left = left.strip(words.BLANKS)
        if left != "MODE":
            raise Refused("B1 BadLine", f"the variable of modes is MODE, in capital letters, and not '{left}': write set MODE = NAME {{")
        if not words.is_name(name):
            parent = ": the parent is named by a line MODE = PARENT in the block" if ":" in name else ""
            raise Refused("B1 BadLine", f"'{name}' is no mode's name{parent}")

    def begin_behavior(self, line):
        kind = line.text.partition("=")[2].strip(words.BLANKS)
        self.is_opened = kind.endswith("{")
        kind = (kind[:-1] if self.is_opened else kind).strip(words.BLANKS)
        self.block = Behavior(kind, line.number)
        if not kind:
            raise Refused("B1 BadLine", "the type is missing behind Behavior =")
        if kind not in values.OWN:
            raise Refused("B3 UnknownBehavior", f"no type is named '{kind}': {self.instead(kind)}")

    def instead(self, kind):
        """What is to be written in place of a type that isn't one. The block is read as one of the nearest type, if there is one."""
        near = difflib.get_close_matches(kind, values.OWN, 1, 0.6)
        if kind.lower() in known.TYPES:
            return known.TYPES[kind.lower()]
        if near:
            self.block.kind = near[0]
            return f"did you mean {near[0]}?"
        return f"the types are {', '.join(values.OWN)}"

    def in_mode(self, line):
        mode = self.block
        try:
            condition = conditions.condition_of(line.text)
        except conditions.NoCondition as fault:
            raise Refused("B5 BadCondition", f"no condition: {fault}") from fault
        names = [one.name for one in conditions.comparisons_of(condition)]
        is_parent = isinstance(condition, conditions.Comparison) and condition.operator in ("=", "==") and condition.name == "MODE"
        if "MODE" in names and (not is_parent or mode.has_parent):
            second = ", and this is the second" if is_parent else ""
            raise Refused("B5 BadCondition", f"a mode names MODE only in one line MODE = PARENT{second}")
        mode.conditions.append((line.number, condition))
        if len(mode.conditions) > 64:
            raise Refused("B9 TooMany", "it is the block's 65th condition")
        if is_parent:
            mode.has_parent = True
            self.parent(mode, condition.literal)

    def parent(self, mode, literal):
        parts = conditions.lowered(literal).split(":") if isinstance(literal, str) else None
        fit = [one for one in self.file.modes if parts and [conditions.lowered(part) for part in one.path][-len(parts) :] == parts]
        if len(fit) != 1:
            there = ", ".join(":".join(one.path) for one in self.file.modes) or "none"
            cause = "B8 AmbiguousParent" if fit else "B7 UnknownParent"
            raise Refused(cause, f"{'several modes' if fit else 'no mode'} above is named {words.shown(literal)}; there are {there}")
        mode.parent, mode.path = fit[0], fit[0].path + [mode.name]
        if len(mode.path) > 16:
            raise Refused("B9 TooMany", "the path would have 17 names")

    def in_behavior(self, line):
        block = self.block
        name, equals, value = (part.strip(words.BLANKS) for part in line.text.partition("="))
        if not equals or not words.is_name(name):
            brace = f": is the }} of the block of line {block.number} missing above it?" if line.text == "{" else ""
            raise Refused("B1 BadLine", "a line of a behaviour is PARAMETER = VALUE" + brace)
        name = name.lower()
        names, check = values.group_of(block.kind, name)
        if not check:
            self.file.unused.append((block, Given(line.number, name, value)))
            return
        try:
            if not words.is_of_bytes(value, words.LONGEST_TEXT) and name != "condition":
                raise values.NoValue("it has more than 4,096 bytes")
            check(value)
        except values.NoValue as fault:
            self.block.bad.add(name)
            raise Refused(*why_bad(block, name, str(fault))) from fault
        self.take(block, Given(line.number, name, value), names)

    def take(self, block, given, names):
        block.given.append(given)
        if given.name == "name" and any(one.value("name") == given.value for one in self.file.behaviors):
            raise Refused("B4 SameName", f"a behaviour above has the name {given.value}")
        if given.name == "condition":
            block.conditions.append((given.number, conditions.condition_of(given.value)))
            if len(block.conditions) > 64:
                raise Refused("B9 TooMany", "it is the block's 65th condition")
        if names == values.FLAGS:
            block.flags += 1
            if block.flags > 32:
                raise Refused("B9 TooMany", "it is the behaviour's 33rd flag")

    def close(self, line):
        block, behind = self.block, line.text[1:].strip(words.BLANKS)
        self.block = None
        (self.file.modes if isinstance(block, Mode) else self.file.behaviors).append(block)
        if isinstance(block, Mode):
            block.other = behind or None
            if behind and not words.is_name(behind):
                raise Refused("B1 BadLine", f"what follows the }} of a mode is a name, and not '{behind}'")
            if len(self.file.modes) > 256:
                raise Refused("B9 TooMany", "it is the 257th mode")
            return
        if behind:
            raise Refused("B1 BadLine", f"nothing may follow the }} of a behaviour: take '{behind}' away")
        for cause, said in self.at_the_end(block):
            raise Refused(cause, f"{block.kind} of line {block.number}: {said}")

    def at_the_end(self, block):
        """What is wrong with a behaviour as a whole, in the order in which a run judges it."""
        yield from missing(block)
        yield from relations(block, self.domain)
        lacking = [axis for axis in values.AXES.get(block.kind, ()) if self.axes is not None and axis not in self.axes]
        if lacking:
            there = ", ".join(self.axes) or "none"
            yield "B10 NoAxis", f"it needs the axis {' and '.join(lacking)}, and the mission's domain has {there}"
        if len(self.file.behaviors) > 64:
            yield "B9 TooMany", "it is the 65th behaviour"

    def keep(self):
        """Keeps a block that wasn't closed, so that what follows it is read as it is meant."""
        (self.file.modes if isinstance(self.block, Mode) else self.file.behaviors).append(self.block)

    def end(self, last):
        if self.block:
            self.tell(last, f"the block that begins in line {self.block.number} isn't closed: its }} is missing", "B2 Unclosed")
            self.keep()


def why_bad(block, name, said):
    """The cause by which a value is refused, and what is told of it."""
    if name == "condition":
        return "B5 BadCondition", f"no condition: {said}"
    may_be = values.may_be(block.kind, name)
    parts = [said, f"{block.kind}: {name} is {may_be}" if may_be else f"{name}: not a value that it takes"]
    return "B6 BadParam", "; ".join(part for part in parts if part)


def missing(block):
    """What must be given and isn't."""
    wanted = [("name",), *values.WANTED.get(block.kind, [])]
    if block.kind == "BHV_StationKeep" and block.value("center_activate") != "true":
        wanted.append(("station_pt", "point"))
    if block.is_template():
        wanted.append(("updates",))
    lacking = [" or ".join(names) for names in wanted if not block.has(*names)]
    if lacking and block.kind in values.OWN:
        rows = [(name, values.may_be(block.kind, name)) for name in lacking]
        yield "B11 ParamMissing", f"it has no {', no '.join(lacking)}" + "".join(f"; {name} is {row}" for name, row in rows if row)


def number_in(block, name, default):
    found = block.value(name)
    return default if found is None else words.number_of(found)


def relations(block, domain):
    """Which relation between parameters fails."""
    if block.kind == "BHV_StationKeep" and not block.bad:
        inner, outer = number_in(block, "inner_radius", 4_000), number_in(block, "outer_radius", 15_000)
        if outer <= inner:
            yield "B6 BadParam", f"outer_radius, {words.printed(outer)}, must be above inner_radius, {words.printed(inner)}"
    if block.kind == "BHV_AvoidCollision" and not block.bad:
        near, far = number_in(block, "min_util_cpa_dist", 10_000), number_in(block, "max_util_cpa_dist", 75_000)
        if far <= near:
            yield "B6 BadParam", f"max_util_cpa_dist, {words.printed(far)}, must be above min_util_cpa_dist, {words.printed(near)}"
        size, boxes = number_in(block, "piece_size", 12_000) // 1000, 1
        for axis in domain or ():
            boxes *= -(-axis.points // size)
            if axis.name == "speed" and not 0 <= axis.low <= axis.high <= 100_000:
                yield "B6 BadParam", "the speeds of the mission's domain must be within 0 to 100"
        if boxes > 4096:
            yield "B6 BadParam", f"the domain has {boxes:,} boxes of piece_size {size}, and may have 4,096: make piece_size greater"


def read(text, domain=None):
    """What a behaviour file says, with all its findings; `domain` has the axes of the mission, where it is known."""
    reading = Reading(None if domain is None else [axis.name for axis in domain], domain)
    lines, last = words.lines_of(text)
    texts = [line.text for line in lines[1:]] + [""]
    for line, behind in zip(lines, texts):
        try:
            reading.line(line, behind)
        except Refused as fault:
            reading.tell(line.number, str(fault), fault.cause)
            reading.file.has_bad_mode |= isinstance(reading.block, Mode)
    reading.end(last)
    return reading.file
