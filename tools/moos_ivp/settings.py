"""Reads the three small files: a vehicle's, a contact manager's ranges, and a bridge's rules."""
import difflib

from . import known, words
from .scripts import Refused, time_of
from .words import Finding

MILLION = 1_000_000_000

# Each setting of a vehicle: its low end, high end and default, in thousandths.
VEHICLE = {
    "start_x": (-MILLION, MILLION, 0),
    "start_y": (-MILLION, MILLION, 0),
    "start_heading": (0, 359_999, 0),
    "start_depth": (0, 10_000_000, 0),
    "max_speed": (1, 100_000, 2_000),
    "turn_rate": (0, 360_000, 20_000),
    "accel": (0, 100_000, 1_000),
    "decel": (0, 100_000, 1_000),
    "dive": (0, 100_000, 500),
    "yaw_kp": (0, 1_000_000, 1_000),
    "yaw_ki": (0, 1_000_000, 0),
    "yaw_kd": (0, 1_000_000, 0),
    "integral_limit": (0, MILLION, 1_000_000),
    "max_rudder": (0, 100_000, 100_000),
    "max_thrust": (0, 100_000, 100_000),
    "speed_factor": (0, 1_000_000, 50_000),
}
CONTACTS = {"alert_range": (0, 10_000_000, 50_000), "clear_range": (0, 10_000_000, 60_000)}


class Settings:
    """The value of each setting, the line that gave it (or none), and the findings."""

    def __init__(self, table):
        self.values = {name: default for name, (_, _, default) in table.items()}
        self.lines, self.findings = dict.fromkeys(table), []


def setting(line, table, codes, instead):
    """The name and the value that a line sets."""
    bad_line, bad_number = codes
    if line.is_open:
        raise Refused(bad_line, "a quote stays open")
    name, equals, value = (part.strip(words.BLANKS) for part in line.text.partition("="))
    name = name.lower()
    if not equals:
        raise Refused(bad_line, "write NAME = NUMBER")
    if name not in table:
        near = difflib.get_close_matches(name, table, 1, 0.7)
        said = instead.get(name) or (f"did you mean {near[0]}?" if near else f"the settings are {', '.join(table)}")
        raise Refused(bad_line, f"'{name}' is no setting: {said}")
    low, high, default = table[name]
    found = words.number_of(value)
    if found is None or not low <= found <= high:
        ends = f"from {words.printed(low)} to {words.printed(high)}"
        raise Refused(bad_number, f"{name} is a number {ends}; default {words.printed(default)}")
    return name, found


def read_settings(text, table, codes, instead):
    """The settings of a file with all its findings, and the number of its last line."""
    settings = Settings(table)
    lines, last = words.lines_of(text)
    for line in lines:
        try:
            name, value = setting(line, table, codes, instead)
        except Refused as fault:
            settings.findings.append(Finding(line.number, fault.cause, str(fault)))
            continue
        settings.values[name], settings.lines[name] = value, line.number
    return settings, last


def read_vehicle(text):
    return read_settings(text, VEHICLE, ("V1 BadLine", "V2 BadNumber"), known.SETTINGS)[0]


def read_contacts(text):
    settings, last = read_settings(text, CONTACTS, ("C1 BadLine", "C2 BadNumber"), known.RANGES)
    alert, clear = settings.values["alert_range"], settings.values["clear_range"]
    if clear < alert:
        said = f"clear_range is {words.printed(clear)}, below alert_range, {words.printed(alert)}"
        without = "" if settings.lines["clear_range"] else ": without a line it is 60, so give it a line"
        settings.findings.append(Finding(last, "C3 BadRanges", said + without))
    return settings


def rule(line):
    """Judges a rule of a bridge: share VARPATTERN SOURCEPATTERN INTERVAL PREFIX."""
    said = words.split(line.text)
    if line.is_open or len(said) != 5 or said[0] != "share":
        raise Refused("G1 BadLine", "write share VARIABLE SOURCE INTERVAL PREFIX: the word share and four more, - for no prefix")
    for word in said[1:3]:
        if not words.is_pattern(word):
            raise Refused("G2 BadPattern", f"'{word}' is no pattern")
    if time_of(said[3]) is None:
        raise Refused("G3 BadInterval", f"the interval is a number of seconds from 0 to 1,000,000, and not '{said[3]}'")
    if said[4] != "-" and (not words.is_name(said[4]) or len(said[4]) > 32):
        raise Refused("G5 BadPrefix", f"the prefix is - or a name of at most 32 letters, digits, _, - and ., and not '{said[4]}'")
    return said[1], "" if said[4] == "-" else said[4]


def read_bridge(text, posted):
    """The findings of a bridge file, where `posted` has the variables of the first script."""
    findings, long = [], []
    for count, line in enumerate(words.lines_of(text)[0], 1):
        if count > 64:
            findings.append(Finding(line.number, "G6 TooMany", "it is the 65th line that isn't blank"))
            break
        try:
            pattern, prefix = rule(line)
        except Refused as fault:
            findings.append(Finding(line.number, fault.cause, str(fault)))
            continue
        long += [Finding(line.number, "G4 NameTooLong", f"{prefix}{name} would have more than 64 letters")
                 for name in posted if words.matches(pattern, name) and len(prefix + name) > 64][:1]
        if posted and not any(words.matches(pattern, name) for name in posted):
            findings.append(Finding(line.number, None, f"the first script posts no variable like {pattern}: nothing is carried"))
    return findings + (long if not any(found.cause for found in findings) else [])
