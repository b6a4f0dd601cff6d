"""Rewrites the lines of a MOOS-IvP behaviour file that mean the same here in other words, and writes its patterns of places out."""
import re

from . import places, values, words
from .runs import LISTED

RENAMED = {
    "priority": "pwt",
    "priority_wt": "pwt",
    "nm_radius": "slip_radius",
    "waypoint_nm_radius": "slip_radius",
    "collision_distance": "min_util_cpa_dist",
    "all_clear_distance": "max_util_cpa_dist",
}
LISTS = ("points", "point", "polygon", "station_pt")
LINE = re.compile(r"([ \t]*)([A-Za-z_][\w.-]*)([ \t]*=[ \t]*)(.*?)([ \t]*(?://.*)?)$")


def list_of(value):
    """A list of places as it is written here, and what is said of it; None if it needs no change or can't be read."""
    try:
        drawn = places.written_out(value)
    except places.NoPlaces as fault:
        return None, str(fault)
    if drawn:
        return drawn, f"{value}, rounded to a thousandth of a metre"
    closed = re.match(r"(?:pts=)?\{([^}]*)\}\s*,?(.*)$", value)
    inner = closed[1] if closed else value
    parts = [part.strip() for part in inner.split(":")]
    if len(parts) > 3 and parts[0] == parts[-1]:
        parts.pop()
    behind = closed[2].strip() if closed else ""
    new = " : ".join(parts)
    return (new, f"without {behind}" if behind else "") if behind or len(parts) != len(inner.split(":")) else (None, "")


def rewritten(line, tell):
    """A line as it is written here; `tell` is told of each change."""
    found = LINE.match(line)
    if not found:
        return [line]
    blanks, name, equals, value, comment = found.groups()
    low = name.lower()
    if low in RENAMED:
        tell(f"{name} is {RENAMED[low]}")
        return [f"{blanks}{RENAMED[low]}{equals}{value}{comment}"]
    if low in LISTS:
        new, said = list_of(value)
        if new:
            tell(f"{name}: {said or 'the first place stands once'}")
            return ([f"{blanks}// {said}"] if said else []) + [f"{blanks}{name}{equals}{new}{comment}"]
        if said:
            tell(f"{name}: left as it is: {said}")
    checks = [values.group_of(kind, low)[1] for kind in values.OWN]
    if values.TRUTH in checks and value.lower() in ("true", "false") and value != value.lower():
        tell(f"{name} = {value} is {value.lower()}")
        return [f"{blanks}{name}{equals}{value.lower()}{comment}"]
    return [line]


def opened(line, tell):
    """An `initialize` line with several pairs, one a line."""
    found = re.match(r"([ \t]*initialize[ \t]+)(\w+[ \t]*=[ \t]*)(.*?)([ \t]*(?://.*)?)$", line, re.I)
    if not found or not LISTED.match(found[3]):
        return None
    tell("one pair a line")
    return [found[1] + part.strip() for part in (found[2] + found[3]).split(",")]


def behaviors_of(text, tell):
    """The lines of a behaviour file as they are written here; `tell` is told the number of a line and what was changed."""
    lines = []
    for number, line in enumerate(words.all_lines(text), 1):
        def note(said, number=number):
            tell(number, said)

        lines += opened(line, note) or rewritten(line, note)
    return lines
