"""The parameters of the ten behaviours and what values they take, and the rows of docs/BEHAVIORS.md that say so in words."""
import re
from pathlib import Path

from . import conditions, places, words

PAGE = Path(__file__).resolve().parent.parent.parent / "docs" / "BEHAVIORS.md"


class NoValue(Exception):
    """Why a value isn't one that a parameter takes; the words may be empty, where the parameter's row says it."""


def number(low, high, is_above=False):
    """A number from `low` (or above it) to `high`."""

    def check(value):
        found = words.number_of(value)
        if found is None:
            raise NoValue("it isn't a number" + unit_behind(value))
        if not low * 1000 <= found <= high * 1000 or (is_above and found == low * 1000):
            raise NoValue("")

    return check


def unit_behind(value):
    """What to say of a value such as 10m."""
    found = re.match(r"([+-]?[0-9.]+)\s*[A-Za-z/]+$", value)
    return f": write {found[1]} without a unit" if found else ""


def whole(low, high):
    def check(value):
        found = words.number_of(value)
        if found is None or found % 1000 or not low * 1000 <= found <= high * 1000:
            raise NoValue("")

    return check


def word(*known):
    """One of some words, exactly as they are written."""

    def check(value):
        if value not in known:
            near = {"yes": "true", "no": "false", "1": "true", "0": "false"}.get(value.lower(), value.lower())
            raise NoValue(f"write {near}" if near in known else "")

    return check


def either(*checks):
    """What one of several checks takes; the last one says what is wrong."""

    def check(value):
        for one in checks[:-1]:
            try:
                return one(value)
            except NoValue:
                pass
        return checks[-1](value)

    return check


def list_of_places(value):
    try:
        return places.places_of(value)
    except places.NoPlaces as fault:
        raise NoValue(str(fault)) from fault


def one_place(value):
    if len(list_of_places(value)) != 1:
        raise NoValue("")


def polygon(value):
    why = places.why_no_polygon(list_of_places(value))
    if why:
        raise NoValue(why)


def name(value):
    if not words.is_name(value):
        raise NoValue("a name is letters, digits, _, - and ., at most 64, and begins with a letter or _")


def short_name(value):
    if not words.is_name(value) or len(value) > 32:
        raise NoValue("")


def pair(value):
    found, fault = words.pair_of(value)
    if not found:
        why = {"NoEquals": "it has no =: write VARIABLE = value", "BadName": "what is before the = names no variable"}
        raise NoValue(why.get(fault, "its value is empty, badly quoted or too long"))


def condition(value):
    try:
        conditions.condition_of(value)
    except conditions.NoCondition as fault:
        raise NoValue(str(fault)) from fault


TRUTH = word("true", "false")
WIDTH = number(0, 1_000_000)
RADIUS = number(0, 1_000_000, is_above=True)
SPEED = number(0, 1_000)
DEPTH = number(0, 10_000)

FLAGS = ("runflag", "idleflag", "activeflag", "inactiveflag", "endflag")
COMMON = {
    ("name",): name,
    ("pwt",): number(0, 10_000),
    ("condition",): condition,
    FLAGS: pair,
    ("updates",): name,
    ("duration",): either(word("no-time-limit"), number(0, 1_000_000)),
    ("duration_idle_decay",): TRUTH,
    ("perpetual",): TRUTH,
    ("templating",): word("disallowed", "spawn"),
}
PEAK = {("peakwidth",): WIDTH, ("basewidth",): WIDTH, ("summitdelta",): number(0, 100)}
CAPTURE = {("capture_radius", "radius"): RADIUS, ("slip_radius",): WIDTH}

OWN = {
    "BHV_ConstantHeading": {("heading",): number(0, 360), **PEAK},
    "BHV_ConstantSpeed": {("speed",): SPEED, **PEAK},
    "BHV_ConstantDepth": {("depth",): DEPTH, **PEAK},
    "BHV_MaxDepth": {("max_depth",): DEPTH, ("basewidth",): WIDTH},
    "BHV_Timer": {},
    "BHV_Waypoint": {
        ("points", "point", "polygon"): list_of_places,
        ("speed",): SPEED,
        **CAPTURE,
        ("order",): word("normal", "reverse", "reversed"),
        ("repeat",): either(word("forever"), whole(0, 1_000_000)),
    },
    "BHV_Loiter": {("polygon",): polygon, ("speed",): SPEED, **CAPTURE, ("clockwise",): TRUTH},
    "BHV_StationKeep": {
        ("station_pt", "point"): one_place,
        ("center_activate",): TRUTH,
        ("inner_radius",): RADIUS,
        ("outer_radius",): WIDTH,
        ("outer_speed",): SPEED,
    },
    "BHV_OpRegion": {("polygon",): polygon, ("max_depth",): DEPTH, ("max_time",): WIDTH},
    "BHV_AvoidCollision": {
        ("contact",): short_name,
        ("contact_x", "contact_y"): number(-1_000_000, 1_000_000),
        ("contact_speed",): number(0, 100),
        ("contact_heading",): number(0, 360),
        ("min_util_cpa_dist",): number(0, 10_000),
        ("max_util_cpa_dist",): number(0, 10_000),
        ("resolved",): TRUTH,
        ("piece_size",): whole(1, 268_435_456),
    },
}

STEERING = ("course", "speed")
AXES = {
    "BHV_ConstantHeading": ("course",),
    "BHV_ConstantSpeed": ("speed",),
    "BHV_ConstantDepth": ("depth",),
    "BHV_MaxDepth": ("depth",),
    "BHV_Waypoint": STEERING,
    "BHV_Loiter": STEERING,
    "BHV_StationKeep": STEERING,
    "BHV_AvoidCollision": STEERING,
}

# What must be given, by the parameters of which one is enough.
WANTED = {
    "BHV_ConstantHeading": [("heading",)],
    "BHV_ConstantSpeed": [("speed",)],
    "BHV_ConstantDepth": [("depth",)],
    "BHV_MaxDepth": [("max_depth",)],
    "BHV_Waypoint": [("points", "point", "polygon"), ("speed",)],
    "BHV_Loiter": [("polygon",), ("speed",)],
}

# What needs a position, and so raises NoPosition without one.
STEERED = ("BHV_Waypoint", "BHV_Loiter", "BHV_StationKeep", "BHV_AvoidCollision")


def group_of(kind, parameter):
    """The names of a parameter of a type and the check of its value, or (None, None) if the type doesn't have it."""
    for table in (COMMON, OWN.get(kind, {})):
        for names, check in table.items():
            if parameter in names:
                return names, check
    return None, None


def names_of(kind):
    """The names of all parameters of a type, or of every type if it isn't known."""
    kinds = [kind] if kind in OWN else list(OWN)
    return [name for table in (COMMON, *(OWN[one] for one in kinds)) for names in table for name in names]


def rows():
    """The rows of docs/BEHAVIORS.md: what a parameter of a type, or of every type (""), may be, and its default."""
    found, kind = {}, None
    try:
        page = PAGE.read_text(encoding="utf-8").splitlines()
    except OSError:
        return found
    for line in page:
        begins = re.match(r"\*\*(BHV_\w+)\*\*", line)
        if begins or line == "Every type has these:":
            kind = begins[1] if begins else ""
        elif line.startswith("## "):
            kind = None
        cells = [cell.strip() for cell in line.strip("| ").split(" | ")] if line.startswith("| `") else []
        if kind is not None and cells:
            for one in re.findall(r"`(\w+)`", cells[0]):
                found[kind, one] = (cells[1].rstrip(" |"), cells[2] if len(cells) > 2 else "")
    return found


ROWS = rows()


def may_be(kind, parameter):
    """What the page says a parameter may be."""
    row = ROWS.get((kind, parameter)) or ROWS.get(("", parameter))
    if not row:
        return ""
    default = row[1] if row[1].startswith("must") else f"default {row[1]}"
    return row[0] + (f"; {default}" if row[1] else "")
