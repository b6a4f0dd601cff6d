"""`moos look contact`: the vehicle of a run as a contact of another one, as lines of a script that post its node reports."""
from .numbers import thousandths
from .places import Places
from .report import Entry, Trouble, number_of

KEYS = {"X": ("X", 1_000_000), "Y": ("Y", 1_000_000), "SPD": ("SPEED", 100), "HDG": ("HEADING", 360)}


def run(report, name, vehicle, client, every):
    """A script's lines, at most one in so many thousandths of a second; without a vehicle's name it is the first that says all."""
    places, due = Places(), 0
    for entry in report:
        if not isinstance(entry, Entry):
            continue
        for moved in places.hear(entry):
            if moved == (vehicle or moved) and says_all(places.known[moved]) and thousandths(entry.stamp) >= due:
                vehicle, due = moved, thousandths(entry.stamp) + every
                yield f'{entry.stamp} {client} post NODE_REPORT="{node_report(name, places.known[moved], entry.stamp)}"'
    if not due:
        who = f"no vehicle {vehicle}" if vehicle else "nobody"
        raise Trouble(f"{report.name}: {who} posts NAV_X, NAV_Y, NAV_SPEED and NAV_HEADING as numbers")


def says_all(known):
    return all(number_of(known.get(axis, '"')) is not None for axis, _ in KEYS.values())


def node_report(name, known, stamp):
    """The text of a node report, with the numbers as the report prints them."""
    for key, (axis, most) in KEYS.items():
        if abs(number_of(known[axis])) > most or key in ("SPD", "HDG") and number_of(known[axis]) < 0:
            raise Trouble(f"at {stamp} NAV_{axis} is {known[axis]}, which no node report can say")
    return ",".join([f"NAME={name}", *(f"{key}={known[axis]}" for key, (axis, _) in KEYS.items())])
