"""Lists of places and polygons, in thousandths of a metre, and how those that MOOS-IvP draws are written out."""
import math
import re

from . import words


class NoPlaces(Exception):
    """Why a text is no list of places."""


def places_of(text):
    """The places of a list: pairs of numbers with : between them, or the same between pts={ and }."""
    text = text.replace(" ", "").replace("\t", "")
    if text.startswith("pts={"):
        inner, brace, behind = text[5:].partition("}")
        if not brace:
            raise NoPlaces("the } behind pts={ is missing")
        if behind:
            raise NoPlaces(f"nothing may follow the }}: take '{behind}' away")
        text = inner
    elif re.match(r"(format|label)=", text):
        raise NoPlaces("patterns such as format=.. aren't drawn here: write the places out (tools/from_moos.py does so)")
    places = []
    for part in text.split(":"):
        numbers = [words.number_of(word) for word in part.split(",")]
        if len(numbers) != 2 or None in numbers:
            raise NoPlaces(f"'{part}' isn't two numbers x,y; places are parted by :")
        places.append(tuple(numbers))
    if len(places) > 64:
        raise NoPlaces(f"it has {len(places)} places, and may have 64")
    return places


def side_of(start, end, place):
    """Above 0 if a place is to the left of the line from start to end, below 0 if it is to the right, 0 on it."""
    (x, y), (to_x, to_y), (at_x, at_y) = start, end, place
    return (to_x - x) * (at_y - y) - (to_y - y) * (at_x - x)


def is_inside(polygon, place):
    """Whether a place is inside a convex polygon or on its border."""
    sides = [side_of(start, end, place) for start, end in zip(polygon, polygon[1:] + polygon[:1])]
    return all(side >= 0 for side in sides) or all(side <= 0 for side in sides)


def why_no_polygon(places):
    """Why some places are no convex polygon, or None if they are one."""
    if len(places) < 3:
        return f"a polygon has at least 3 vertices, and not {len(places)}"
    if places[0] == places[-1]:
        return "the first vertex isn't written again at the end"
    ends, signs = places[1:] + places[:1], set()
    for start, end in zip(places, ends):
        for place in places:
            side = side_of(start, end, place)
            if side or place not in (start, end):
                signs.add((side > 0) - (side < 0))
    is_convex = signs in ({1}, {-1}) and len(set(places)) == len(places)
    return None if is_convex else "its vertices aren't those of a convex polygon, each once, in their order"


def fields_of(text):
    """The fields KEY=value between commas, keys in lower case. A value may be a place in the form x,y."""
    fields, last = {}, None
    for part in text.split(","):
        key, equals, value = part.partition("=")
        if equals:
            last = key.strip().lower()
            fields[last] = value.strip()
        elif last:
            fields[last] += "," + part.strip()
    return fields


def snapped(value, grid):
    """A value rounded to the nearest of a grid's, and half way between two away from 0."""
    return math.copysign(math.floor(abs(value) / grid + 0.5 + 1e-9) * grid, value) if grid else value


def radial(fields):
    """The vertices of format=radial: `pts` of them at `radius` about x,y, the first half a step from east and then to the left."""
    x, y = float(fields["x"]), float(fields["y"])
    count, radius, grid = int(fields["pts"]), float(fields["radius"]), float(fields.get("snap", "0.001"))
    found = []
    for k in range(count):
        angle = (k + 0.5) * 2 * math.pi / count
        found.append((snapped(x + radius * math.cos(angle), grid), snapped(y + radius * math.sin(angle), grid)))
    return found


def ellipse(fields):
    """The vertices of format=ellipse: `pts` of them about x,y, the longer axis to `degs` degrees clockwise from north."""
    x, y, count = float(fields["x"]), float(fields["y"]), int(fields["pts"])
    along, across = float(fields["major"]) / 2, float(fields["minor"]) / 2
    turn = math.radians(float(fields["degs"])) if "degs" in fields else float(fields.get("rads", "0"))
    grid = float(fields.get("snap_value", fields.get("snap", "0.001")))
    found = []
    for k in range(count):
        angle = (k + 0.5) * 2 * math.pi / count
        ahead, aside = along * math.cos(angle), across * math.sin(angle)
        east = ahead * math.sin(turn) - aside * math.cos(turn)
        north = ahead * math.cos(turn) + aside * math.sin(turn)
        found.append((snapped(x + east, grid), snapped(y + north, grid)))
    return found


def legs_of(length, breadth, apart):
    """The ends of legs of a length, so far apart, to and fro over a breadth about 0: (along, aside) of each."""
    found = []
    for k in range(math.floor(breadth / apart + 1e-9) + 1):
        ends = (-length / 2, length / 2) if k % 2 == 0 else (length / 2, -length / 2)
        found += [(along, -breadth / 2 + k * apart) for along in ends]
    return found


def lawnmower(fields):
    """The places of format=lawnmower: legs over a box `width` by `height` about x,y that is turned clockwise by `degs`, `lane_width`
    (or `swath`) apart; from west to east, unless `rows` is north-south. They begin at the corner nearest to startx,starty."""
    x, y = float(fields["x"]), float(fields["y"])
    width, height = float(fields["width"]), float(fields["height"])
    apart, turn = float(fields.get("swath") or fields["lane_width"]), math.radians(float(fields.get("degs", "0")))
    is_north = fields.get("rows", "").lower() in ("north-south", "ns")
    legs = legs_of(height, width, apart) if is_north else legs_of(width, height, apart)
    start = (float(fields.get("startx", x - width)), float(fields.get("starty", y - height)))
    ways = []
    for turned_along, turned_aside in ((1, 1), (-1, 1), (1, -1), (-1, -1)):
        way = []
        for along, aside in legs:
            along, aside = along * turned_along, aside * turned_aside
            east, north = (aside, along) if is_north else (along, aside)
            way.append((x + east * math.cos(turn) + north * math.sin(turn), y - east * math.sin(turn) + north * math.cos(turn)))
        ways.append(way)
    return min(ways, key=lambda way: math.dist(way[0], start))


PATTERNS = {"radial": radial, "ellipse": ellipse, "lawnmower": lawnmower}


def written_out(text):
    """The places of a pattern as a list, rounded to thousandths of a metre, or None if the text is no pattern that is known."""
    fields = fields_of(text)
    draw = PATTERNS.get(fields.get("format", "").lower())
    if not draw:
        return None
    try:
        places = draw(fields)
    except (KeyError, ValueError, ZeroDivisionError) as fault:
        raise NoPlaces(f"format={fields['format']}: '{fault.args[0]}' is missing or no number") from fault
    if not 1 <= len(places) <= 64:
        raise NoPlaces(f"format={fields['format']}: it has {len(places)} places, and a list may have 64")
    return " : ".join(f"{words.printed(round(x * 1000))},{words.printed(round(y * 1000))}" for x, y in places)
