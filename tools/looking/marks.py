"""What behaviours are about, as lines and rings of a chart: points, polygons, stations and regions, as a behaviour file has them."""
from .behaviors import metres, spots

COLOURS = ["#c0392b", "#2471a3", "#7d3c98", "#b9770e", "#117864"]


class Mark:
    """What a behaviour is about: a closed line, and places with rings of some radius; the line and some rings may be dashed."""

    def __init__(self, behavior, colour):
        self.name, self.colour, self.words = behavior.name(), colour, ""
        self.polygon, self.dash, self.rings, self.is_numbered = [], "", [], False
        readers = {"BHV_Waypoint": self.points, "BHV_Loiter": self.loiter, "BHV_StationKeep": self.station, "BHV_OpRegion": self.region}
        if behavior.kind in readers:
            readers[behavior.kind](behavior)

    def points(self, behavior):
        places, radius = spots(behavior, "points", "point", "polygon"), metres(behavior, 3, "capture_radius", "radius")
        self.rings = [(place, radius, "") for place in (places[::-1] if behavior.value("order") in ("reverse", "reversed") else places)]
        self.is_numbered, self.words = True, f"points, captured within {radius:g} m"

    def loiter(self, behavior):
        radius = metres(behavior, 10, "capture_radius", "radius")
        self.polygon = spots(behavior, "polygon")
        self.rings = [(place, radius, "") for place in self.polygon]
        self.words = f"loiter polygon, captured within {radius:g} m"

    def station(self, behavior):
        inner, outer = metres(behavior, 4, "inner_radius"), metres(behavior, 15, "outer_radius")
        for place in spots(behavior, "station_pt", "point"):
            self.rings = [(place, inner, ""), (place, outer, "5 3")]
        self.words = f"station, inner radius {inner:g} m and outer {outer:g} m"

    def region(self, behavior):
        self.polygon, self.dash, self.words = spots(behavior, "polygon"), "8 3 2 3", "operating region"

    def edges(self):
        for (x, y), radius, _ in self.rings:
            yield from ((x - radius, y - radius), (x + radius, y + radius))
        yield from self.polygon


def marks_of(files):
    """What the behaviours of some files are about, each in a colour."""
    found = []
    for file in files:
        for behavior in file.behaviors:
            mark = Mark(behavior, COLOURS[len(found) % len(COLOURS)])
            if mark.rings or mark.polygon:
                found.append(mark)
    return found


def draw_mark(chart, mark):
    corners = [chart.at(*corner) for corner in mark.polygon]
    if corners:
        chart.picture.path([corners], stroke=mark.colour, dash=mark.dash, is_closed=True)
        chart.labels.pass_line([*corners, corners[0]])
    for place, radius, dash in mark.rings:
        chart.circle(place, radius * chart.scale, stroke=mark.colour, dash=dash)
        chart.labels.pass_circle(*chart.at(*place), radius * chart.scale)


def label_mark(chart, mark):
    """A number beside each point of a list, and the name beside anything else."""
    if mark.is_numbered:
        for number, (place, radius, _) in enumerate(mark.rings, 1):
            chart.labels.label(*chart.at(*place), str(number), mark.colour, gap=radius * chart.scale)
    else:
        chart.labels.label(*chart.at(*(mark.polygon or [mark.rings[0][0]])[0]), mark.name, mark.colour)
