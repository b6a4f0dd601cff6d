"""The plane on which a track is drawn: its scale, its axes, its legend, and its labels."""
from .drawing import Picture, width_of
from .labels import Labels
from .scales import round_step, ticks

LEFT, TOP, BOTTOM, RIGHT, LONGEST, EDGE = 62, 16, 48, 14, 620, 24
GRID, FRAME = "#e5e8e8", "#7f8c8d"


class Chart:
    """The plane of a picture: x east and y north, in metres, of one scale. It shows all points, and has room for a legend."""

    def __init__(self, points, legend):
        xs, ys = zip(*points)
        longest = max(max(xs) - min(xs), max(ys) - min(ys), 1)
        (west, east), (south, north) = (grown(min(part), max(part), longest / 5) for part in (xs, ys))
        self.scale = LONGEST / longest
        self.west, self.north = west - EDGE / self.scale, north + EDGE / self.scale
        self.wide, self.high = (east - west) * self.scale + 2 * EDGE, (north - south) * self.scale + 2 * EDGE
        widest, rows = max(width_of(words) for words, _ in legend) + 60, 18 * len(legend) + 10
        self.is_beside = self.wide < 0.7 * self.high
        if self.is_beside:
            size = self.wide + widest, max(self.high, rows)
        else:
            size = max(self.wide + RIGHT, widest), self.high + rows
        self.picture = Picture(LEFT + size[0], TOP + size[1] + BOTTOM)
        self.labels = Labels(self.picture, LEFT, TOP, LEFT + self.wide, TOP + self.high)
        self.draw_axes()

    def at(self, x, y):
        return LEFT + (x - self.west) * self.scale, TOP + (self.north - y) * self.scale

    def draw_axes(self):
        picture, right, bottom = self.picture, LEFT + self.wide, TOP + self.high
        east, south = self.west + self.wide / self.scale, self.north - self.high / self.scale
        step = round_step((self.wide + self.high) / 2 / self.scale / 7)
        for tick in ticks(self.west, east, (east - self.west) / step):
            x = self.at(tick, 0)[0]
            picture.line([(x, TOP), (x, bottom)], GRID)
            picture.text(x, bottom + 15, f"{tick:g}", "middle")
        for tick in ticks(south, self.north, (self.north - south) / step):
            y = self.at(0, tick)[1]
            picture.line([(LEFT, y), (right, y)], GRID)
            picture.text(LEFT - 6, y + 4, f"{tick:g}", "end")
        picture.box(LEFT, TOP, self.wide, self.high, stroke=FRAME)
        picture.text(LEFT + self.wide / 2, bottom + 34, "x, metres east", "middle", size=12)
        picture.text(16, TOP + self.high / 2, "y, metres north", "middle", size=12, is_turned=True)

    def circle(self, place, radius, **style):
        self.picture.circle(*self.at(*place), radius, **style)

    def draw_legend(self, legend):
        """The words of the legend, beside a narrow plane and below a wide one, each behind what its sample draws."""
        left, top = (LEFT + self.wide + 16, TOP + 10) if self.is_beside else (LEFT, TOP + self.high + BOTTOM + 2)
        for number, (words, draw) in enumerate(legend):
            y = top + 18 * number
            draw(self.picture, left, y)
            self.picture.text(left + 36, y + 4, words)


def grown(low, high, least):
    """Both ends, as far from each other as they should be at least, about the same middle."""
    more = max(0, least - (high - low)) / 2
    return low - more, high + more
