"""Draws what is worth something over course and speed, as a disc: the course is the direction, the speed the distance from the middle."""
import math

from moos_ivp.words import printed

from .outlines import outlines
from .scales import ticks

COLOURS = ["#440154", "#482878", "#3e4989", "#31688e", "#26828e", "#1f9e89", "#35b779", "#6ece58", "#b5de2b", "#fde725"]
OUTSIDE = "#eeeeee"
RADIUS = 92


class Disc:
    """Where the places of a course and a speed lie on a disc."""

    def __init__(self, x, y, places, axes):
        self.x, self.y, self.places, self.axes = x, y, places, axes
        course = axes[0]
        self.start, self.turn = course.low / 1000, places[0].step * (course.high - course.low) / (course.points - 1) / 1000
        self.columns = len(places[0])
        self.is_round = course.low == 0 and round(self.turn * self.columns, 6) == 360

    def at(self, column, row):
        """The point at a column and a row of cells, which need not be whole: cell k reaches from k - 1/2 to k + 1/2."""
        angle, radius = math.radians(self.start + column * self.turn), RADIUS * (row + 0.5) / len(self.places[1])
        return self.x + radius * math.sin(angle), self.y - radius * math.cos(angle)

    def run(self, corners):
        """The points of an outline: of a straight line its ends, and along a circle one at least each fourth degree."""
        near, kept, points = max(1, int(3 / self.turn)), [], []
        for before, corner, after in zip([corners[-1], *corners], corners, [*corners[1:], corners[0]]):
            is_straight = before[0] == corner[0] == after[0]
            is_along = before[1] == corner[1] == after[1] and corner[0] % near
            if not is_straight and not is_along:
                kept.append(corner)
        for before, corner in zip(kept[-1:] + kept, kept):
            points += [*self.along(before, corner), self.at(corner[0] - 0.5, corner[1] - 0.5)]
        return points

    def along(self, before, corner):
        """Points between two corners on the same circle."""
        columns = corner[0] - before[0]
        if self.is_round:
            columns = (columns + self.columns // 2) % self.columns - self.columns // 2
        parts = math.ceil(abs(columns * self.turn) / 4) if before[1] == corner[1] else 1
        return [self.at(before[0] + columns * k / parts - 0.5, corner[1] - 0.5) for k in range(1, parts)]


def draw_disc(picture, panel, decision, axes, left, top):
    """Draws a panel over course and speed, with its left upper corner there."""
    places, worth = panel.table(decision, *axes)
    disc = Disc(left + 125, top + RADIUS + 30, places, [decision.axes[axis] for axis in axes])
    low, high = (0, panel.most) if panel.most else (min(map(min, worth)), max(map(max, worth)))
    bands = [[band(value, low, high) for value in column] for column in worth]
    picture.circle(disc.x, disc.y, RADIUS, fill=OUTSIDE)
    for colour, runs in zip(COLOURS, outlines(bands, len(COLOURS) + 1, disc.is_round)):
        kept = [run for run in map(disc.run, runs) if len(run) > 2]
        if kept:
            picture.path(kept, fill=colour, is_closed=True)
    dot = disc.at(*(decision.point[axis] / drawn.step for axis, drawn in zip(axes, places)))
    draw_rose(picture, disc, dot)
    picture.circle(*dot, 4, fill="white", stroke="black", width=1.5)
    draw_scale(picture, panel, low, high, left + 30, disc.y + RADIUS + 34)


def band(value, low, high):
    """Which colour a value has, from 1 on; 0 is what is outside the domain."""
    return min(len(COLOURS), (value - low) * len(COLOURS) // (high - low) + 1) if high > low else 1


def draw_rose(picture, disc, away_from):
    """The directions around a disc, and circles at some speeds, named on the side that is away from the decided point."""
    for degrees, anchor, right, down in ((0, "middle", 0, -5), (90, "start", 5, 4), (180, "middle", 0, 14), (270, "end", -5, 4)):
        x, y = math.sin(math.radians(degrees)) * RADIUS, -math.cos(math.radians(degrees)) * RADIUS
        picture.text(disc.x + x + right, disc.y + y + down, f"{degrees}°", anchor, size=10)
    right, down = (math.copysign(0.71, disc.x - away_from[0]), math.copysign(0.71, disc.y - away_from[1]))
    speed, step = disc.axes[1], disc.places[1].step
    for tick in ticks(speed.low / 1000, speed.high / 1000, 4)[1:]:
        row = (tick * 1000 - speed.low) * (speed.points - 1) / (speed.high - speed.low) / step
        radius = RADIUS * (row + 0.5) / len(disc.places[1])
        picture.circle(disc.x, disc.y, radius, stroke="white", width=0.5, dash="2 3")
        picture.text(disc.x + radius * right, disc.y + radius * down + 3, f"{tick:g}", "middle", size=9, has_halo=True)
    picture.text(disc.x + RADIUS * right * 1.25, disc.y + RADIUS * down * 1.25 + 3, "m/s", "middle", size=10)


def draw_scale(picture, panel, low, high, left, top):
    """The colours, with what the lowest and the highest stand for."""
    for number, colour in enumerate(COLOURS):
        picture.box(left + 20 * number, top, 20, 8, fill=colour)
    picture.text(left, top + 20, f"{'worth' if panel.most else 'sum'} {printed(low)}", size=10)
    picture.text(left + 200, top + 20, printed(high), "end", size=10)
