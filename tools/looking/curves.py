"""Draws what is worth something along one axis, as a curve."""
from moos_ivp.words import printed

from .scales import ticks

UNITS = {"course": "degrees", "speed": "m/s", "depth": "m"}
GREY, BLUE = "#444444", "#31688e"
LEFT, BOTTOM, WIDE, HIGH = 66, 226, 174, 190


class Curve:
    """Where the places of an axis and what they are worth lie in a picture."""

    def __init__(self, left, top, axis, low, high):
        self.x, self.y, self.axis, self.low, self.high = left + LEFT, top + BOTTOM, axis, low, high

    def at(self, place, value):
        return self.x + WIDE * place / (self.axis.points - 1), self.y - HIGH * (value - self.low) / (self.high - self.low)


def draw_curve(picture, panel, decision, axes, left, top):
    """Draws a panel along its one axis, with its left upper corner there."""
    (places,), worth = panel.table(decision, *axes)
    values = [column[0] for column in worth]
    low, high = (0, panel.most) if panel.most else (min(values), max(max(values), min(values) + 1))
    curve = Curve(left, top, decision.axes[axes[0]], low, high)
    draw_axes(picture, curve, "worth" if panel.most else "sum")
    picture.line([curve.at(place, value) for place, value in zip(places, values)], BLUE, width=2)
    decided = decision.point[axes[0]]
    x, y = curve.at(decided, values[decided // places.step])
    picture.line([(x, curve.y), (x, curve.y - HIGH)], "#888888", dash="3 3")
    picture.circle(x, y, 4, fill="white", stroke="black", width=1.5)


def draw_axes(picture, curve, what):
    """Both axes of a curve, with the numbers of the places and what the lowest and the highest are worth."""
    axis = curve.axis
    for tick in ticks(axis.low / 1000, axis.high / 1000, 5):
        x = curve.at((tick * 1000 - axis.low) * (axis.points - 1) / (axis.high - axis.low), curve.low)[0]
        picture.line([(x, curve.y), (x, curve.y + 4)], GREY)
        picture.text(x, curve.y + 16, f"{tick:g}", "middle", size=10)
    for value in (curve.low, curve.high):
        y = curve.at(0, value)[1]
        picture.line([(curve.x - 4, y), (curve.x, y)], GREY)
        picture.text(curve.x - 7, y + 4, printed(value), "end", size=10)
    picture.line([(curve.x, curve.y - HIGH), (curve.x, curve.y), (curve.x + WIDE, curve.y)], GREY)
    picture.text(curve.x - 7, curve.y - HIGH - 10, what, "end", size=10)
    unit = UNITS.get(axis.name)
    picture.text(curve.x + WIDE / 2, curve.y + 32, f"{axis.name}, {unit}" if unit else axis.name, "middle", size=11)
