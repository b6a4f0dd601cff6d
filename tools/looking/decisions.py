"""What a helm's iteration decided: the axes, each active behaviour's function, and the point that was best for all together.

Values are worked out here from the pieces that the report prints; they are whole thousandths, as the program's are."""
from typing import NamedTuple

from .numbers import thousandths
from .report import Trouble
from moos_ivp.words import printed



class Axis(NamedTuple):
    """An axis of the domain. Its ends are in thousandths."""

    name: str
    low: int
    high: int
    points: int

    def number(self, place):
        """The number that a place stands for, as it prints."""
        return printed(self.low + place * (self.high - self.low) // (self.points - 1))


class Function:
    """A behaviour's function: its weight in thousandths and its pieces, each a list of lows and highs, the base and the slopes."""

    def __init__(self, name, weight, axes):
        self.name, self.weight, self.axes, self.pieces = name, weight, axes, []

    def varies(self, axis):
        """Whether what a place is worth depends on this axis. Where the pieces aren't rows along it, this is true unless all are alike."""
        first, rows, formulas = 2 * len(self.axes), {}, {tuple(piece[2 * len(self.axes):]) for piece in self.pieces}
        for piece in self.pieces:
            rows.setdefault(tuple(piece[:2 * axis] + piece[2 * axis + 2:first]), []).append(piece)
        is_rows = all(sum(piece[2 * axis + 1] - piece[2 * axis] + 1 for piece in row) == self.axes[axis].points for row in rows.values())
        is_even = is_rows and all(piece[first:] == row[0][first:] for row in rows.values() for piece in row)
        return any(formula[1 + axis] for formula in formulas) or not is_even and len(formulas) > 1

    def worth(self, point):
        """What a point is worth to this behaviour, in thousandths."""
        for piece in self.pieces:
            if all(piece[2 * axis] <= place <= piece[2 * axis + 1] for axis, place in enumerate(point)):
                return value_at(piece, point)
        return None

    def best(self):
        """The first of the points that are worth most, and what it is worth."""
        corners = (best_corner(piece, len(self.axes)) for piece in self.pieces)
        return min(corners, key=lambda corner: (-corner[1], corner[0]))


def value_at(piece, point):
    first = 2 * len(point)
    return piece[first] + sum(slope * place for slope, place in zip(piece[first + 1:], point))


def best_corner(piece, axes):
    slopes = piece[2 * axes + 1:]
    point = tuple(piece[2 * axis + (slopes[axis] > 0)] for axis in range(axes))
    return point, value_at(piece, point)


class Decision:
    """A decision of an iteration: its axes, the functions of its active behaviours, the best point and its sum as it prints."""

    def __init__(self, iteration):
        self.axes, self.functions = [], []
        active = [name for name, state in iteration.states.items() if state == "active"]
        for line in iteration.problem:
            kind, *words = line.split()[1:]
            if kind == "domain":
                name, low, high, points = words[0].split(":")
                self.axes.append(Axis(name, thousandths(low), thousandths(high), int(points)))
            elif kind == "function":
                name = active[len(self.functions)] if len(self.functions) < len(active) else ""
                self.functions.append(Function(name, thousandths(words[0]), self.axes))
            elif kind == "piece":
                self.functions[-1].pieces.append([int(word) for word in words])
        *point, self.sum = iteration.decision
        self.point = tuple(int(place) for place in point)
        if len(self.functions) != len(active):
            raise Trouble(f"at {iteration.stamp} there are {len(self.functions)} functions, and {len(active)} active behaviours")
        if any(function.worth(self.point) is None for function in self.functions):
            raise Trouble(f"at {iteration.stamp} the decided point is in no piece of a function")

    def place_words(self, point, counts=lambda axis: True):
        """A point in words, by the axes that count: course 124, speed 2."""
        said = [f"{axis.name} {axis.number(place)}" for number, (axis, place) in enumerate(zip(self.axes, point)) if counts(number)]
        return ", ".join(said) or "any point"

    def axis(self, name):
        return next((number for number, axis in enumerate(self.axes) if axis.name == name), None)

    def function(self, name):
        return next((function for function in self.functions if function.name == name), None)
