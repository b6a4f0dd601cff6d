"""The forms of the lines of a decision, which depend on the axes above them."""
import re

from .numbers import thousandths

AXIS = re.compile(r"[A-Za-z]\w*:(-?\d+(?:\.\d+)?):(-?\d+(?:\.\d+)?):(\d+)$")
NUMBER = re.compile(r"\d+(?:\.\d+)?$")
WHOLE = re.compile(r"-?\d+$")
END = {"end", "done", "cut"}


class ProblemLines:
    """Judges the lines of one decision, one after the other: the points of its axes, and how many functions there are."""

    def __init__(self):
        self.points, self.functions = [], 0

    def fits(self, kind, words):
        """Whether a line of this kind, with these words behind it, has its form."""
        judges = {"domain": self.is_domain, "function": self.is_function, "piece": self.is_piece, "decision": self.is_decision}
        return kind in END or judges[kind](words)

    def is_domain(self, words):
        said = AXIS.match(words[0]) if len(words) == 1 else None
        self.points.append(int(said[3]) if said else 0)
        return bool(said) and self.points[-1] > 1 and thousandths(said[1]) < thousandths(said[2]) and not self.functions

    def is_function(self, words):
        self.functions += 1
        return bool(self.points) and len(words) == 1 and bool(NUMBER.match(words[0]))

    def is_piece(self, words):
        if not self.functions or len(words) != 3 * len(self.points) + 1 or not all(map(WHOLE.match, words)):
            return False
        ends = list(map(int, words[: 2 * len(self.points)]))
        return all(0 <= low <= high < points for low, high, points in zip(ends[::2], ends[1::2], self.points))

    def is_decision(self, words):
        *point, total = words
        places = all(place.isdigit() and int(place) < points for place, points in zip(point, self.points))
        return bool(self.functions) and len(point) == len(self.points) and places and bool(NUMBER.match(total))
