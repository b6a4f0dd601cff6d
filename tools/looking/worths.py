"""What the places of a decision's domain are worth, as tables of the cells that a picture shows."""

MOST_CELLS = 400, 120


class Panel:
    """One picture: its two lines of words, and what each place is worth as tables of weights and functions."""

    def __init__(self, title, words, parts, most):
        self.title, self.words, self.parts, self.most = title, words, parts, most

    def table(self, decision, across, along=None):
        """The cells of one axis or two: their places on each, and what they are worth. All other axes are at the decided point."""
        places = [cells(decision.axes[axis].points, most) for axis, most in zip((across, along), MOST_CELLS) if axis is not None]
        worth = [[0] * len(places[-1] if along is not None else [0]) for _ in places[0]]
        for weight, function in self.parts:
            for piece in function.pieces:
                add_piece(worth, piece, weight, decision.point, (across, along), places)
        return places, worth


def cells(points, most):
    """The places of an axis that are drawn: all, or each so many."""
    return range(0, points, -(-points // most))


def add_piece(worth, piece, weight, point, axes, places):
    """Adds what a piece is worth, times a weight, to the cells in it."""
    count = len(point)
    base, slopes = piece[2 * count], piece[2 * count + 1:]
    for axis, place in enumerate(point):
        if axis not in axes:
            if not piece[2 * axis] <= place <= piece[2 * axis + 1]:
                return
            base += slopes[axis] * place
    first, second = axes
    inner = inside(places[1], piece, second) if second is not None else [(0, 0)]
    slope = slopes[second] if second is not None else 0
    for i, place in inside(places[0], piece, first):
        here, row = base + slopes[first] * place, worth[i]
        for j, other in inner:
            row[j] += weight * (here + slope * other)


def inside(places, piece, axis):
    """The cells of an axis within a piece, with their places."""
    low, high, step = piece[2 * axis], piece[2 * axis + 1], places.step
    return [(k, k * step) for k in range(-(-low // step), high // step + 1) if k < len(places)]
