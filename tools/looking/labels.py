"""Labels beside points of a picture, each where it covers nothing that is there already."""
import math

from .drawing import width_of

# Where a label may be beside a point: pixels to the right and down, and which side of it is there.
BESIDE = [
    (8, 4, "start"), (-8, 4, "end"), (0, -9, "middle"), (0, 17, "middle"),
    (7, -7, "start"), (7, 15, "start"), (-7, -7, "end"), (-7, 15, "end"),
]


class Labels:
    """What is taken of a picture: boxes of labels and marks, and points of lines, of which a label covers as few as it can."""

    def __init__(self, picture, left, top, right, bottom):
        self.picture, self.area = picture, (left, top, right, bottom)
        self.boxes, self.points = [], []

    def keep_free(self, x, y, radius):
        self.boxes.append((x - radius, y - radius, x + radius, y + radius))

    def pass_line(self, points):
        """Keeps points of a line, a few pixels from each other."""
        for (x, y), (right, down) in zip(points, points[1:]):
            count = int(math.dist((x, y), (right, down)) / 4) + 1
            self.points += [(x + (right - x) * k / count, y + (down - y) * k / count) for k in range(count)]

    def pass_circle(self, x, y, radius):
        turns = [2 * math.pi * k / 48 for k in range(49)]
        self.pass_line([(x + radius * math.sin(turn), y + radius * math.cos(turn)) for turn in turns])

    def label(self, x, y, words, colour, size=11, gap=0):
        """Puts words beside a point where they cover nothing, or nowhere."""
        best = None
        for right, down, anchor in BESIDE:
            far = 1 + gap / 8
            place = x + right * far, y + (down - 4) * far + 4
            box = self.box(*place, words, anchor, size)
            if self.is_free(box):
                covered = sum(inside(point, box) for point in self.points)
                if best is None or covered < best[0]:
                    best = covered, box, place, anchor
        if best:
            self.boxes.append(best[1])
            self.picture.text(*best[2], words, best[3], size=size, colour=colour, has_halo=True)

    def box(self, x, y, words, anchor, size):
        wide = width_of(words, size)
        left = x - {"start": 0, "middle": wide / 2, "end": wide}[anchor]
        return left, y - size, left + wide, y + 3

    def is_free(self, box):
        left, top, right, bottom = self.area
        within = left <= box[0] and top <= box[1] and box[2] <= right and box[3] <= bottom
        return within and not any(meet(box, other) for other in self.boxes)


def meet(box, other):
    return box[0] < other[2] and other[0] < box[2] and box[1] < other[3] and other[1] < box[3]


def inside(point, box):
    return box[0] <= point[0] <= box[2] and box[1] <= point[1] <= box[3]
