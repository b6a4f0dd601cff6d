"""Pictures as lists of shapes, in pixels from the upper left corner, and the SVG of one. It needs nothing but Python."""
from typing import NamedTuple
from xml.sax.saxutils import escape


class Path(NamedTuple):
    """Lines through the points of each run; what several closed runs enclose is filled by the rule of odd and even."""

    runs: list
    fill: str
    stroke: str
    width: float
    dash: str
    is_closed: bool


class Circle(NamedTuple):
    x: float
    y: float
    radius: float
    fill: str
    stroke: str
    width: float
    dash: str


class Text(NamedTuple):
    """Words at a place; with a halo they are readable on lines, and turned they are read upwards."""

    x: float
    y: float
    words: str
    anchor: str
    size: float
    colour: str
    is_bold: bool
    has_halo: bool
    is_turned: bool


class Picture:
    """The shapes of a picture, the lowest first."""

    def __init__(self, width, height):
        self.width, self.height, self.shapes = width, height, []

    def path(self, runs, fill="none", stroke="none", width=1.0, dash="", is_closed=False):
        self.shapes.append(Path(runs, fill, stroke, width, dash, is_closed))

    def line(self, points, stroke, width=1.0, dash=""):
        self.path([points], stroke=stroke, width=width, dash=dash)

    def box(self, left, top, width, height, fill="none", stroke="none"):
        corners = [(left, top), (left + width, top), (left + width, top + height), (left, top + height)]
        self.path([corners], fill=fill, stroke=stroke, is_closed=True)

    def circle(self, x, y, radius, fill="none", stroke="none", width=1.0, dash=""):
        self.shapes.append(Circle(x, y, radius, fill, stroke, width, dash))

    def text(self, x, y, words, anchor="start", size=11, colour="#222222", is_bold=False, has_halo=False, is_turned=False):
        self.shapes.append(Text(x, y, words, anchor, size, colour, is_bold, has_halo, is_turned))


def width_of(words, size=11):
    """About how many pixels wide words are."""
    return 0.56 * size * len(words)


def svg(picture):
    """The lines of a picture as SVG."""
    size = f'width="{picture.width:.0f}" height="{picture.height:.0f}" viewBox="0 0 {picture.width:.0f} {picture.height:.0f}"'
    yield f'<svg xmlns="http://www.w3.org/2000/svg" {size} font-family="sans-serif">'
    yield '<rect width="100%" height="100%" fill="white"/>'
    writers = {Path: path_svg, Circle: circle_svg, Text: text_svg}
    for shape in picture.shapes:
        yield writers[type(shape)](shape)
    yield "</svg>"


def brief(number):
    """A number with at most one decimal, and without a zero behind the point."""
    words = f"{number:.1f}"
    return words[:-2] if words.endswith(".0") else words


def style(shape):
    stroke = f' stroke="{shape.stroke}"' if shape.stroke != "none" else ""
    width = f' stroke-width="{brief(shape.width)}"' if stroke and shape.width != 1 else ""
    dash = f' stroke-dasharray="{shape.dash}"' if shape.dash else ""
    return f'fill="{shape.fill}"{stroke}{width}{dash}'


def path_svg(path):
    runs = (run_words(run) + "z" * path.is_closed for run in path.runs)
    return f'<path d="{"".join(runs)}" {style(path)} fill-rule="evenodd"/>'


def run_words(run):
    """A run of points from its first one on, each by its distance from the one before, in tenths of a pixel."""
    tenths = [(round(10 * x), round(10 * y)) for x, y in run]
    steps = [(x - left, y - top) for (left, top), (x, y) in zip(tenths, tenths[1:]) if (x, y) != (left, top)]
    first = f"M{tenths[0][0] / 10:g},{tenths[0][1] / 10:g}"
    return first + "l" * bool(steps) + " ".join(f"{x / 10:g},{y / 10:g}" for x, y in steps)


def circle_svg(circle):
    return f'<circle cx="{brief(circle.x)}" cy="{brief(circle.y)}" r="{brief(circle.radius)}" {style(circle)}/>'


def text_svg(text):
    said = [f'x="{brief(text.x)}" y="{brief(text.y)}" font-size="{text.size}" fill="{text.colour}"']
    if text.anchor != "start":
        said.append(f'text-anchor="{text.anchor}"')
    if text.is_bold:
        said.append('font-weight="bold"')
    if text.has_halo:
        said.append('stroke="white" stroke-width="3" paint-order="stroke"')
    if text.is_turned:
        said.append(f'transform="rotate(-90 {brief(text.x)} {brief(text.y)})"')
    return f'<text {" ".join(said)}>{escape(text.words)}</text>'
