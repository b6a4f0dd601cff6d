"""The same pictures by matplotlib, which makes PNG, PDF and other files of them where it is installed."""
from .drawing import Circle, Path

PIXELS = 100
ANCHORS = {"start": "left", "middle": "center", "end": "right"}


def save(picture, name):
    """Writes a picture into a file of the kind that its name's end says. Without matplotlib this is an ImportError."""
    from matplotlib.figure import Figure

    figure = Figure(figsize=(picture.width / PIXELS, picture.height / PIXELS))
    axes = figure.add_axes((0, 0, 1, 1), xlim=(0, picture.width), ylim=(picture.height, 0))
    axes.axis("off")
    for level, shape in enumerate(picture.shapes):
        if isinstance(shape, Path):
            axes.add_patch(path_patch(shape, level))
        elif isinstance(shape, Circle):
            axes.add_patch(circle_patch(shape, level))
        else:
            add_text(axes, shape, level)
    figure.savefig(name, dpi=2 * PIXELS)


def points(pixels):
    return pixels * 72 / PIXELS


def style(shape, level):
    dash = (0, tuple(float(length) for length in shape.dash.split())) if shape.dash else "solid"
    return {"facecolor": shape.fill, "edgecolor": shape.stroke, "linewidth": points(shape.width), "linestyle": dash, "zorder": level}


def path_patch(shape, level):
    from matplotlib.patches import PathPatch
    from matplotlib.path import Path as Outline

    corners, codes = [], []
    for run in shape.runs:
        corners += [*run, run[0]] if shape.is_closed else run
        codes += [Outline.MOVETO, *[Outline.LINETO] * (len(run) - 1), *[Outline.CLOSEPOLY] * shape.is_closed]
    return PathPatch(Outline(corners, codes), **style(shape, level))


def circle_patch(shape, level):
    from matplotlib.patches import Circle as Disc

    return Disc((shape.x, shape.y), shape.radius, **style(shape, level))


def add_text(axes, shape, level):
    from matplotlib.patheffects import withStroke

    axes.text(
        shape.x, shape.y, shape.words.replace("$", r"\$"), color=shape.colour, fontsize=points(shape.size), zorder=level,
        ha=ANCHORS[shape.anchor], va="baseline", weight="bold" if shape.is_bold else "normal",
        rotation=90 if shape.is_turned else 0, rotation_mode="anchor",
        path_effects=[withStroke(linewidth=points(3), foreground="white")] if shape.has_halo else [],
    )
