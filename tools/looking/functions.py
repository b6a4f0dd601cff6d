"""`moos look functions STAMP`: a picture of what each active behaviour wanted in an iteration, and of their sum with the decision.

What depends on course and speed is drawn as a disc: the course is the direction and the speed the distance from the middle. What
depends on another axis is drawn as a curve along it. All other axes are at the decided point."""
from moos_ivp.words import printed

from .curves import draw_curve
from .decisions import Decision
from .discs import draw_disc
from .drawing import Picture
from .numbers import thousandths
from .report import Iteration, Trouble
from .worths import Panel

WIDE, HIGH, TOP, IN_A_ROW = 260, 330, 64, 4


def panels_of(decision):
    """The panels of a decision, each with the axes that it is drawn over."""
    course, speed = decision.axis("course"), decision.axis("speed")
    disc = [(course, speed)] if course is not None and speed is not None else []
    curves = [(axis, None) for axis in range(len(decision.axes)) if not disc or axis not in disc[0]]
    together = Panel("all together", f"the decided point has the sum {decision.sum}", [(f.weight, f) for f in decision.functions], None)
    drawn = {}
    for function in decision.functions:
        words = f"weight {printed(function.weight)}; the decided point is worth {printed(function.worth(decision.point))}"
        panel = Panel(function.name, words, [(1, function)], 100_000)
        varied = [axes for axes in disc + curves if any(function.varies(axis) for axis in axes if axis is not None)]
        for axes in varied or (disc + curves)[:1]:
            drawn.setdefault(axes, []).append(panel)
    for axes in disc + curves:
        yield from ((panel, axes) for panel in drawn.get(axes, []))
        if axes in drawn:
            yield together, axes


def picture_of(decision, stamp):
    """The whole picture of a decision."""
    panels = list(panels_of(decision))
    across = min(IN_A_ROW, len(panels))
    picture = Picture(max(across, 2) * WIDE + 20, TOP + HIGH * -(-len(panels) // IN_A_ROW))
    picture.text(16, 24, f"Decided at {stamp} s: {decision.place_words(decision.point)}", size=15, is_bold=True)
    picture.text(16, 42, "White dot: the decided point. Worths go from 0 to 100, sums are the report's.", size=11)
    for number, (panel, axes) in enumerate(panels):
        left, top = 10 + number % IN_A_ROW * WIDE, TOP + number // IN_A_ROW * HIGH
        picture.text(left + 6, top + 12, shortened(panel.title), size=13, is_bold=True)
        picture.text(left + 6, top + 28, panel.words, size=10)
        (draw_disc if axes[1] is not None else draw_curve)(picture, panel, decision, axes, left, top + 34)
    return picture


def shortened(words, most=28):
    return words if len(words) <= most else words[:most - 1] + "…"


def iteration_at(report, stamp):
    """The helm's last iteration up to a stamp in thousandths."""
    found = None
    for record in report:
        if isinstance(record, Iteration):
            if thousandths(record.stamp) > stamp:
                break
            found = record
    if not found:
        raise Trouble("no helm iterates in this report")
    if not found.decision:
        states = ", ".join(f"{name} {state}" for name, state in found.states.items())
        raise Trouble(f"at {found.stamp} nothing was decided: {found.drive}; {states or 'there is no behaviour'}")
    return found


def run(report, stamp):
    """The picture of the decision at a stamp in thousandths."""
    iteration = iteration_at(report, stamp)
    return picture_of(Decision(iteration), iteration.stamp)
