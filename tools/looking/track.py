"""`moos look track`: a picture of where vehicles and contacts were, north up, with what the behaviours of a file are about."""
import math

from .charts import Chart
from .marks import draw_mark, label_mark
from .sailed import length

VEHICLES = ["#2c3e50", "#5b2c6f", "#0b5345", "#6e2c00"]
START, CONTACT, PASS = "#1e8449", "#6e7b7c", "#ca6f1e"


def picture_of(runs, marks):
    """The picture of the tracks of some runs, by the names of their reports, and of what behaviours are about."""
    vehicles = [(name, run, VEHICLES[k % len(VEHICLES)]) for k, (name, run) in enumerate(vehicles_of(runs))]
    every = mark_step(max((track[-1][0] - track[0][0] for _, track, _ in vehicles), default=1))
    legend = legend_of(runs, vehicles, marks, every)
    points = [place[1:] for _, track, _ in vehicles for place in track] + [edge for mark in marks for edge in mark.edges()]
    points += [(report.x, report.y) for _, run in runs for reports in run.contacts.values() for report in reports]
    chart = Chart(points, legend)
    draw(chart, runs, vehicles, marks, every)
    label(chart, runs, vehicles, marks, every)
    chart.draw_legend(legend)
    return chart.picture


def draw(chart, runs, vehicles, marks, every):
    for mark in marks:
        draw_mark(chart, mark)
    for _, run in runs:
        draw_contacts(chart, run)
    for _, track, colour in vehicles:
        draw_line(chart, track, colour)
    for _, run in runs:
        draw_passes(chart, run)
    for _, track, colour in vehicles:
        draw_dots(chart, track, colour, every)


def label(chart, runs, vehicles, marks, every):
    """Labels what was drawn, what matters most first, since a label that has no place is left out."""
    for name, track, colour in vehicles:
        label_ends(chart, name if len(vehicles) > 1 else "", track, colour)
    for _, run in runs:
        label_contacts(chart, run)
        label_passes(chart, run)
    for mark in marks:
        label_mark(chart, mark)
    for _, track, colour in vehicles:
        label_dots(chart, track, colour, every)


def vehicles_of(runs):
    """Each vehicle's name and track. Of several runs a vehicle has its run's name, and its own too where the run has several."""
    for name, run in runs:
        for vehicle, track in run.tracks.items():
            of_several = f"{vehicle} of {name}" if len(run.tracks) > 1 else name
            yield (vehicle if len(runs) == 1 else of_several), track


def mark_step(lasts):
    """After how many seconds each a track is marked: at most some sixteen times."""
    return next((step for step in (1, 5, 10, 30, 60, 120, 300, 600, 1800, 3600) if lasts / step <= 16), 7200)


def legend_of(runs, vehicles, marks, every):
    """The words of the legend, each with what draws its sample."""

    def line(colour, width=1.5, dash=""):
        return lambda picture, x, y: picture.line([(x, y), (x + 28, y)], colour, width=width, dash=dash)

    def sample(mark):
        if mark.polygon:
            return line(mark.colour, 1, mark.dash)
        return lambda picture, x, y: picture.circle(x + 14, y, 6, stroke=mark.colour)

    rows = []
    for name, track, colour in vehicles:
        sailed = f"{track[0][0]:g} to {track[-1][0]:g} s, {length(track):.1f} m sailed; a dot each {every} s"
        rows.append((f"{name}: {sailed}", line(colour)))
    rows += [(f"{mark.name}: {mark.words}", sample(mark)) for mark in marks]
    if any(run.contacts for _, run in runs):
        rows.append(("contacts: a dot for each report", line(CONTACT, 1, "4 3")))
    if any(run.passes for _, run in runs):
        rows.append(("nearest pass, to where the contact was if it went on as reported (computed)", line(PASS, 2)))
    return rows or [("no places are told", lambda picture, x, y: None)]


def draw_contacts(chart, run):
    for name, reports in run.contacts.items():
        points = [chart.at(report.x, report.y) for report in reports]
        chart.picture.line(points, CONTACT, dash="4 3")
        chart.labels.pass_line(points)
        for point in points:
            chart.picture.circle(*point, 1.8, fill=CONTACT)


def label_contacts(chart, run):
    for name, reports in run.contacts.items():
        chart.labels.label(*chart.at(reports[0].x, reports[0].y), name, CONTACT)


def draw_line(chart, track, colour):
    """The line of a track, without the points that lie within a pixel of the one before."""
    points = [chart.at(*track[0][1:])]
    for place in track[1:]:
        point = chart.at(*place[1:])
        if math.dist(point, points[-1]) > 1.5:
            points.append(point)
    points.append(chart.at(*track[-1][1:]))
    chart.picture.line(points, colour, width=1.5)
    chart.labels.pass_line(points)


def draw_passes(chart, run):
    for _, _, near, _ in run.passes:
        ends = [chart.at(*near.vehicle), chart.at(*near.contact)]
        chart.picture.line(ends, PASS, width=2)
        chart.labels.pass_line(ends)


def label_passes(chart, run):
    for _, _, near, _ in run.passes:
        (x, y), (right, down) = chart.at(*near.vehicle), chart.at(*near.contact)
        chart.labels.label((x + right) / 2, (y + down) / 2, f"{near.distance:.1f} m at {near.stamp} s", PASS)


def dots_of(track, every):
    """The stamps and places of a track's marks, each so many seconds, without those at its two ends."""
    due = every * math.ceil(track[0][0] / every + 1e-9)
    for stamp, *place in track[:-1]:
        if stamp >= due:
            if place not in (list(track[0][1:]), list(track[-1][1:])):
                yield due, place
            due += every


def draw_dots(chart, track, colour, every):
    for _, place in dots_of(track, every):
        chart.circle(place, 3, fill=colour)
        chart.labels.keep_free(*chart.at(*place), 3)
    chart.circle(track[0][1:], 5, fill=START)
    chart.circle(track[-1][1:], 4, fill="white", stroke=colour, width=2)


def label_ends(chart, name, track, colour):
    chart.labels.label(*chart.at(*track[0][1:]), f"start {name}".strip(), START)
    chart.labels.label(*chart.at(*track[-1][1:]), f"end {name}".strip(), colour)


def label_dots(chart, track, colour, every):
    for due, place in dots_of(track, every):
        chart.labels.label(*chart.at(*place), f"{due:g} s", colour, size=10)
