"""The words of the command line: which command, on which reports, and what is said if something is wrong."""
import argparse
import os
import re
import signal
import sys
from contextlib import contextmanager

from . import alog, contact, diff, functions, marks, plotting, summary, timeline, track, why
from .behaviors import BehaviorFile
from .drawing import svg
from .numbers import thousandths
from .report import BadReport, Report, Trouble
from .sailed import Sailed

ABOUT = """Looks into a run by the report that `moos` wrote of it (docs/FORMATS.md says what its lines are). Without the name of a
report, or with `-`, it is read from standard input. Nothing here is part of what is proved: it only reads what was printed. What is
read off a report is printed as the report has it, and what is computed here is said to be."""
ENDING = """The status is 0; 1 if `diff` finds a difference; 2 if the words, a file or a report is wrong, which is told on standard
error, of a report with its line."""


def text_in(name, **how):
    return open(name, encoding="utf-8", errors="surrogateescape", **how)


@contextmanager
def opened(name, problems=False):
    """The report of a file or of standard input. If it breaks off, that is told after all else."""
    if name == "-":
        sys.stdin.reconfigure(encoding="utf-8", errors="surrogateescape", newline="\n")
    file = sys.stdin if name == "-" else text_in(name, newline="\n")
    with file:
        report = Report(file, "standard input" if name == "-" else name, problems)
        yield report
    if report.breaks_off:
        raise BadReport(report.name, report.number, "here the report breaks off: the run isn't finished, or it failed")


def behaviors_in(name):
    """What a behaviour file says, or None without a name."""
    if name is None:
        return None
    with text_in(name) as file:
        read = BehaviorFile(file.read())
    if not read.behaviors and not read.modes:
        raise Trouble(f"{name}: it has neither a behaviour nor a mode; is it a behaviour file?")
    return read


def print_lines(lines):
    for line in lines:
        print(line)


def draw(picture, output):
    """Writes a picture as SVG, or by matplotlib as what the name's end says."""
    if output is None:
        print_lines(svg(picture))
    elif output.endswith(".svg"):
        with open(output, "w", encoding="utf-8") as file:
            file.writelines(line + "\n" for line in svg(picture))
    else:
        save(picture, output)


def save(picture, output):
    try:
        plotting.save(picture, output)
    except ImportError:
        raise Trouble(f"{output}: only matplotlib makes this, and it isn't installed; a name that ends in .svg needs nothing") from None
    except ValueError as fault:
        raise Trouble(f"{output}: {fault}") from None


def run_timeline(words):
    with opened(words.report) as report:
        print_lines(timeline.run(report))


def run_summary(words):
    with opened(words.report) as report:
        print_lines(summary.run(report))


def run_why(words):
    file = behaviors_in(words.behaviors)
    with opened(words.report, problems=True) as report:
        print_lines(why.run(report, words.behavior, words.stamp, file))


def run_functions(words):
    with opened(words.report, problems=True) as report:
        draw(functions.run(report, words.stamp), words.output)


def run_track(words):
    about, runs = marks.marks_of(map(behaviors_in, words.behaviors or [])), []
    for name in words.reports or ["-"]:
        with opened(name) as report:
            runs.append((os.path.splitext(os.path.basename(name))[0], Sailed(report)))
    if not any(run.tracks or run.contacts for _, run in runs) and not about:
        raise Trouble("nobody posts NAV_X and NAV_Y, or a NODE_REPORT, so there is nothing to draw")
    draw(track.picture_of(runs, about), words.output)


def run_alog(words):
    with opened(words.report) as report:
        print_lines(alog.run(report, words.community))


def run_diff(words):
    with opened(words.left) as left, opened(words.right) as right:
        same, lines = diff.compare(left, right)
        print_lines(lines)
    return 0 if same else 1


def run_contact(words):
    with opened(words.report) as report:
        print_lines(contact.run(report, words.name, words.vehicle, words.client, words.every))


def number(words):
    """A number of seconds, in thousandths."""
    if not re.fullmatch(r"\d+\.?\d*|\.\d+", words):
        raise argparse.ArgumentTypeError(f"{words} is no number of seconds")
    return thousandths(words)


def name(words):
    if not re.fullmatch(r"[A-Za-z_][A-Za-z0-9_.-]{0,31}", words):
        raise argparse.ArgumentTypeError(f"{words} is no name of at most 32 letters, digits, `_`, `-` and `.`")
    return words


REPORT = ["report"], {"metavar": "REPORT", "nargs": "?", "default": "-", "help": "the report of a run; standard input without it"}
STAMP = ["stamp"], {"metavar": "STAMP", "type": number, "help": "seconds: the helm's last iteration up to then is taken"}
OUTPUT = ["--output"], {
    "metavar": "FILE",
    "help": "where the picture goes: a name in .svg, or in .png, .pdf .. if matplotlib is installed; SVG on standard output without it",
}
COMMANDS = [
    ("timeline", run_timeline, """what happened, and when: a line for each change of the helm's drive or mode, of a behaviour's state, of a
text that was posted (of each variable the first 20 changes; modes, node reports and CONTACT_INFO aside), for each registration of a
script's client, and for updates and faults, unless the iteration before had the same.""", [REPORT]),
    ("summary", run_summary, """what a run was: counts, seconds in drive, modes and states, updates, faults, metres sailed, nearest passes of
contacts, and each variable with its posts, first and last stamp and sources.""", [REPORT]),
    ("why", run_why, """why a behaviour was idle, or what became of it: for an idle one each of its conditions, whether it holds, and what the
helm knew of its variables; for an active one its weight, and what the decision and its own best point are worth to it.""", [
        (["behavior"], {"metavar": "BHV", "help": "the name of a behaviour or a template"}), STAMP, REPORT,
        (["--behaviors"], {"metavar": "FILE", "help": "the behaviour file, in which the conditions are"}),
    ]),
    ("functions", run_functions, """what each behaviour wanted (a picture): the function of each active behaviour and their weighted sum at a
moment, with the decided point. Over course and speed it is a disc, on which the direction is the course and the distance from the middle
the speed, and over any other axis a curve. Worths are worked out here from the report's pieces.""", [STAMP, REPORT, OUTPUT]),
    ("track", run_track, """where vehicles and contacts were (a picture): north up, with the nearest moment of each pass, and what the
behaviours of a file are about. A vehicle is whoever posts NAV_X and NAV_Y, or a prefix before these. A contact is whoever a NODE_REPORT
names, in any order of its keys. Places of behaviours are as the file has them: updates aren't followed.""", [
        (["reports"], {"metavar": "REPORT", "nargs": "*", "help": "the reports of one or more runs; standard input without any"}),
        (["--behaviors"], {
            "metavar": "FILE", "action": "append",
            "help": "a behaviour file whose points, polygons, stations and regions are drawn; may be given again",
        }), OUTPUT,
    ]),
    ("alog", run_alog, """the posts as an .alog file: the log of MOOS-IvP's logger, for tools that read such files.""", [
        REPORT,
        (["--community"], {
            "metavar": "N", "type": int, "default": 1, "choices": (1, 2), "help": "of the two reports that `share` writes: 1 or 2",
        }),
    ]),
    ("diff", run_diff, """where two runs part: the first stamp at which they post other things, the first iteration of the helm that differs,
and how far vehicles of the same name got apart. The status is 1 if they differ.""", [
        (["left"], {"metavar": "REPORT"}), (["right"], {"metavar": "REPORT"}),
    ]),
    ("contact", run_contact, """the vehicle as a contact of another run: lines of a script that post its node reports. They join a script in
the order of stamps by `(cat SCRIPT; moos look contact REPORT) | sort -s -g -k1,1`.""", [
        REPORT,
        (["--name"], {"type": name, "default": "other", "help": "the contact's name (other)"}),
        (["--vehicle"], {"help": "which vehicle, by the name that summary prints; the first one without it"}),
        (["--client"], {"type": name, "default": "ais", "help": "the client that posts the reports (ais)"}),
        (["--every"], {
            "metavar": "SECONDS", "type": number, "default": 1000, "help": "the least time from one report to the next (1)",
        }),
    ]),
]


def parser():
    """The commands with their words."""
    whole = argparse.ArgumentParser(prog="moos look", description=ABOUT, epilog=ENDING)
    commands = whole.add_subparsers(metavar="COMMAND", required=True)
    for title, run, about, words in COMMANDS:
        brief, says = about.partition(":")[0], about[0].upper() + about[1:]
        command = commands.add_parser(title, help=brief, description=says, epilog="`moos look --help` says what all commands share.")
        command.set_defaults(run=run)
        for names, how in words:
            command.add_argument(*names, **how)
    return whole


def main():
    """Runs the command that the words of the command line name. A pipe whose reader goes away ends it as any other program."""
    signal.signal(signal.SIGPIPE, signal.SIG_DFL)
    sys.stdout.reconfigure(encoding="utf-8", errors="surrogateescape", newline="\n")
    return status_of(parser().parse_args())


def status_of(words):
    """The status of a command that was run with its words."""
    try:
        return words.run(words) or 0
    except Trouble as trouble:
        sys.stdout.flush()
        print(f"moos look: {trouble}", file=sys.stderr)
    except OSError as fault:
        print(f"moos look: {fault.filename}: {fault.strerror}", file=sys.stderr)
    return 2
