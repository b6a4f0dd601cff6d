#!/usr/bin/env python3
"""Plays scripts, and prints seconds and peak memory of each.

    bench/play.py [LINES..]            scripts of growing length; 1,000, 10,000 and 100,000 lines where none are given
    bench/play.py --wide [PROGRAM..]   scripts of many clients, by this program and by turns by each other one named,
                                       which takes the same words
    bench/play.py --helm [PROGRAM..]   scripts with a helm of 20,000 ticks, likewise
    bench/play.py --behaviors [PROGRAM..]   a script with a position each second, and 20,000 ticks of a helm with behaviours
    bench/play.py --stamps [PROGRAM..]  scripts whose clients share their stamps, likewise
    bench/play.py --late [PROGRAM..]    scripts in which a client registers for all when much was posted, likewise
    bench/play.py --known [PROGRAM..]   scripts with a helm that has learnt much, likewise

For each length: one client that only posts; one that registers first and posts; and one that registers, posts, and
fetches at every tenth line. Of many clients, each of which fetches once at the end: 64 of 256 registrations each that hear
none of 80,000 posts; 63 that hear each of 90,000; and 8 of 256 registrations each, of which one selects each of 90,000
posts. Further 64 that post at stamps of their own, and 64 in a race. With a helm that ticks four times a second: one client
that posts once, so that nothing comes to a tick but the first; and 64 clients of 100,000 lines that the helm hears none of,
or each; and the last in a race. With behaviours over course, speed and depth: four that want a heading, a speed, a depth and no greater depth; and one
that goes round points, one that keeps a station, and one that wants a depth. Of clients that share their stamps: 64 and 4 that post at
each whole second, and 4 that post 64 times at each. A client that heard one of two variables at each post, 400,000 and 800,000 times,
and then registers for all of 4,096. A helm of 4,000 ticks with a letter each that knows 1, 1,000 and 4,000 variables. Reports go to a
file. Nothing here is part of the gate, and no figure is promised.
"""
import os
import subprocess
import sys
import tempfile

TOP = os.path.dirname(os.path.dirname(os.path.abspath(__file__)))
MOOS = os.path.join(TOP, "moos")


def posts(lines):
    return [f"{k * 0.01:.2f} pA post X={k}" for k in range(lines)]


def registered(lines):
    return ["0 pA register X"] + posts(lines - 1)


def fetched(lines):
    body = [f"{k * 0.01:.2f} pA fetch" if k % 10 == 9 else f"{k * 0.01:.2f} pA post X={k}" for k in range(lines - 1)]
    return ["0 pA register X"] + body


def asked_and_fetched(clients, patterns, posted):
    asked = [f"{client * 0.001:.3f} p{client} register {pattern}" for client in clients for pattern in patterns]
    said = [f"{1 + k * 0.001:.3f} p0 post {pair}" for k, pair in enumerate(posted)]
    return asked + said + [f"{100 + client * 0.001:.3f} p{client} fetch" for client in clients]


def unheard():
    return asked_and_fetched(range(64), [f"N{k}" for k in range(256)], [f"V{k % 256}={k}" for k in range(80_000)])


def heard():
    return asked_and_fetched(range(1, 64), ["V*"], [f"V{k % 256}={k}" for k in range(90_000)])


def chosen():
    return asked_and_fetched(range(8), [f"V{k}" for k in range(256)], [f"V{k % 256}={k}" for k in range(90_000)])


def apart():
    return [f"{k * 0.001:.3f} p{k % 64} post X={k}" for k in range(90_000)]


def race():
    return [f"0 p{k % 64} post X={k}" for k in range(20_000)]


def seconds_shared(clients, seconds, times=1):
    posted = [f"p{client} post X{client}={second}" for second in range(seconds) for _ in range(times) for client in range(clients)]
    return [f"{k // (clients * times)} {words}" for k, words in enumerate(posted)]


def sixty_four_share():
    return seconds_shared(64, 1_500)


def four_share():
    return seconds_shared(4, 25_000)


def four_share_heavily():
    return seconds_shared(4, 390, 64)


def by_sixty_fours(pairs):
    return [" # ".join(pairs[k : k + 64]) for k in range(0, len(pairs), 64)]


def registered_late(times):
    begun = [f"1 p0 post {batch}" for batch in by_sixty_fours([f"N{k}=0" for k in range(4094)])]
    heard = [f"2 p0 post {batch}" for batch in by_sixty_fours(["HEARD=1", "UNHEARD=1"] * (times // 2))]
    return ["0 p1 register HEARD"] + begun + heard + ["3 p1 register *", "4 p1 fetch"]


def late():
    return registered_late(400_000)


def later():
    return registered_late(800_000)


def learnt(names):
    begun = [f"0 p0 post {batch}" for batch in by_sixty_fours([f"N{k}=1" for k in range(names)])]
    told = [f"{k // 4}.{k % 4 * 25 + 10:02d} p0 post N0=1" for k in range(4_000)]
    return ["0 p0 post DEPLOY=true # MOOS_MANUAL_OVERRIDE=false"] + begun + told + ["1000 until"]


def quiet():
    return ["0 p0 post DEPLOY=true # MOOS_MANUAL_OVERRIDE=false", "4999.75 until"]


def posted(name):
    given = ["0 p0 post DEPLOY=true # MOOS_MANUAL_OVERRIDE=false"]
    lines = [f"{k * 0.0499:.3f} p{k % 64} post {name}={k}" for k in range(99_998)]
    return given + lines + ["4999.75 until"]


def unwanted():
    return posted("X")


def wanted():
    return posted("NAV_X")


def wanted_race():
    return posted("NAV_X")


MISSION = """ProcessConfig = pHelmIvP
{{
  AppTick   = 4
  behaviors = {}
  domain    = course:0:359:360
}}
"""

MODES = """set MODE = ACTIVE {
  DEPLOY = true
} INACTIVE
"""

ALL_AXES = MISSION.replace("}}\n", "  domain    = speed:0:4:41\n  domain    = depth:0:100:101\n}}\n")


def behavior(kind, *lines):
    return "\n".join([f"Behavior = {kind}", "{", f"  name = {kind}", *lines, "}", ""])


STEADY = (
    behavior("BHV_ConstantHeading", "heading = 90")
    + behavior("BHV_ConstantSpeed", "speed = 2")
    + behavior("BHV_ConstantDepth", "depth = 10")
    + behavior("BHV_MaxDepth", "max_depth = 40")
)

ROUND = " : ".join(f"{x},{y}" for x in range(-150, 151, 60) for y in (-150, 150))

STEERING = (
    behavior("BHV_Waypoint", "speed = 2", f"points = {ROUND}", "repeat = forever")
    + behavior("BHV_ConstantDepth", "depth = 10")
    + behavior("BHV_StationKeep", "station_pt = 0,0", "pwt = 30")
)


def asking(names):
    """Behaviours that each ask for a hundred variables, and so have the helm learn them."""
    blocks = []
    for first in range(0, names, 100):
        asked = " or ".join(f"N{k} = 1" for k in range(first, min(first + 100, names)))
        blocks.append(behavior("BHV_ConstantHeading", "heading = 90", f"condition = {asked}").replace("name = BHV", f"name = B{first}_BHV"))
    return "".join(blocks)


def sailed():
    given = ["0 nav post MOOS_MANUAL_OVERRIDE=false # NAV_X=0 # NAV_Y=0 # NAV_DEPTH=3"]
    told = [f"{k}.5 nav post NAV_X={k * 37 % 401 - 200} # NAV_Y={k * 53 % 401 - 200}" for k in range(4999)]
    return given + told + ["4999.75 until"]


# The scripts of many clients, and the words behind each.
WIDE = [(unheard, []), (heard, []), (chosen, []), (apart, []), (race, ["--race"])]

# Those whose clients share stamps, and those with a late registration.
STAMPS = [(sixty_four_share, []), (four_share, []), (four_share_heavily, [])]
LATE = [(late, []), (later, [])]

# The scripts with a helm, likewise.
HELM = [(quiet, []), (unwanted, []), (wanted, []), (wanted_race, ["--race"])]


def measure(program, script, words, report):
    """Runs a program once: its exit status, seconds of wall clock and of processor time, and peak memory in MB."""
    with open(report, "wb") as out:
        start = os.times()
        child = subprocess.Popen([program, "play", script] + words, stdout=out)
        _, status, usage = os.wait4(child.pid, 0)
        end = os.times()
    return os.waitstatus_to_exitcode(status), end.elapsed - start.elapsed, usage.ru_utime + usage.ru_stime, usage.ru_maxrss / 1024


def show(name, program, script, words, report):
    """Runs a program once, and prints a line of figures under this name."""
    status, seconds, cpu, peak = measure(program, script, words, report)
    size = os.path.getsize(report) / 1e6
    note = "" if status == 0 else f"  exit status {status}"
    print(f"{name:<20} {seconds:>8.3f} {cpu:>7.3f} {peak:>8.1f} {size:>10.2f}{note}", flush=True)


def main():
    # Builds the program where it is stale, so that no run pays for that.
    subprocess.run([MOOS, "play"], stderr=subprocess.DEVNULL)
    print(f"{'script':<20} {'seconds':>8} {'cpu':>7} {'peak MB':>8} {'report MB':>10}")
    with tempfile.TemporaryDirectory() as folder:
        script, report = os.path.join(folder, "script.txt"), os.path.join(folder, "report.txt")

        def write(lines):
            with open(script, "w") as out:
                out.write("\n".join(lines) + "\n")

        def compare(scripts, first):
            for make, words in scripts:
                write(make())
                for program in [MOOS] + sys.argv[2:]:
                    show(f"{make.__name__} {os.path.basename(program)}", program, script, first + words, report)

        if sys.argv[1:2] == ["--wide"]:
            return compare(WIDE, [])
        if sys.argv[1:2] == ["--stamps"]:
            return compare(STAMPS, [])
        if sys.argv[1:2] == ["--late"]:
            return compare(LATE, [])
        if sys.argv[1:2] == ["--known"]:
            mission, behaviors = os.path.join(folder, "mission.moos"), os.path.join(folder, "behaviors.bhv")
            for names in 1, 1_000, 4_000:
                write(learnt(names))
                for name, content in (behaviors, asking(names)), (mission, MISSION.format(behaviors)):
                    with open(name, "w") as out:
                        out.write(content)
                for program in [MOOS] + sys.argv[2:]:
                    show(f"known {names} {os.path.basename(program)}", program, script, [mission], report)
            return None
        if sys.argv[1:2] == ["--helm"]:
            mission, modes = os.path.join(folder, "mission.moos"), os.path.join(folder, "modes.bhv")
            for name, text in (modes, MODES), (mission, MISSION.format(modes)):
                with open(name, "w") as out:
                    out.write(text)
            return compare(HELM, [mission])
        if sys.argv[1:2] == ["--behaviors"]:
            write(sailed())
            mission, behaviors = os.path.join(folder, "mission.moos"), os.path.join(folder, "behaviors.bhv")
            for label, text in ("steady", STEADY), ("steering", STEERING):
                for name, content in (behaviors, text), (mission, ALL_AXES.format(behaviors)):
                    with open(name, "w") as out:
                        out.write(content)
                for program in [MOOS] + sys.argv[2:]:
                    show(f"{label} {os.path.basename(program)}", program, script, [mission], report)
            return None
        for lines in [int(word) for word in sys.argv[1:]] or [1_000, 10_000, 100_000]:
            for make in (posts, registered, fetched):
                write(make(lines))
                show(f"{make.__name__} {lines}", MOOS, script, [], report)


if __name__ == "__main__":
    main()
