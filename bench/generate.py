#!/usr/bin/env python3
"""Plays a generated mission by `generate`, and by `play` of its script, mission and behaviours written to files, by turns,
and prints seconds and peak memory of each, and how many times the one takes what the other does.

    bench/generate.py [NUMBER [RUNS]]   mission 7 three times where nothing is given

The script is made here anew, by a PCG generator of its own. What the summary counts is counted of the report too, and a
difference is told. Nothing here is part of the gate, and no figure is promised.
"""
import os
import re
import subprocess
import sys
import tempfile

TOP = os.path.dirname(os.path.dirname(os.path.abspath(__file__)))
MOOS = os.path.join(TOP, "moos")
SURVEY = os.path.join(TOP, "crates", "mission_maker", "src", "survey.rt")
MASK = (1 << 64) - 1


def words(number):
    """The words of a PCG generator (XSH RR 64/32) that starts at the number, in stream 0."""
    state = 0

    def step():
        return (state * 6364136223846793005 + 1) & MASK

    state = (number + 1) & MASK
    state = step()
    while True:
        shifted, turn = ((state >> 18 ^ state) >> 27) & 0xFFFFFFFF, state >> 59
        yield (shifted >> turn | shifted << (-turn & 31)) & 0xFFFFFFFF
        state = step()


def script_of(number):
    stream = words(number)

    def draw(n):
        return next(stream) % n

    lines = [f"{k / 1000} c{k} register V* {draw(3) * 0.5}" for k in range(8)]
    lines.append("0.05 nav post DEPLOY=true # MOOS_MANUAL_OVERRIDE=false")
    for second in range(600):
        for k in range(8):
            at = 1000 * second + 100 + 100 * k
            variable, value = draw(16), draw(1000)
            lines.append(f"{at / 1000} c{k} post V{variable}={value}")
            if draw(4) == 0:
                lines.append(f"{(at + 1) / 1000} c{k} fetch")
        x, y = draw(200), draw(200) - 200
        lines.append(f"{second + 0.95:.2f} nav post NAV_X={x} # NAV_Y={y}")
    lines.append("600 until")
    return "\n".join(lines) + "\n"


def survey_files():
    """The mission and the behaviours of the survey, as the program has them."""
    with open(SURVEY) as source:
        return re.findall(r'pub const \w+: &str = "([^"]*)";', source.read())


def measure(line, output):
    """Runs a command line once: its seconds of wall clock and of processor time, and its peak memory in MB."""
    with open(output, "wb") as out:
        start = os.times()
        child = subprocess.Popen(line, stdout=out)
        _, status, usage = os.wait4(child.pid, 0)
        end = os.times()
    if status != 0:
        sys.exit(f"{' '.join(line)} ends with {os.waitstatus_to_exitcode(status)}")
    return end.elapsed - start.elapsed, usage.ru_utime + usage.ru_stime, usage.ru_maxrss / 1024


def counted(number, report):
    """What a summary says of the run that the report is of."""
    starts = {start: 0 for start in ("%% mail ", "%% iteration ", "%% decision ")}
    total = entries = posts = 0
    with open(report) as lines:
        for line in lines:
            for start in starts:
                starts[start] += line.startswith(start)
            if line.startswith("%% decision "):
                total += int(line.split()[-1])
            if line.startswith("%% end "):
                _, _, *ends = line.split()
                if len(ends) == 2:
                    entries, posts = ends
    mailed, iterations, decisions = starts.values()
    return (f"generated {number}\nentries {entries}\nposts {posts}\nmailed {mailed}\niterations {iterations}\n"
            f"decisions {decisions}\ntotal {total}\n")


def main():
    number = int(sys.argv[1]) if sys.argv[1:] else 7
    runs = int(sys.argv[2]) if sys.argv[2:] else 3
    # Builds the program where it is stale, so that no run pays for that.
    subprocess.run([MOOS, "generate"], stderr=subprocess.DEVNULL)
    with tempfile.TemporaryDirectory() as folder:
        script, mission, behaviors, report, summary = (os.path.join(folder, name) for name in ("script.txt", "mission.moos", "survey.bhv", "report.txt", "summary.txt"))
        mission_text, behaviors_text = survey_files()
        mission_text = mission_text.replace("AppTick = 4", "AppTick = 2").replace("alpha.bhv", behaviors)
        for name, text in (script, script_of(number)), (mission, mission_text), (behaviors, behaviors_text):
            with open(name, "w") as out:
                out.write(text)
        lines = {"generate": ([MOOS, "generate", str(number)], summary), "play": ([MOOS, "play", script, mission], report)}
        best = {}
        print(f"{'command':<10} {'seconds':>8} {'cpu':>7} {'peak MB':>8}")
        for _ in range(runs):
            for name, (line, output) in lines.items():
                seconds, cpu, peak = measure(line, output)
                best[name] = min(best.get(name, seconds), seconds)
                print(f"{name:<10} {seconds:>8.3f} {cpu:>7.3f} {peak:>8.1f}", flush=True)
        print(f"generate takes {best['generate'] / best['play']:.2f} of what play does")
        with open(summary) as text:
            if text.read() != counted(number, report):
                sys.exit("the summary counts something else than the report has")


if __name__ == "__main__":
    main()
