#!/usr/bin/env python3
"""Simulates a survey of 20,000 ticks, and plays the same helm over what the vehicle's clients did, by turns.

    bench/simulate.py [RUNS]   three times where nothing is given

The script that is played is made from the report of the simulation: it has the opening of pMarinePID and uSimMarine, and their
fetches and posts one and two thousandths of a second behind each tick, so that the helm hears the same before each tick and decides the
same. The least seconds, the least seconds of a processor and the peak memory of both are printed, and how many times `simulate` takes
what `play` does. It says so if the helms differ. MOOS names another program than `./moos`. Nothing here is part of the gate, and no figure is promised.
"""
import hashlib
import os
import subprocess
import sys
import tempfile
import time

TOP = os.path.dirname(os.path.dirname(os.path.abspath(__file__)))
MOOS = os.environ.get("MOOS", os.path.join(TOP, "moos"))
TICKS, APP_TICK = 20000, 4
POINTS = " : ".join(f"{x},{y}" for x in range(-150, 151, 60) for y in (-150, 150))
FILES = {
    "sail.moos": ["ProcessConfig = pHelmIvP", "{", f"  AppTick = {APP_TICK}", "  behaviors = sail.bhv",
                  "  domain = course:0:359:360", "  domain = speed:0:4:41", "  domain = depth:0:100:101", "}"],
    "sail.bhv": ["Behavior = BHV_Waypoint", "{", "  name = survey", "  speed = 2", f"  points = {POINTS}", "  repeat = forever", "}",
                 "Behavior = BHV_ConstantDepth", "{", "  name = deep", "  depth = 10", "}"],
    "sail.txt": ["0 owner post MOOS_MANUAL_OVERRIDE=false", f"{(TICKS - 1) / APP_TICK} until"],
    "sail.vehicle": [],
}
LATER = {"pMarinePID": 0.001, "uSimMarine": 0.002}


def entries(lines):
    """The entries of a report, each with the lines below it."""
    entry = []
    for line in lines:
        if line.startswith("%% entry "):
            yield entry
            entry = []
        entry.append(line)
    yield entry


def lines_of(entry, later):
    """The lines of a script that do, so many seconds later, what the entry says."""
    _, _, _, stamp, client, does, *_ = entry[0].split(" ")
    start = f"{float(stamp) + later:.3f} {client} {does}"
    if does == "register":
        registered = [line.split(" ") for line in entry if line.startswith("%% reg ")]
        return [f"{start} {variable} {interval} {source}" for _, _, variable, source, interval in registered]
    if does == "post":
        posted = [line.split(" ", 3) for line in entry[1:] if not line.startswith("%%")]
        return [start + " " + " # ".join(f"{variable}={value}" for _, variable, _, value in posted)]
    return [start]


def script_of(report):
    """What the vehicle's clients do at the start, and then what they do behind each tick, each at a stamp of its own."""
    yield FILES["sail.txt"][0]
    ticked = False
    for entry in entries(line.rstrip("\n") for line in report):
        words = entry[0].split(" ") if entry else [""]
        ticked = ticked or words[4:6] == ["pHelmIvP", "fetch"]
        if words[0] == "%%" and words[1] == "entry" and words[4] in LATER:
            yield from lines_of(entry, LATER[words[4]] if ticked else 0)


def decisions(path):
    """How many decisions a report has, and a sum over them."""
    count, digest = 0, hashlib.sha256()
    with open(path) as report:
        for line in report:
            if line.startswith("%% decision "):
                count += 1
                digest.update(line.encode())
    return count, digest.hexdigest()


def run(words, folder, report):
    """Seconds, seconds of a processor and megabytes of a run, whose report goes to a file."""
    with open(report, "w") as file:
        start = time.perf_counter()
        process = subprocess.Popen([MOOS, *words], stdout=file, cwd=folder)
        _, status, use = os.wait4(process.pid, 0)
    if status:
        sys.exit(f"{words}: ended with {os.waitstatus_to_exitcode(status)}")
    return time.perf_counter() - start, use.ru_utime + use.ru_stime, use.ru_maxrss / 1024


def main():
    runs = int(sys.argv[1]) if len(sys.argv) > 1 else 3
    with tempfile.TemporaryDirectory() as folder:
        for name, lines in FILES.items():
            with open(os.path.join(folder, name), "w") as file:
                file.write("\n".join(lines) + "\n")
        one, other = (os.path.join(folder, name) for name in ("simulated", "played"))
        simulate, play = ["simulate", "sail.txt", "sail.moos", "sail.vehicle"], ["play", "same.txt", "sail.moos"]
        run(simulate, folder, one)
        with open(one) as report, open(os.path.join(folder, "same.txt"), "w") as script:
            script.writelines(line + "\n" for line in script_of(report))
        turns = [(run(simulate, folder, one), run(play, folder, other)) for _ in range(runs)]
        if decisions(one) != decisions(other):
            print("the decisions differ")
        print(f"{decisions(one)[0]} decisions")
        for name, place in (("seconds", 0), ("of a processor", 1), ("megabytes", 2)):
            simulated, played = (min(turn[which][place] for turn in turns) for which in (0, 1))
            print(f"{name:15} simulate {simulated:8.3f}  play {played:8.3f}  {simulated / played:5.2f}")


main()
