#!/usr/bin/env python3
"""Writes missions and behaviour files of nearly 16 MiB, and prints seconds and peak memory of reading each.

    bench/readers.py [RUNS]       the least of so many runs; 5 where none are given

A mission is read before the behaviour file that it names is loaded, which isn't there: so its run ends with a load fault. A
behaviour file is read behind a small mission, and isn't closed at its end: so it is refused at its last line. Each file is
nearly all of one kind of line: comments, or lines of its own names. Nothing here is part of the gate, and no figure is promised.
"""
import os
import subprocess
import sys
import tempfile

TOP = os.path.dirname(os.path.dirname(os.path.abspath(__file__)))
BYTES = 16 * 1024 * 1024 - 4096


def helm(behaviors):
    return ["ProcessConfig = pHelmIvP", "{", f"  behaviors = {behaviors}", "  domain = course:0:359:360", "  domain = speed:0:4:41"]


def mission(line):
    """A mission of which nearly all is this line."""
    front = helm("absent.bhv")
    room = BYTES - sum(len(one) + 1 for one in front) - 2
    yield from front
    yield from [line] * (room // (len(line) + 1))
    yield "}"


def behaviors(line):
    """64 blocks of which nearly all is this line, and the last one isn't closed."""
    for k in range(64):
        front = ["Behavior = BHV_Waypoint", "{", f"  name = b{k}", "  points = 0,0 : 9,9", "  speed = 2"]
        room = BYTES // 64 - sum(len(one) + 1 for one in front) - 2
        yield from front
        yield from [line] * (room // (len(line) + 1))
        if k < 63:
            yield "}"


FILES = [
    ("mission: comments", "mission", mission, "// a remark"),
    ("mission: AppTick", "mission", mission, "  AppTick = 4"),
    ("mission: other names", "mission", mission, "  CommsTick = 4"),
    ("behaviors: comments", "behaviors", behaviors, "// a remark"),
    ("behaviors: speed", "behaviors", behaviors, "  speed = 2.5"),
    ("behaviors: unused", "behaviors", behaviors, "  lead = 8"),
]


def measure(words):
    child = subprocess.Popen(words, stdout=subprocess.DEVNULL, stderr=subprocess.PIPE)
    said = child.stderr.read().decode().strip()
    _, _, usage = os.wait4(child.pid, 0)
    return usage.ru_utime + usage.ru_stime, usage.ru_maxrss / 1024, said


def main():
    runs = int(sys.argv[1]) if len(sys.argv) > 1 else 5
    program = os.path.join(TOP, "moos")
    # Builds the program where it is stale, so that no run pays for that.
    subprocess.run([program, "play"], stderr=subprocess.DEVNULL)
    print(f"{'file':<24} {'lines':>8} {'cpu':>7} {'peak MB':>8}  how it ends")
    with tempfile.TemporaryDirectory() as folder:
        paths = {name: os.path.join(folder, name) for name in ("script", "mission", "behaviors")}
        for label, kind, make, line in FILES:
            small = helm(paths["behaviors"]) + ["}"]
            for name, text in ("script", []), ("mission", small), (kind, make(line)):
                with open(paths[name], "w") as out:
                    lines = sum(bool(out.write(one + "\n")) for one in text)
            found = [measure([program, "play", paths["script"], paths["mission"]]) for _ in range(runs)]
            cpu, peak, said = min(found)
            print(f"{label:<24} {lines:>8} {cpu:>7.3f} {peak:>8.1f}  {said}", flush=True)


if __name__ == "__main__":
    main()
