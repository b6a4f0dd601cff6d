#!/usr/bin/env python3
"""Solves problems of growing size with 1, 2 and 4 workers and checks the decision, and prints seconds, peak memory, closed
nodes and the lines of the certificate.

    bench/solve.py [SEED [PROGRAM]]          1 and this repository's program where none is given

The problems: 64 functions of one piece each, at the greatest weight; 3 functions of 8 random pieces and 40 of 36 over
course and speed; 12 of 300 over course, speed and depth; 10 of 4,096 over 2000 x 2000 points; and two hard ones over course,
speed and depth, 40 functions of 360 pieces and 64 of 36, whose decisions are longer than what a check takes: there it ends with
exit status 3. Random pieces are boxes
that the domain falls into when a box is cut in two at a random place, again and again, each with random slopes and with
values from 0 to 100,000. Nothing here is part of the gate, and no figure is promised. The closed nodes are those at and
above the lines of the certificate: so many the cutter and the checker close, and a search that knows the best key from the
start; how many more each worker closed can't be seen in a run of the program, and workers.md has such counts. A peak of
some 14 MB is what this script itself has when it starts the program; the program's own is below that.

Where strace is there, each solve of a hard problem is run once more under it, and the seconds of its parts are printed: reading,
search, cut and printing. A thread's first and last call tell where the work of a team begins and ends. One worker alone calls the
system all the time while it cuts, to get memory, and never while it searches, so its search is the longest time without a call.
"""
import os
import random
import re
import shutil
import subprocess
import sys
import tempfile

TOP = os.path.dirname(os.path.dirname(os.path.abspath(__file__)))

COURSE = ("course:0:359:360", 360)
SPEED = ("speed:0:4:41", 41)
DEPTH = ("depth:0:100:101", 101)
ACROSS = ("x:0:1999:2000", 2000)
ALONG = ("y:0:1999:2000", 2000)


def boxes(random_, sizes, count):
    """The domain in this many boxes, each a list of a low and a high place on each axis."""
    parts = [[(0, size - 1) for size in sizes]]
    while len(parts) < count:
        box = parts.pop(random_.randrange(len(parts)))
        wide = [axis for axis, (low, high) in enumerate(box) if low < high]
        if not wide:
            parts.append(box)
            continue
        axis = random_.choice(wide)
        low, high = box[axis]
        cut = random_.randrange(low, high)
        parts.append(box[:axis] + [(low, cut)] + box[axis + 1:])
        parts.append(box[:axis] + [(cut + 1, high)] + box[axis + 1:])
    return parts


def piece(random_, box):
    """A piece on the box: the slopes share the range of values, so that each value is in range."""
    share = 100_000 // len(box)
    slopes = [random_.randint(-share, share) // max(1, high - low) for low, high in box]
    least = sum(min(slope * low, slope * high) for slope, (low, high) in zip(slopes, box))
    most = sum(max(slope * low, slope * high) for slope, (low, high) in zip(slopes, box))
    base = random_.randint(0, 100_000 - (most - least)) - least
    ends = [end for low_high in box for end in low_high]
    return "piece " + " ".join(map(str, ends + [base] + slopes))


def mixed(random_, axes, functions, pieces):
    lines = ["ivp 1"] + [f"domain {text}" for text, _ in axes]
    for _ in range(functions):
        lines.append(f"function {random_.randint(1, 10_000)}")
        lines += [piece(random_, box) for box in boxes(random_, [size for _, size in axes], pieces)]
    return lines + ["end"]


def level():
    lines = ["ivp 1", f"domain {COURSE[0]}"]
    for _ in range(64):
        lines += ["function 10000", "piece 0 359 100000 0"]
    return lines + ["end"]


def measure(program, *words):
    """Runs the program once: its exit status, what it printed, seconds of wall clock and of processor time, peak MB."""
    start = os.times()
    child = subprocess.Popen([program, *words], stdout=subprocess.PIPE)
    printed = child.stdout.read().decode()
    _, status, usage = os.wait4(child.pid, 0)
    end = os.times()
    return os.waitstatus_to_exitcode(status), printed, end.elapsed - start.elapsed, usage.ru_utime + usage.ru_stime, usage.ru_maxrss / 1024


def traced(program, words, workers):
    """The seconds of reading, search, cut and printing of a solve by so many workers."""
    with tempfile.NamedTemporaryFile(mode="r") as trace, open(os.devnull, "w") as nothing:
        calls = "execve,read,write,brk,mmap,munmap,mremap,clone,clone3,exit,exit_group"
        subprocess.run(["strace", "-f", "-ttt", "-e", "trace=" + calls, "-o", trace.name, program, *words], stdout=nothing, check=True)
        events = [re.match(r"(\d+) +([\d.]+) (?:<... )?(\w*|\+\+\+)(.*)", line) for line in trace]
    events = [(int(event[1]), float(event[2]), event[3], event[4]) for event in events if event]
    main, start = events[0][:2]
    puts = [time for _, time, call, rest in events if call == "write" and rest.startswith("(1,")]
    end = next(time for pid, time, call, _ in events if pid == main and call == "exit_group")
    before = [event for event in events if event[1] <= puts[0]]
    if workers == 1:
        times = [time for _, time, _, _ in before]
        begun, ended = max(zip(times, times[1:]), key=lambda pair: pair[1] - pair[0])
    else:
        threads = list(dict.fromkeys(pid for pid, _, _, _ in before if pid != main))[: workers - 1]
        begun = min(time for pid, time, call, _ in before if call.startswith("clone"))
        ended = max(time for pid, time, _, _ in before if pid in threads)
    return begun - start, ended - begun, puts[0] - ended, end - puts[0]


def note_of(status, printed):
    """The decision, the closed nodes and the number of the certificate's lines, what a check answers, or the exit status."""
    lines = printed.splitlines()
    said = [line for line in lines if line.startswith(("decision", "accepted"))]
    if status != 0 or not said:
        return f"exit status {status}"
    nodes, count, before = 1, 0, []
    for line in lines:
        if line.startswith("cut "):
            path = line.split(" : ")[0].split()[1:]
            # The lines stand depth first: a node is new where the path leaves the one before it.
            nodes += len(path) - len(os.path.commonprefix([before, path]))
            count, before = count + 1, path
    return f"{said[0]}, {nodes:,} closed nodes, {count:,} lines" if count else said[0]


def main():
    seed = int(sys.argv[1]) if len(sys.argv) > 1 else 1
    problems = [
        ("64 level functions over course", level()),
        ("3 functions of 8 pieces over course, speed", mixed(random.Random(seed), [COURSE, SPEED], 3, 8)),
        ("40 functions of 36 pieces over course, speed", mixed(random.Random(seed), [COURSE, SPEED], 40, 36)),
        ("12 functions of 300 pieces over course, speed, depth", mixed(random.Random(seed), [COURSE, SPEED, DEPTH], 12, 300)),
        ("10 functions of 4,096 pieces over 2000 x 2000", mixed(random.Random(seed), [ACROSS, ALONG], 10, 4096)),
    ]
    hard = [
        ("40 functions of 360 pieces over course, speed, depth", mixed(random.Random(seed), [COURSE, SPEED, DEPTH], 40, 360)),
        ("64 functions of 36 pieces over course, speed, depth", mixed(random.Random(seed), [COURSE, SPEED, DEPTH], 64, 36)),
    ]
    program = sys.argv[2] if len(sys.argv) > 2 else os.path.join(TOP, "moos")
    # Builds the program where it is stale, so that no run pays for that.
    subprocess.run([program, "solve"], stderr=subprocess.DEVNULL)
    print(f"{'problem':<52} {'job':<8} {'seconds':>8} {'cpu':>7} {'peak MB':>8}")
    with tempfile.TemporaryDirectory() as folder:
        for name, lines in problems + hard:
            problem, decision = os.path.join(folder, "problem.txt"), os.path.join(folder, "decision.txt")
            with open(problem, "w") as out:
                out.write("\n".join(lines) + "\n")
            for job, words in [(f"solve {n}", ["solve", problem, "--workers", str(n)]) for n in (1, 2, 4)] + [("check", ["check", decision])]:
                status, printed, seconds, cpu, peak = measure(program, *words)
                if job != "check":
                    with open(decision, "w") as out:
                        out.write(printed)
                print(f"{name:<52} {job:<8} {seconds:>8.3f} {cpu:>7.3f} {peak:>8.1f}  {note_of(status, printed)}")
                if (name, lines) in hard and job != "check" and shutil.which("strace"):
                    read, search, cut, put = traced(program, words, int(words[-1]))
                    print(f"{'':<52} {'parts':<8} read {read:.3f}, search {search:.3f}, cut {cut:.3f}, print {put:.3f}")


if __name__ == "__main__":
    main()
