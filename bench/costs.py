#!/usr/bin/env python3
"""Tells how many seconds the proof of each function takes, and why.

    bench/costs.py [--top N] [--parts] CRATE..          by the files that the last check of each crate left
    bench/costs.py --anew [--top N] [--parts] CRATE..   proves each crate from nothing first, by one job
    bench/costs.py --ways [--top N] CRATE..             the functions of these crates by the size of the lists of their ways out

A check by one job writes a file in crates/CRATE/out/incremental as it ends with each part of a function, so a part took the time
since the file before. Seconds are a clock's, which other work on the machine makes more, and with --anew a processor's, which it
changes little. Of a crate that several jobs proved nothing can be said so; the sizes of --ways are the same on each machine and
by however many jobs. What is loaded of the crates below is counted at the first function that needs it.

--parts tells what of a function took how long: Lts is the list of its ways out with what is dropped on each, Proof the proof of
its contract, Answers the answers and the searches, Tie what links it with the functions that it calls, and Layout, Kinds, Reads,
Named and Code its types, its memory and its code. docs/WORKING.md says what to do about each.

--anew works on a crate that rt check has proved in this checkout before: it stops where the check begins with what another
checkout on the machine kept. Nothing here is part of the gate, and no figure is promised.
"""
import bisect
import collections
import os
import re
import shutil
import subprocess
import sys
import time

TOP = os.path.dirname(os.path.dirname(os.path.abspath(__file__)))
TICK = os.sysconf("SC_CLK_TCK")
PART = re.compile(
    r"(Answers|Carried|Code|Invariants|Kinds|Layout|Lts|Met|Mir|Named|Proof|Reads|Statement|Symbol|TheLinks?|Tie)(-.*)?$"
)


def kept(crate):
    """The folder in which a check keeps its work."""
    return os.path.realpath(f"{TOP}/crates/{crate}/out/incremental")


def spent(process):
    """The processor seconds of a process and of all below it, the ended ones too."""
    above, took = {}, {}
    for it in filter(str.isdigit, os.listdir("/proc")):
        try:
            with open(f"/proc/{it}/stat") as file:
                words = file.read().rpartition(")")[2].split()
        except OSError:
            continue
        above[int(it)], took[int(it)] = int(words[1]), sum(map(int, words[11:15])) / TICK
    found, total = [process], 0.0
    for it in found:
        total += took.get(it, 0.0)
        found += [below for below, parent in above.items() if parent == it]
    return total


def prove(crate):
    """Proves a crate from nothing by one job. Gives the processor seconds that it had taken at which times, in two lists."""
    folder = f"{TOP}/crates/{crate}"
    shutil.rmtree(f"{folder}/out/incremental", ignore_errors=True)
    os.makedirs(f"{folder}/out/incremental")
    times, seconds = [time.time()], [0.0]
    with open(f"{folder}/out/costs.log", "w") as log:
        run = subprocess.Popen(["rt", "check", "--jobs", "1"], cwd=folder, stdin=subprocess.DEVNULL, stdout=log, stderr=log)
        while run.poll() is None:
            time.sleep(0.25)
            times.append(time.time())
            seconds.append(max(seconds[-1], spent(run.pid)))
    with open(f"{folder}/out/costs.log") as log:
        if "begins with what a check kept" in log.read():
            sys.exit(f"costs: {crate} began with what another checkout kept: prove it here by rt check, and then try again")
    if run.returncode:
        sys.exit(f"costs: {crate} is not proved: crates/{crate}/out/costs.log says why")
    return times, seconds


def at(clock, when):
    """The processor seconds at a time, and the time itself where none were counted."""
    if not clock:
        return when
    times, seconds = clock
    after = min(max(bisect.bisect(times, when), 1), len(times) - 1)
    share = (when - times[after - 1]) / max(times[after] - times[after - 1], 1e-9)
    return seconds[after - 1] + min(max(share, 0), 1) * (seconds[after] - seconds[after - 1])


def owner(crate, file):
    """Whose file it is, and of which part."""
    words = re.sub(r"(\.decls)?\.oantt$", "", file).replace(f"Rattle-{crate}-", "").split(".")
    part = "other"
    while len(words) > 1 and PART.match(words[-1]):
        part = PART.match(words.pop())[1]
    if words[:2] == ["specs", "contracts"]:
        words, part = ["proofs", *words[2:]], "Statement"
    if words[0] == "proofs" and len(words) > 1:
        return ".".join(words[1:]), part
    return f"({'.'.join(words)[:60]})", part


def costs(crate, clock):
    """The seconds of each function, by part."""
    files = []
    for folder, _, names in os.walk(kept(crate)):
        files += [(os.stat(f"{folder}/{it}").st_mtime, it) for it in names if it.endswith(".oantt")]
    if not files:
        sys.exit(f"costs: no check of {crate} left anything here")
    files.sort()
    found = collections.defaultdict(collections.Counter)
    # What comes before the first file is the reading of the crate and of the libraries.
    last = at(clock, clock[0][0] if clock else files[0][0])
    for place, (when, file) in enumerate(files):
        whose, part = owner(crate, file) if place else ("(reading)", "other")
        found[whose][part] += at(clock, when) - last
        last = at(clock, when)
    if clock:
        found["(behind the last file)"]["other"] += clock[1][-1] - last
    return found


def tell(crate, found, top, has_parts):
    whole = sum(found.values(), collections.Counter())
    total = sum(whole.values())
    print(f"{crate}: {total:.0f} seconds")
    if has_parts:
        print("  by part: " + ", ".join(f"{part} {took:.0f}" for part, took in whole.most_common() if took >= 1))
    for whose, parts in sorted(found.items(), key=lambda it: -sum(it[1].values()))[:top]:
        took = sum(parts.values())
        by = ", ".join(f"{part} {it:.0f}" for part, it in parts.most_common(4) if it >= 0.5)
        print(f"  {took:7.1f} {100 * took / total:5.1f}%  {whose[-70:]}" + (f"  [{by}]" if has_parts else ""))


def tell_ways(crates, top):
    lists = []
    for crate in crates:
        for folder, _, names in os.walk(kept(crate)):
            if os.path.basename(folder) != "records":
                lists += [(os.path.getsize(f"{folder}/{it}"), crate, owner(crate, it)[0]) for it in names if it.endswith(".Lts.oantt")]
    for size, crate, whose in sorted(lists, reverse=True)[:top]:
        print(f"  {size / 1e6:5.1f} MB  {crate} {whose}")
    large = [it[0] for it in lists if it[0] > 2e6]
    print(f"{sum(it[0] for it in lists) / 1e6:.0f} MB of {len(lists)} functions, {sum(large) / 1e6:.0f} MB of it of {len(large)} above 2 MB")


def main(words):
    top = int(words.pop(words.index("--top") + 1)) if "--top" in words else 20
    crates = [it for it in words if not it.startswith("--")]
    flags = {it for it in words if it.startswith("--")} - {"--top"}
    if not crates or flags - {"--anew", "--parts", "--ways"}:
        sys.exit(__doc__)
    if "--ways" in flags:
        return tell_ways(crates, top)
    for crate in crates:
        tell(crate, costs(crate, prove(crate) if "--anew" in flags else None), top, "--parts" in flags)


main(sys.argv[1:])
