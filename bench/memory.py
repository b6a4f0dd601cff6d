#!/usr/bin/env python3
"""Refuses a built program the Nth request for memory, for each N up to a run that asks less often, and judges each run.

    bench/memory.py PROGRAM [--alpha] [--jobs N]

PROGRAM is crates/moos_top/out/moos_top, or another that takes the same words. A run is good if it ends with status 0 and has written a
report that may come, or with status 6 and `moos: no memory` and has written the beginning of such a report, which is empty for every job
but `play` and `simulate`. A line for each input: how many runs there were, how each sort of them ended, and how many were bad; with --alpha
the survey and a simulated vehicle too, which ask some thousands of times (minutes). The exit status is 1 if a run was bad. It needs a C
compiler, and is no part of the gate: that memory runs out is a matter of contracts, and this tries the program as it was built.
"""
import argparse
import itertools
import os
import struct
import subprocess
import sys
import tempfile
from concurrent.futures import ThreadPoolExecutor

TOP = os.path.dirname(os.path.dirname(os.path.abspath(__file__)))
BESIDE = {"a": ["0 register X", "1 post X=1", "1 fetch"], "b": ["0.5 register X", "1 post X=2", "1 fetch"]}
SECONDS = 60


def beside_reports(race):
    """Each report that may come of examples/beside, by the rule of who is mailed what, over the orders that may come."""
    orders = set(itertools.permutations("aaabbb"))
    histories = [tuple(zip(order, [order[:k].count(name) for k, name in enumerate(order)])) for order in orders]
    if not race:
        histories = [history for history in histories if history[:2] == (("a", 0), ("b", 0))]
    return sorted({beside_report(history) for history in histories})


def beside_report(history):
    text, posts, waiting, mailed = "%% moosdb play 1\n%% client 0 a\n%% client 1 b\n", [], {}, {"a": set(), "b": set()}
    for number, (client, line) in enumerate(history):
        stamp, operation, *value = BESIDE[client][line].split(" ")
        text += f"%% entry {number} {stamp} {client} {operation}"
        if operation == "register":
            text += "\n%% reg X * 0\n"
            waiting[client] = posts[-1:]
        elif operation == "post":
            post = f"{stamp} X {client} {value[0][2:]}"
            text += f" {len(posts)} 1\n{post}\n"
            posts.append((len(posts), post))
            for heard in waiting.values():
                heard.append(posts[-1])
        else:
            text += "\n" + "".join(f"%% mail {place} {post}\n" for place, post in waiting[client])
            waiting[client] = []
    return f"{text}%% end {len(history)} {len(posts)}\n".encode()


class Input:
    """Words of the program, the folder that it is run in, and all that it may write."""

    def __init__(self, words, folder, outputs):
        self.words, self.folder, self.outputs = words, os.path.join(TOP, folder), outputs
        self.writes_as_it_goes = words[0] in ("play", "simulate")

    def may_begin(self, out):
        return any(output.startswith(out) for output in self.outputs) if self.writes_as_it_goes else out == b""


def run(program, given, settings, board):
    here = {**os.environ, **{key: str(value) for key, value in settings.items()}}
    ended = subprocess.run([program, *given.words], capture_output=True, timeout=SECONDS, env=here, cwd=given.folder, check=False)
    with open(board, "rb") as file:
        return ended, struct.unpack("4Q", file.read(32))


class Trials:
    def __init__(self, program, scratch):
        self.program, self.scratch, self.bad = os.path.abspath(program), scratch, 0
        self.library = os.path.join(scratch, "hostile.so")
        source = os.path.join(TOP, "bench", "hostile.c")
        subprocess.run(["cc", "-O2", "-shared", "-fPIC", "-o", self.library, source, "-ldl"], check=True)

    def known(self, words, folder):
        """What the program writes if nothing is refused."""
        return subprocess.run([self.program, *words], capture_output=True, cwd=os.path.join(TOP, folder), check=True).stdout

    def tried(self, given, settings):
        """How one run ended: the word for it, and whether anything was refused."""
        board = tempfile.mktemp(dir=self.scratch)
        try:
            ended, counts = run(self.program, given, {**settings, "LD_PRELOAD": self.library, "HOSTILE_BOARD": board}, board)
        except subprocess.TimeoutExpired:
            return "hung", True
        finally:
            if os.path.exists(board):
                os.remove(board)
        if ended.returncode == 0 and ended.stderr == b"" and ended.stdout in given.outputs:
            return "done", counts[1] > 0
        if ended.returncode == 6 and ended.stderr == b"moos: no memory\n" and given.may_begin(ended.stdout):
            return "front" if ended.stdout else "nothing", counts[1] > 0
        return "bad", True

    def every(self, name, given, key, jobs, more=None):
        """All N from 1 on, until a run meets no refusal."""
        counts, first, met = {}, 1, True
        with ThreadPoolExecutor(jobs) as pool:
            while met:
                batch = range(first, first + 16 * jobs)
                for how, refused in pool.map(lambda nth: self.tried(given, {key: nth, **(more or {})}), batch):
                    counts[how] = counts.get(how, 0) + 1
                    met = met and refused
                first = batch.stop
        wrong = counts.get("bad", 0) + counts.get("hung", 0)
        self.bad += wrong
        told = ", ".join(f"{how} {count}" for how, count in sorted(counts.items()))
        print(f"{name}, {key}: {sum(counts.values())} runs: {told}; bad {wrong}", flush=True)


def inputs_of(trials, alpha):
    words = {
        "first": (["play", "examples/first/script.txt"], ""),
        "modes": (["play", "script.txt", "mission.moos"], "examples/modes"),
        "station, 16 workers": (["play", "script.txt", "mission.moos", "--workers", "16"], "bench/station"),
        "share": (["share", "alpha-script.txt", "bravo-script.txt", "alpha-bridge.txt"], "examples/share"),
        "solve": (["solve", "examples/problems/course-speed.txt"], ""),
        "solve, 16 workers": (["solve", "examples/problems/course-speed.txt", "--workers", "16"], ""),
    }
    if alpha:
        words["alpha"] = (["play", "script.txt", "mission.moos"], "examples/alpha")
        words["alpha, 16 workers"] = (["play", "script.txt", "mission.moos", "--workers", "16"], "examples/alpha")
        words["avoid"] = (["simulate", "script.txt", "mission.moos", "vehicle.txt", "contacts.txt"], "examples/avoid")
    found = {name: Input(line, folder, [trials.known(line, folder)]) for name, (line, folder) in words.items()}
    beside = ["play", "examples/beside/script.txt"]
    found["beside"] = Input(beside, "", beside_reports(False))
    found["beside, in a race"] = Input([*beside, "--race"], "", beside_reports(True))
    return found


def main():
    parser = argparse.ArgumentParser(description=__doc__, formatter_class=argparse.RawDescriptionHelpFormatter)
    parser.add_argument("program")
    parser.add_argument("--alpha", action="store_true", help="the survey and a simulated vehicle too")
    parser.add_argument("--jobs", type=int, default=os.cpu_count() or 1, help="runs beside each other")
    given = parser.parse_args()
    with tempfile.TemporaryDirectory() as scratch:
        trials = Trials(given.program, scratch)
        for name, it in inputs_of(trials, given.alpha).items():
            trials.every(name, it, "HOSTILE_NTH", given.jobs)
            trials.every(name, it, "HOSTILE_FROM", given.jobs)
            if "16" in name or "beside" in name:
                trials.every(f"{name}, threads held", it, "HOSTILE_NTH", given.jobs, {"HOSTILE_HOLD": 20})
    sys.exit(trials.bad > 0)


main()
