#!/usr/bin/env python3
"""Plays scripts of one client and of 64 clients, in rounds and as a race, and prints seconds and peak memory of each.

    bench/clients.py [LINES]       96,000 where none is given

Each script has about so many lines of posts: those of one client, each at a stamp of its own; those of 64 clients in
turn, each at a stamp of its own; and those of 64 clients, all 64 together at each stamp. The report goes to a file.
Nothing here is part of the gate, and no figure is promised.
"""
import os
import subprocess
import sys
import tempfile

TOP = os.path.dirname(os.path.dirname(os.path.abspath(__file__)))
CLIENTS = 64


def line(stamp, client):
    return f"{stamp * 0.001:.3f} c{client} post X={stamp}"


def alone(lines):
    return [line(k, 0) for k in range(lines)]


def in_turn(lines):
    return [line(k, k % CLIENTS) for k in range(lines)]


def together(lines):
    return [line(k // CLIENTS, k % CLIENTS) for k in range(lines)]


def measure(script, report, options):
    """Runs the program once: its exit status, seconds of wall clock and of processor time, and peak memory in MB."""
    with open(report, "wb") as out:
        start = os.times()
        child = subprocess.Popen([os.path.join(TOP, "moos"), "play", script, *options], stdout=out)
        _, status, usage = os.wait4(child.pid, 0)
        end = os.times()
    return os.waitstatus_to_exitcode(status), end.elapsed - start.elapsed, usage.ru_utime + usage.ru_stime, usage.ru_maxrss / 1024


def main():
    lines = int(sys.argv[1]) if len(sys.argv) > 1 else 96_000
    # Builds the program where it is stale, so that no run pays for that.
    subprocess.run([os.path.join(TOP, "moos"), "play"], stderr=subprocess.DEVNULL)
    print(f"{'script':<10} {'order':<7} {'seconds':>8} {'cpu':>7} {'peak MB':>8}")
    with tempfile.TemporaryDirectory() as folder:
        script, report = os.path.join(folder, "script.txt"), os.path.join(folder, "report.txt")
        for make in (alone, in_turn, together):
            with open(script, "w") as out:
                out.write("\n".join(make(lines)) + "\n")
            for order, options in (("rounds", []), ("race", ["--race"])):
                status, seconds, cpu, peak = measure(script, report, options)
                note = "" if status == 0 else f"  exit status {status}"
                print(f"{make.__name__:<10} {order:<7} {seconds:>8.3f} {cpu:>7.3f} {peak:>8.1f}{note}")


if __name__ == "__main__":
    main()
