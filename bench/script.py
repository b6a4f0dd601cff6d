#!/usr/bin/env python3
"""Writes scripts at their limits of lines and bytes, and prints seconds and peak memory of reading each.

    bench/script.py [FOLDER]       keeps the scripts in FOLDER where one is given

Each script has 100,000 lines and nearly 16 MiB, and one line too many behind them, so that it is read whole, refused, and
not played. `texts` posts one long text a line, `pairs` many short numbers a line, and `mixed` has 64 clients with 256
registrations each and posts of 4,096 variables. Nothing here is part of the gate, and no figure is promised.
"""
import os
import subprocess
import sys
import tempfile

TOP = os.path.dirname(os.path.dirname(os.path.abspath(__file__)))
LINES = 100_000
BYTES = 16 * 1024 * 1024 - 64


def filled(front, count, piece):
    """`front` and then so many lines of the same length, which `piece` fills up to a size, and all of them up to BYTES."""
    size = (BYTES - sum(len(line) + 1 for line in front)) // count - 1
    return front + [piece(k, size) for k in range(count)]


def text_post(k, size, stamp, variable):
    head = f'{stamp} c{k % 64} post {variable}="'
    return head + "x" * (size - len(head) - 1) + '"'


def texts():
    return filled([], LINES, lambda k, size: text_post(k, size, f"{k * 0.001:.3f}", "REPORT"))


def pairs():
    def line(k, size):
        head = f"{k * 0.001:.3f} c{k % 64} post X=1"
        return head + "#Y=2" * min(63, (size - len(head)) // 4)

    return filled([], LINES, line)


def mixed():
    front = [f"0 c{client} register V{k}* 0.5 c*" for client in range(64) for k in range(256)]
    return filled(front, LINES - len(front), lambda k, size: text_post(k, size, "1", f"V{k % 4096}"))


def measure(script):
    """Reads a script once: the exit status, seconds of processor time, and peak memory in MB."""
    child = subprocess.Popen([os.path.join(TOP, "moos"), "play", script], stdout=subprocess.DEVNULL, stderr=subprocess.DEVNULL)
    _, status, usage = os.wait4(child.pid, 0)
    return os.waitstatus_to_exitcode(status), usage.ru_utime + usage.ru_stime, usage.ru_maxrss / 1024


def main():
    # Builds the program where it is stale, so that no run pays for that.
    subprocess.run([os.path.join(TOP, "moos"), "play"], stderr=subprocess.DEVNULL)
    print(f"{'script':<8} {'lines':>8} {'MB':>6} {'cpu':>7} {'peak MB':>8} {'status':>7}")
    with tempfile.TemporaryDirectory() as scratch:
        folder = sys.argv[1] if len(sys.argv) > 1 else scratch
        for make in (texts, pairs, mixed):
            lines = make()
            name = os.path.join(folder, f"{make.__name__}.txt")
            with open(name, "w") as out:
                out.write("\n".join(lines) + "\n1000000 until\n")
            status, cpu, peak = measure(name)
            print(f"{make.__name__:<8} {len(lines):>8} {os.path.getsize(name) / 1e6:>6.2f} {cpu:>7.3f} {peak:>8.1f} {status:>7}")


if __name__ == "__main__":
    main()
