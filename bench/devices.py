#!/usr/bin/env python3
"""Runs a built program over a system that fails it, and says how each run ended.

    bench/devices.py PROGRAM      PROGRAM is crates/moos_top/out/moos_top, or another that takes the same words

A line for each run: whether it ended as docs/FORMATS.md says, its exit status, how many bytes were written, and what was done to it.
The exit status is 1 where a run ended otherwise. Each run has a minute. Where this is run by root the program is run by a user
without rights, since root is refused nothing. Nothing here is part of the gate: what the system does with files and standard
output is no matter of contracts.
"""
import os
import resource
import shutil
import signal
import subprocess
import sys
import tempfile
import threading

TOP = os.path.dirname(os.path.dirname(os.path.abspath(__file__)))
NOBODY = 65534
MOST_BYTES = 16_777_216
MOST_MEMORY = 2 << 30
SAID = {0: "", 2: "moos: usage\n", 3: "moos: load fault\n", 4: "moos: write fault\n", 6: "moos: no memory\n"}

FIRST = "0 pA register X\n1 pA post X=5\n2 pA fetch\n3 pA fetch\n"
LONG = "".join(f"{k * 0.01:.2f} pA post X={k}\n" for k in range(20_000))
TWO = "0 a post X=1\n0 b post Y=2\n"
TWO_HEAD = "%% moosdb play 1\n%% client 0 a\n%% client 1 b\n"
TWO_ENDS = (
    "%% entry 0 0 a post 0 1\n0 X a 1\n%% entry 1 0 b post 1 1\n0 Y b 2\n%% end 2 2\n",
    "%% entry 0 0 b post 0 1\n0 Y b 2\n%% entry 1 0 a post 1 1\n0 X a 1\n%% end 2 2\n",
)
EMPTY = b"%% moosdb play 1\n%% end 0 0\n"


class Run:
    """How a run ended: its status, or the signal with a minus; what was written; and what it said."""

    def __init__(self, status, out, said):
        self.status, self.out, self.said = status, out, said


class Trials:
    def __init__(self, program, scratch):
        self.program, self.scratch, self.bad = program, scratch, 0

    def path(self, name, text=None):
        path = os.path.join(self.scratch, name)
        if text is not None:
            with open(path, "w") as file:
                file.write(text)
        return path

    def start(self, words, out, error=subprocess.PIPE, before=None):
        def begin():
            # A program that reads on without a limit is to end itself, and not the machine.
            resource.setrlimit(resource.RLIMIT_AS, (MOST_MEMORY, MOST_MEMORY))
            if before:
                before()

        user = {"user": NOBODY, "group": NOBODY, "extra_groups": []} if os.geteuid() == 0 else {}
        return subprocess.Popen([self.program, *words], stdin=subprocess.DEVNULL, stdout=out, stderr=error, preexec_fn=begin, cwd=self.scratch, **user)

    def run(self, words, out=subprocess.PIPE, error=subprocess.PIPE, before=None):
        run = self.start(words, out, error, before)
        try:
            written, said = run.communicate(timeout=60)
        except subprocess.TimeoutExpired:
            run.kill()
            run.communicate()
            return Run("no end", b"", "")
        return Run(run.returncode, written or b"", (said or b"").decode(errors="replace"))

    def tell(self, what, run, status, fits=True, says=True):
        """The run is to end with one of these statuses, with what is said with it; and whatever else was asked of it."""
        statuses = status if isinstance(status, tuple) else (status,)
        good = run.status in statuses and fits and (not says or run.said == SAID.get(run.status, run.said))
        self.bad += not good
        print(f"{'good' if good else 'BAD '} {run.status!s:>6} {len(run.out):>9} bytes  {what}{'' if good else ' | ' + repr(run.said)}")

    # Writes

    def writes(self):
        first, long = self.path("first.txt", FIRST), self.path("long.txt", LONG)
        whole = self.run(["play", long])
        self.tell("a script of 20,000 posts", whole, 0, len(whole.out) > 500_000)
        with open("/dev/full", "wb") as full:
            self.tell("a full disk", self.run(["play", first], out=full), 4)
            self.tell("a full disk, standard error full too", self.run(["play", first], out=full, error=full), 4, says=False)
        with open(first, "rb") as read:
            self.tell("standard output that was opened for reading", self.run(["play", first], out=read), 4)
        self.tell("standard output closed", self.run(["play", first], before=lambda: os.close(1)), 4)
        self.tell("standard error closed", self.run(["play", first], before=lambda: os.close(2)), 0, says=False)
        for count in (0, 1, 100, 70_000, 300_000):
            for ignored in (False, True):
                self.pipe(long, whole.out, count, ignored)
        for limit in (0, 1, 4_096, 100_000):
            self.limited(long, whole.out, limit)

    def pipe(self, script, whole, count, ignored):
        """The reader takes so many bytes and goes away."""
        read, write = os.pipe()
        action = signal.SIG_IGN if ignored else signal.SIG_DFL
        run = self.start(["play", script], write, before=lambda: (os.close(read), signal.signal(signal.SIGPIPE, action)))
        os.close(write)
        timer = threading.Timer(60, run.kill)
        timer.start()
        with os.fdopen(read, "rb") as reader:
            taken = reader.read(count)
        _, said = run.communicate()
        timer.cancel()
        ended = Run(run.returncode, taken, said.decode())
        self.tell(f"a pipe whose reader goes after {count} bytes, its signal {'ignored' if ignored else 'at its default'}", ended, 4, whole.startswith(taken))

    def limited(self, script, whole, limit):
        """No file may be longer than this."""
        for ignored, status in ((True, 4), (False, -signal.SIGXFSZ)):
            def before():
                signal.signal(signal.SIGXFSZ, signal.SIG_IGN if ignored else signal.SIG_DFL)
                resource.setrlimit(resource.RLIMIT_CORE, (0, 0))
                resource.setrlimit(resource.RLIMIT_FSIZE, (limit, limit))

            path = self.path("limited")
            with open(path, "wb") as file:
                run = self.run(["play", script], out=file, before=before)
            with open(path, "rb") as file:
                run.out = file.read()
            fits = len(run.out) == limit and whole.startswith(run.out)
            self.tell(f"files of {limit} bytes at most, the signal {'ignored' if ignored else 'at its default: the system ends the program'}", run, status, fits)

    # Reads

    def reads(self):
        closed = self.path("closed")
        os.mkdir(closed)
        self.path("closed/s.txt", FIRST)
        os.chmod(closed, 0)
        self.loads("a folder without leave", "closed/s.txt")
        os.chmod(closed, 0o700)
        hidden = self.path("hidden.txt", FIRST)
        os.chmod(hidden, 0)
        self.loads("a file without leave", hidden)
        self.loads("a folder in place of a file", self.scratch)
        self.loads("a name under a file", os.path.join(hidden, "s.txt"))
        self.loads("a file that links to itself", self.link("round"))
        self.loads("a name longer than the system takes", "x" * 4_096)
        self.loads("a file without an end", "/dev/zero")
        self.tell("an empty device", self.run(["play", "/dev/null"]), 0)
        mission = self.path("m.moos", "ProcessConfig = pHelmIvP\n{\nbehaviors = absent.bhv\ndomain = course:0:359:360\n}\n")
        self.tell("a behaviour file that isn't there", self.run(["play", self.path("first.txt", FIRST), mission]), 3)
        self.lengths()
        self.growing()
        self.fifos()

    def loads(self, what, name):
        for job in ("play", "solve", "check"):
            run = self.run([job, name])
            self.tell(f"{what}: {job}", run, 3, run.out == b"")

    def link(self, name):
        path = self.path(name)
        os.symlink(path, path)
        return path

    def lengths(self):
        """A file of the greatest length that is loaded, and one that is a byte longer."""
        path = self.path("great.txt", "0 a fetch\n" + "\n" * (MOST_BYTES - 10))
        self.tell("a script of the most bytes", self.run(["play", path]), 0)
        with open(path, "a") as file:
            file.write("\n")
        self.tell("a script of one byte more", self.run(["play", path]), 3)

    def growing(self):
        """A file to which lines are added while it is read: what was read is played, or refused behind its last whole line."""
        path, over = self.path("growing.txt", "0 a fetch\n"), threading.Event()

        def grow():
            with open(path, "a") as file:
                while not over.is_set() and file.tell() < 4 * MOST_BYTES:
                    file.write("0 a fetch\n" * 100)
                    file.flush()

        writer = threading.Thread(target=grow)
        writer.start()
        try:
            runs = [self.run(["play", path]) for _ in range(5)]
        finally:
            over.set()
            writer.join()
        for run in runs:
            played = run.status != 0 or run.out == self.fetches(run.out.count(b"%% entry "))
            refused = run.status != 5 or (run.out == b"" and run.said.startswith("moos: script line "))
            self.tell("a file that grows while it is read", run, (0, 3, 5), played and refused)

    @staticmethod
    def fetches(count):
        lines = "".join(f"%% entry {k} 0 a fetch\n" for k in range(count))
        return f"%% moosdb play 1\n%% client 0 a\n{lines}%% end {count} 0\n".encode()

    def fifos(self):
        """A pipe with a name: its bytes come in pieces, or none come, or they don't end within the limit."""
        whole = self.run(["play", self.path("long.txt", LONG)])
        for what, text, status, out in (
            ("that is written piece by piece", LONG, 0, whole.out),
            ("into which nothing is written", "", 0, EMPTY),
            ("with more than the most bytes", "\n" * (MOST_BYTES + 1), 3, b""),
        ):
            path = self.path("fifo")
            os.mkfifo(path)
            os.chmod(path, 0o644)
            writer = threading.Thread(target=self.feed, args=(path, text.encode()))
            writer.start()
            run = self.run(["play", path])
            # A run that didn't open the pipe leaves its writer waiting.
            os.close(os.open(path, os.O_RDONLY | os.O_NONBLOCK))
            writer.join()
            os.remove(path)
            self.tell(f"a pipe with a name {what}", run, status, run.out == out)

    @staticmethod
    def feed(path, data):
        try:
            with open(path, "wb", buffering=0) as file:
                for at in range(0, len(data), 10_000):
                    file.write(data[at : at + 10_000])
        except BrokenPipeError:
            pass

    # Threads

    def threads(self):
        """No thread may be started: the calls are made one after another."""
        def before():
            resource.setrlimit(resource.RLIMIT_NPROC, (0, 0))

        problem = self.path("problem.txt")
        shutil.copy(os.path.join(TOP, "examples/problems/course-speed.txt"), problem)
        whole = self.run(["solve", problem])
        self.tell("a problem", whole, 0, len(whole.out) > 0)
        run = self.run(["solve", problem, "--workers", "16"], before=before)
        self.tell("no leave to start a thread: 16 workers", run, 0, run.out == whole.out)
        for words in (["play", self.path("two.txt", TWO)], ["play", self.path("two.txt"), "--race"]):
            run = self.run(words, before=before)
            self.tell(f"no leave to start a thread: two clients{' in a race' if len(words) > 2 else ''}", run, 0, run.out in [(TWO_HEAD + end).encode() for end in TWO_ENDS])


def main(words):
    if len(words) != 1:
        sys.exit(__doc__)
    with tempfile.TemporaryDirectory() as scratch:
        # So that a user without rights may run the program and read the files.
        os.chmod(scratch, 0o755)
        program = os.path.join(scratch, "program")
        shutil.copy(words[0], program)
        os.chmod(program, 0o755)
        trials = Trials(program, scratch)
        trials.writes()
        trials.reads()
        trials.threads()
    print(f"{trials.bad} bad")
    sys.exit(trials.bad > 0)


main(sys.argv[1:])
