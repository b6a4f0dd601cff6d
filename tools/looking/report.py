"""Reads reports, as docs/FORMATS.md says what their lines are: one line after the other, and only one entry or iteration is kept.

A report is several records: an Opening, then Entries and Iterations, and last an Ending. `share` writes two reports, one behind the
other; each begins with its Opening."""
import re
from typing import NamedTuple

from .problem_lines import ProblemLines

HELM = "pHelmIvP"
FIRST = "%% moosdb play 1"
NUMBER = re.compile(r"\d+(?:\.\d+)?$")
SAID = r'(\d+(?:\.\d+)?) (\S+) (\S+) (-?\d+(?:\.\d+)?|"(?:[^"\\]|\\["\\])*")\n'
POST, LETTER = re.compile(SAID), re.compile(r"%% mail \d+ " + SAID)
STATES = ("idle", "running", "active", "completed")
PROBLEM = {"domain", "function", "piece", "end", "decision", "cut", "done"}


class Trouble(Exception):
    """Why a question has no answer, in words for whoever asked it."""


class BadReport(Trouble):
    """A line that no report has: its number, and what is wrong with it."""

    def __init__(self, name, line, why):
        super().__init__(f"{name}, line {line}: {why}")


class Post(NamedTuple):
    """A post or a letter. All is text, as the report prints it: a value that is a text has its quotes."""

    stamp: str
    variable: str
    source: str
    value: str


class Opening(NamedTuple):
    """How a report begins: its clients, and the lines and names of parameters that no behaviour uses."""

    clients: list
    unused: list


class Entry:
    """What a client did: its call, with the posts, the letters or the registrations of it."""

    __slots__ = ("stamp", "client", "call", "posts", "letters", "registrations")

    def __init__(self, stamp, client, call):
        self.stamp, self.client, self.call = stamp, client, call
        self.posts, self.letters, self.registrations = [], [], []


class Iteration:
    """What became of the helm's behaviours in one iteration."""

    def __init__(self, number, stamp, drive):
        self.number, self.stamp, self.drive, self.mode = number, stamp, drive, None
        self.updates, self.states, self.errors = [], {}, []
        self.decision, self.problem = None, []


class Ending(NamedTuple):
    """How a report ends: its entries and posts. Both are None if it breaks off, since the run isn't finished or has failed."""

    entries: str
    posts: str


def text_of(value):
    """The text that a value is, without its quotes; None of a number."""
    return re.sub(r'\\(["\\])', r"\1", value[1:-1]) if value.startswith('"') else None


def number_of(value):
    """The number that a value is; None of a text."""
    return None if value.startswith('"') else float(value)


class Report:
    """The records of the reports in these lines. With `problems` each iteration keeps the lines of the problem it decided."""

    def __init__(self, lines, name="report", problems=False):
        self.lines, self.name, self.problems = lines, name, problems
        self.number = 0
        self.breaks_off = False
        self.begin()

    def begin(self):
        self.opening = self.record = None
        self.entries = self.posted = self.due = self.iterations = 0
        self.problem_lines = None

    def __iter__(self):
        """Most lines of a report are pieces and cuts of decisions, so they are looked at first, and then letters and posts."""
        line = "\n"
        for self.number, line in enumerate(self.lines, 1):
            if line[-1] != "\n":
                break
            head = line[:6]
            if self.problem_lines:
                if self.problems or head not in ("%% pie", "%% cut"):
                    self.read_problem(line)
            elif head == "%% mai":
                self.read_letter(line)
            elif head[:2] != "%%":
                self.read_post(line)
            else:
                yield from self.read_mark(line[:-1])
        if self.opening or not self.number or not line.endswith("\n"):
            yield from self.break_off()

    def break_off(self):
        """The records that are left if the lines end before the report does."""
        self.breaks_off = True
        if not self.number:
            raise BadReport(self.name, 1, f"there is no line; a report begins with '{FIRST}'")
        return [self.record, Ending(None, None)] if isinstance(self.record, Opening) else [Ending(None, None)]

    def wrong(self, why):
        raise BadReport(self.name, self.number, why)

    def read_post(self, line):
        said = POST.match(line)
        if not self.opening:
            self.wrong(f"a report begins with '{FIRST}'")
        if not said:
            self.wrong("this is neither a post, STAMP VAR SOURCE VALUE, nor a line that begins with '%% '")
        if not self.due:
            self.wrong("a post stands here, and no entry counts it")
        post = Post._make(said.groups())
        if post.source != self.record.client:
            self.wrong(f"the entry is {self.record.client}'s, and this post {post.source}'s")
        self.record.posts.append(post)
        self.due -= 1
        self.posted += 1

    def read_letter(self, line):
        said = LETTER.match(line)
        if not said or not isinstance(self.record, Entry) or self.record.call != "fetch":
            self.wrong("a letter, '%% mail J STAMP VAR SOURCE VALUE', stands behind an entry that fetches")
        self.record.letters.append(Post._make(said.groups()))

    def read_mark(self, line):
        """A line that begins with '%%': the records that end before it, or with it."""
        if self.opening is None:
            if line != FIRST:
                self.wrong(f"a report begins with '{FIRST}'")
            self.opening = self.record = Opening([], [])
            return ()
        words = line.split(" ")
        kind = words[1] if len(words) > 1 else ""
        if kind == "entry" or kind == "end" and len(words) > 2:
            return self.next_record(kind, words)
        if kind == "iteration":
            return self.read_iteration(words)
        self.read_part(kind, words, line)
        return ()

    def next_record(self, kind, words):
        """The record that ends before this line, and if all ends here the Ending."""
        if self.due:
            self.wrong(f"{self.due} more posts of the entry should stand before this line")
        before = self.record
        if kind == "entry":
            self.record = self.read_entry(words)
            return (before,)
        if words[2:] != [str(self.entries), str(self.posted)]:
            self.wrong(f"there are {self.entries} entries and {self.posted} posts")
        self.begin()
        return before, Ending(*words[2:])

    def read_entry(self, words):
        if len(words) < 6 or words[2] != str(self.entries) or not NUMBER.match(words[3]):
            self.wrong(f"this should be '%% entry {self.entries} STAMP NAME CALL'")
        entry = Entry(words[3], words[4], words[5])
        if entry.client not in self.opening.clients:
            self.wrong(f"no client is named {entry.client}")
        counts = words[6:]
        if entry.call == "post" and len(counts) == 2 and counts[0] == str(self.posted) and counts[1].isdigit():
            self.due = int(counts[1])
        elif entry.call not in ("register", "unregister", "fetch") or counts:
            self.wrong("a call is 'register', 'unregister', 'fetch', or 'post' with the next post's number and how many there are")
        self.entries += 1
        return entry

    def read_iteration(self, words):
        entry = self.record
        if not isinstance(entry, Entry) or entry.client != HELM or entry.call != "post" or self.due:
            self.wrong("an iteration stands behind the posts of the helm's entry")
        if len(words) != 5 or words[2] != str(self.iterations) or words[4] not in ("DRIVE", "PARK"):
            self.wrong(f"this should be '%% iteration {self.iterations} STAMP', then DRIVE or PARK")
        self.record = Iteration(words[2], words[3], words[4])
        self.iterations += 1
        return (entry,)

    def read_part(self, kind, words, line):
        """A line that belongs to the record at hand."""
        if isinstance(self.record, Iteration):
            fits = self.read_outcome(kind, words, line)
        elif isinstance(self.record, Entry):
            fits = kind == "reg" and self.read_registration(words)
        else:
            fits = self.read_name(kind, words)
        if not fits:
            self.wrong(f"no such line stands here in a report: {line[:60]}")

    def read_name(self, kind, words):
        if kind == "client" and len(words) == 4 and words[2] == str(len(self.opening.clients)):
            self.opening.clients.append(words[3])
        elif kind == "unused" and len(words) == 4:
            self.opening.unused.append((words[2], words[3]))
        else:
            return False
        return True

    def read_registration(self, words):
        self.record.registrations.append(tuple(words[2:]))
        return len(words) == {"register": 5, "unregister": 4}.get(self.record.call)

    def read_outcome(self, kind, words, line):
        iteration, count = self.record, len(words)
        if kind == "behavior" and count == 4 and words[3] in STATES:
            iteration.states[words[2]] = words[3]
        elif kind == "mode" and count == 3:
            iteration.mode = words[2]
        elif kind == "update" and count in (4, 5):
            iteration.updates.append(tuple(words[2:]))
        elif kind == "error" and count == 4:
            iteration.errors.append((words[2], words[3]))
        elif line == "%% ivp 1":
            self.problem_lines = ProblemLines()
        else:
            return line == "%% none"
        return True

    def read_problem(self, line):
        """A line of the problem that the iteration decides, or of the decision. What isn't kept is only looked at."""
        words = line.split()
        kind = words[1] if len(words) > 1 and words[0] == "%%" else ""
        if kind not in PROBLEM or (kind in ("end", "done")) != (len(words) == 2):
            self.wrong("the decision of the iteration isn't done")
        if self.problems or kind == "decision":
            self.keep(kind, words[2:], line)
        if kind == "done":
            self.problem_lines = None

    def keep(self, kind, words, line):
        if self.problems and not self.problem_lines.fits(kind, words):
            self.wrong(f"no decision has this line here: {line[:60].rstrip()}")
        if kind == "decision":
            self.record.decision = words
        elif kind in ("domain", "function", "piece"):
            self.record.problem.append(line)
