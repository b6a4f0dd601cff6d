"""`moos look timeline`: one line for each thing that happens in a run."""
from .report import HELM, Ending, Entry, Iteration, Opening

CLIENTS_OF_RUN = {HELM, "pMarinePID", "uSimMarine", "pBasicContactMgr", "pShare"}
TOLD_OTHERWISE = {"MODE", "IVPHELM_STATE", "NODE_REPORT", "CONTACT_INFO"}
MOST_CHANGES, LONGEST_TEXT = 20, 100


class Timeline:
    """What was told last, so that only what changes is told."""

    def __init__(self):
        self.stamp, self.communities = "0", 0
        self.begin()

    def begin(self):
        self.values, self.changes = {}, {}
        self.drive, self.mode, self.states, self.repeated = None, None, {}, set()

    def rows(self, record):
        """What this record tells: (stamp, kind, words)."""
        if isinstance(record, Opening):
            self.begin()
            self.communities += 1
            yield "0", "community", f"{self.communities}: {' '.join(record.clients)}"
        elif isinstance(record, Entry):
            self.stamp = record.stamp
            yield from self.entry_rows(record)
        elif isinstance(record, Iteration):
            self.stamp = record.stamp
            for kind, words in self.iteration_rows(record):
                yield record.stamp, kind, words
        elif isinstance(record, Ending) and record.entries:
            yield self.stamp, "end", f"{record.entries} entries, {record.posts} posts"

    def entry_rows(self, entry):
        if entry.client not in CLIENTS_OF_RUN:
            for registration in entry.registrations:
                yield entry.stamp, entry.call, f"{entry.client}: {' '.join(registration)}"
        for post in entry.posts:
            if post.value.startswith('"') and post.variable not in TOLD_OTHERWISE:
                yield from self.text_rows(post)

    def text_rows(self, post):
        """A text is told where it isn't the one before; of a variable that changes often only the first changes are."""
        if self.values.get(post.variable) == post.value and not post.variable.startswith("CONTACT_"):
            return
        self.values[post.variable] = post.value
        count = self.changes[post.variable] = self.changes.get(post.variable, 0) + 1
        if count <= MOST_CHANGES:
            value = post.value if len(post.value) <= LONGEST_TEXT else post.value[:LONGEST_TEXT] + ".."
            yield post.stamp, "post", f"{post.variable} = {value} by {post.source}"
        elif count == MOST_CHANGES + 1:
            yield post.stamp, "post", f"{post.variable} changes again; its further changes aren't told"

    def iteration_rows(self, iteration):
        if iteration.drive != self.drive:
            self.drive = iteration.drive
            yield "helm", {"DRIVE": "drives", "PARK": "is parked"}[iteration.drive]
        if iteration.mode != self.mode:
            self.mode = iteration.mode
            yield "mode", iteration.mode
        repeated = {("update", *update[:2]) for update in iteration.updates} | {("error", *error) for error in iteration.errors}
        for update in iteration.updates:
            if len(update) > 2 or ("update", *update[:2]) not in self.repeated:
                yield "update", " ".join(update)
        yield from self.state_rows(iteration.states)
        for error in iteration.errors:
            if ("error", *error) not in self.repeated:
                yield "error", " ".join(error)
        self.repeated = repeated

    def state_rows(self, states):
        for name, state in states.items():
            if self.states.get(name) != state:
                yield "behavior", f"{name} {state}"
        for name in self.states:
            if name not in states:
                yield "behavior", f"{name} is gone"
        self.states = states


def run(report):
    """The lines of a report's timeline."""
    timeline = Timeline()
    for record in report:
        for stamp, kind, words in timeline.rows(record):
            yield f"{stamp:>9}  {kind:<10} {words}"
