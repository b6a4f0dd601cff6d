"""`moos look why BHV STAMP`: why a behaviour was idle, running, active or completed in an iteration of the helm."""
from moos_ivp import conditions
from moos_ivp.words import printed

from .columns import aligned
from .decisions import Decision
from .numbers import thousandths
from .report import HELM, Entry, Iteration, Trouble, text_of

OVERRIDES = ("MOOS_MANUAL_OVERRIDE", "MOOS_MANUAL_OVERIDE")
NO_FUNCTION = {
    "BHV_Timer": "a BHV_Timer gives no function: it only runs until its duration is over",
    "BHV_OpRegion": "a BHV_OpRegion gives no function: it only watches for faults",
    "BHV_AvoidCollision": "one of contact_x, contact_y, contact_speed and contact_heading isn't given, or its weight is 0",
}


class Moment:
    """What the helm knew and did in its last iteration up to a stamp, and since when each behaviour was what it is."""

    def __init__(self, report, stamp):
        self.letters, self.values, self.override = {}, {}, None
        self.iteration, self.since, self.made_of = None, {}, {}
        letters, states = [], {}
        for record in report:
            if isinstance(record, Entry) and record.client == HELM:
                letters += record.letters
            elif isinstance(record, Iteration):
                if thousandths(record.stamp) > stamp:
                    break
                self.learn(letters)
                self.hear(record, states)
                letters, states = [], record.states
        if not self.iteration:
            raise Trouble("no helm iterates in this report")

    def learn(self, letters):
        for letter in letters:
            text = text_of(letter.value)
            self.letters[letter.variable] = letter
            self.values[letter.variable] = thousandths(letter.value) if text is None else text
            self.override = letter if letter.variable in OVERRIDES else self.override

    def hear(self, iteration, before):
        self.iteration = iteration
        self.made_of.update((update[2], update[0]) for update in iteration.updates if len(update) > 2)
        for name, state in iteration.states.items():
            if before.get(name) != state:
                self.since[name] = iteration.stamp

    @property
    def mode(self):
        """The path of the mode: empty if there is no mode, and None if none are declared."""
        return "" if self.iteration.mode == "-" else self.iteration.mode

    def holds(self, condition):
        return conditions.holds(condition, self.values, (self.mode or "").split(":"))

    def said(self, variable):
        """What the helm knows of a variable, in words."""
        if variable == "MODE":
            return "no modes are declared" if self.mode is None else f"MODE is {self.mode or 'empty'}"
        letter = self.letters.get(variable)
        if not letter:
            return f"{variable} was never mailed"
        return f"{variable} is {letter.value}, posted at {letter.stamp} by {letter.source}"


class Answer:
    """The answer of one behaviour: lines of words."""

    def __init__(self, moment, name, file):
        self.moment, self.name, self.file = moment, name, file
        self.iteration = moment.iteration
        self.block = file and (file.named(name) or file.named(moment.made_of.get(name)))

    def lines(self):
        state = self.iteration.states.get(self.name)
        if state is None:
            yield from self.of_none()
            return
        drive = {"DRIVE": "the helm drives", "PARK": "the helm is parked"}[self.iteration.drive]
        mode = f" in mode {self.moment.mode}" if self.moment.mode else ""
        yield f"At {self.iteration.stamp} {self.name} is {state}, since {self.moment.since[self.name]}; {drive}{mode}."
        yield from getattr(self, f"of_{state}")()

    def of_none(self):
        """A name that isn't in the list: a template's, or nobody's."""
        made = [name for name, template in self.moment.made_of.items() if template == self.name]
        if made or self.block and self.block.is_template() and self.block.name() == self.name:
            stamp = self.iteration.stamp
            yield f"{self.name} is a template: it never runs itself. Made of it up to {stamp}: {', '.join(made) or 'nothing'}."
        elif self.name in self.moment.since:
            template = self.moment.made_of.get(self.name)
            yield f"At {self.iteration.stamp} {self.name} is gone: it was made of {template} and has completed."
        elif self.block:
            yield f"At {self.iteration.stamp} no behaviour of the report is named {self.name}, though the behaviour file has it."
        else:
            there = ", ".join(self.iteration.states) or "none"
            raise Trouble(f"at {self.iteration.stamp} there is no behaviour {self.name}; there are: {there}")

    def of_idle(self):
        if self.iteration.drive == "PARK":
            letter = self.moment.override
            override = self.moment.said(letter.variable if letter else OVERRIDES[0])
            yield f'  It is parked until an override is mailed as "false": {override}.'
        if not self.file:
            yield "  Its conditions are in the behaviour file: name that with --behaviors."
        elif not self.block:
            yield f"  The behaviour file has no behaviour {self.name}."
        else:
            yield from self.judged(self.block, "  ")

    def judged(self, block, margin):
        """Each condition of a behaviour or a mode, whether it holds, and what is known of its variables."""
        rows, wanted = [], []
        for text, condition in self.file.conditions(block):
            comparisons = conditions.comparisons_of(condition)
            variables = dict.fromkeys(comparison.name for comparison in comparisons)
            rows.append(("holds" if self.moment.holds(condition) else "FAILS", text, "; ".join(map(self.moment.said, variables))))
            wanted += [part.literal for part in comparisons if part.name == "MODE" and not self.moment.holds(part)]
        yield from (margin + line for line in aligned(rows or [("It has no conditions.",)], "lll"))
        for mode in dict.fromkeys(wanted):
            yield from self.mode_conditions(str(mode), margin)

    def mode_conditions(self, wanted, margin):
        """Why the mode that a condition names isn't the helm's: the conditions of its declaration, or of those whose OTHER name it is."""
        last = wanted.rpartition(":")[2].lower()
        named = [(f"The mode {mode.name} needs:", mode) for mode in self.file.modes if mode.name.lower() == last]
        others = [mode for mode in self.file.modes if (mode.other or "").lower() == last]
        named += [(f"The mode {mode.other} needs that one of these of {mode.name} fails:", mode) for mode in others]
        for said, mode in named or [(f"No mode is named {wanted}.", None)]:
            yield margin + said
            if mode:
                yield from self.judged(mode, margin + "  ")

    def of_completed(self):
        if self.moment.since[self.name] == self.iteration.stamp:
            yield "  It completed in this iteration: its step was done, or its duration was over."
        elif self.block and self.block.value("perpetual") == "true":
            yield "  It is perpetual, so it runs again as soon as its conditions hold."
        else:
            yield "  It completed for good: only a perpetual behaviour runs again."
        if self.block and self.block.value("duration"):
            yield f"  Its duration in the behaviour file: {self.block.value('duration')}."

    def of_running(self):
        for name, cause in self.iteration.errors:
            yield f"  No behaviour is active in this iteration, since {name} raised {cause}."
        if not self.iteration.errors:
            kind = self.block.kind if self.block else None
            reason = NO_FUNCTION.get(kind, "its step gave no function, or its weight is 0")
            yield f"  It runs and takes no part in the decision: {reason}."

    def of_active(self):
        decision = Decision(self.iteration)
        function = decision.function(self.name)
        best, most = function.best()
        yield f"  It takes part in the decision, with the weight {printed(function.weight)}."
        yield from ("  " + line for line in aligned([
            ("decided", decision.place_words(decision.point), f"worth {printed(function.worth(decision.point))} to it"),
            ("its own best", decision.place_words(best, function.varies), f"worth {printed(most)} to it"),
        ], "lll"))


def run(report, name, stamp, file):
    """The lines of the answer for a behaviour by its name, at a stamp in thousandths, with a behaviour file or None."""
    return Answer(Moment(report, stamp), name, file).lines()
