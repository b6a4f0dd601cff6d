"""What questions need of a behaviour file, which moos_ivp reads: its behaviours, its modes, and the words of their conditions."""
from moos_ivp import behaviors, words
from moos_ivp.places import places_of


class BehaviorFile:
    """A behaviour file. Nothing is judged here: the program refuses a file that is wrong."""

    def __init__(self, text):
        self.read = behaviors.read(text)
        self.texts = {line.number: line.text for line in words.lines_of(text)[0]}

    @property
    def behaviors(self):
        return self.read.behaviors

    @property
    def modes(self):
        return self.read.modes

    def named(self, name):
        return next((behavior for behavior in self.behaviors if behavior.name() == name), None)

    def conditions(self, block):
        """The conditions of a behaviour or a mode, each with its words."""
        lines = ((self.texts[number], condition) for number, condition in block.conditions)
        is_mode = isinstance(block, behaviors.Mode)
        return [(text if is_mode else text.partition("=")[2].strip(words.BLANKS), condition) for text, condition in lines]


def metres(behavior, default, *names):
    """The number that a behaviour gives by any of these names."""
    value = behavior.value(*names)
    return default if value is None else words.number_of(value) / 1000


def spots(behavior, *names):
    """The places that a behaviour gives by any of these names, in metres."""
    value = behavior.value(*names)
    return [(x / 1000, y / 1000) for x, y in places_of(value)] if value else []
