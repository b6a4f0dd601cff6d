"""Reads a script: what its clients do, and each line that a run would refuse."""
import difflib
from typing import NamedTuple

from . import known, words
from .words import Finding

HELM = "pHelmIvP"
OPERATIONS = ("register", "unregister", "post", "fetch")
LONGEST_TIME = 1_000_000_000


class Post(NamedTuple):
    """A pair that is posted: at which line of which file, by whom, and the pair."""

    number: int
    client: str
    pair: words.Pair


class Script:
    """What was read of a script: posts, registrations (line, client, pattern), and its last stamp in milliseconds."""

    def __init__(self):
        self.posts, self.registered, self.clients, self.findings = [], [], {}, []
        self.stop, self.variables = 0, set()
        self.fetches, self.last = {}, 1


class Refused(Exception):
    """A cause, and what is wrong."""

    def __init__(self, cause, said):
        super().__init__(said)
        self.cause = cause


def time_of(word):
    """A time in milliseconds, or None."""
    found = words.number_of(word)
    return found if found is not None and 0 <= found <= LONGEST_TIME else None


def why_no_stamp(word):
    if word.startswith("\ufeff"):
        return "the file begins with a byte order mark, which can't be seen: save it as UTF-8 without one"
    if word.startswith(("#", "%", ";")):
        return "a comment begins with //"
    return f"a line begins with its time in seconds, a number from 0 to 1,000,000, and not with '{word}'"


def unknown_operation(word):
    near = known.OPERATIONS.get(word.lower()) or next(iter(difflib.get_close_matches(word.lower(), OPERATIONS, 1, 0.6)), None)
    return f"'{word}' is no operation: write register, unregister, post or fetch" + (f" (here {near}?)" if near else "")


class Reading:
    """Reads the lines of one script, one after the other."""

    def __init__(self):
        self.script, self.last, self.register_lines = Script(), 0, {}

    def line(self, line):
        if line.is_open:
            raise Refused("S5 BadValue", "a quote stays open")
        said = words.split(line.text)
        stamp = time_of(said[0])
        if stamp is None:
            raise Refused("S1 BadStamp", why_no_stamp(said[0]))
        before, self.last = self.last, stamp
        if stamp < before:
            raise Refused("S2 StampGoesBack", f"the time {words.printed(stamp)} is below {words.printed(before)}, that of a line above")
        self.script.stop = max(self.script.stop, stamp)
        if said[1:2] == ["until"]:
            return self.no_more(said[2:], "until")
        client = self.client(said[1:2])
        if not said[2:]:
            raise Refused("S3 UnknownOp", "the operation is missing: write register, unregister, post or fetch")
        return self.operation(line, client, said[2], said[3:])

    def client(self, said):
        if not said or not words.is_name(said[0]):
            raise Refused("S4 BadName", "behind the time there is the client's name: letters, digits, _, - and ., the first a letter or _")
        if said[0] == HELM:
            raise Refused("S9 HelmName", "pHelmIvP is the helm itself: give the client another name")
        if said[0] not in self.script.clients and len(self.script.clients) == 64:
            raise Refused("S8 Clients", "it would be the 65th client")
        self.script.clients.setdefault(said[0], None)
        return said[0]

    def operation(self, line, client, operation, rest):
        if operation == "register":
            return self.register(line, client, rest)
        if operation == "unregister":
            self.patterns(rest[:1], rest[1:2])
            return self.no_more(rest[2:], operation)
        if operation == "post":
            return self.post(line, client)
        if operation == "fetch":
            self.no_more(rest, operation)
            self.script.fetches.setdefault(client, line.number)
            return None
        raise Refused("S3 UnknownOp", unknown_operation(operation))

    def no_more(self, rest, operation):
        if rest:
            raise Refused("S3 UnknownOp", f"nothing more may follow behind `{operation}`: take '{' '.join(rest)}' away")

    def patterns(self, variable, source):
        if not variable or not words.is_pattern(variable[0]):
            if variable and "," in variable[0]:
                raise Refused("S6 BadPattern", "write one variable or pattern a line")
            raise Refused("S6 BadPattern", "the variable, or a pattern of *, ? and its letters, is missing or bad")
        if source and not words.is_pattern(source[0]):
            raise Refused("S6 BadPattern", f"'{source[0]}' is no pattern of clients' names")

    def register(self, line, client, rest):
        self.patterns(rest[:1], [])
        if rest[1:2] and time_of(rest[1]) is None:
            wanted = "behind the variable there is an interval in seconds, a number from 0 to 1,000,000"
            raise Refused("S7 BadInterval", f"{wanted}, and not '{rest[1]}'")
        self.patterns(rest[:1], rest[2:3])
        count = self.register_lines[client] = self.register_lines.get(client, 0) + 1
        if count > 256:
            raise Refused("S8 Registrations", "the client has registered on 256 lines above")
        self.script.registered.append((line.number, client, rest[0]))
        self.no_more(rest[3:], "register")

    def post(self, line, client):
        parts = words.parts_of("".join(words.split(line.text, 3)[3:]))
        for count, part in enumerate(parts, 1):
            pair, fault = words.pair_of(part)
            self.judge(part.strip(), fault)
            if count > 64:
                raise Refused("S8 Batch", "it would be the line's 65th pair")
            self.script.variables.add(pair.name)
            if len(self.script.variables) > 4096:
                raise Refused("S8 Variables", "it would be the script's 4,097th variable")
            self.script.posts.append(Post(line.number, client, pair))

    def judge(self, part, fault):
        if fault == "NoEquals":
            said = words.split(part)
            example = f": write {said[0]}={said[1]}" if len(said) == 2 else ": write VARIABLE=value"
            raise Refused("S5 BadValue", ("what is posted is missing" if not part else f"'{part}' has no =") + example)
        if fault == "BadName":
            raise Refused("S4 BadName", f"'{part.partition('=')[0].strip()}' names no variable")
        if fault == "BadValue":
            name = part.partition("=")[0].strip()
            raise Refused("S5 BadValue", f"the value of '{name}' is missing, badly quoted, or holds a control byte")
        if fault == "TooLong":
            raise Refused("S8 Text", "the text has more than 4,096 bytes")


def read(text):
    """What a script says, with all its findings."""
    reading = Reading()
    for count, line in enumerate(words.lines_of(text)[0], 1):
        reading.script.last = line.number
        if count > 100_000:
            reading.script.findings.append(Finding(line.number, "S8 Lines", "it is the 100,001st line that isn't blank"))
            break
        try:
            reading.line(line)
        except Refused as fault:
            reading.script.findings.append(Finding(line.number, fault.cause, str(fault)))
    return reading.script


def client_line(text, names):
    """The first line of a good script whose client is one of these names."""
    for line in words.lines_of(text)[0]:
        said = words.split(line.text)
        if said[1:2] and said[1] in names:
            return line.number, said[1]
    return None
