"""Conditions: how one is read, when it holds, and what it compares."""
import re
from typing import NamedTuple

from . import words

WORD = re.compile(r'[ \t]*(?:([()])|(==|!=|<=|>=|=|<|>)|"([^"]*)"|([^ \t()"=!<>]+))')
OPERATORS = {"=", "==", "!=", "<", "<=", ">", ">="}


class Comparison(NamedTuple):
    """A variable, an operator and a literal, which is a whole number of thousandths or a text."""

    name: str
    operator: str
    literal: object

    def shown(self):
        return f"{self.name} {self.operator} {words.shown(self.literal)}"


class NoCondition(Exception):
    """Why a text is no condition."""


def tokens_of(text):
    """The words of a condition: (kind, word), the kind one of paren, operator, text and run."""
    found, at, text = [], 0, text.rstrip(words.BLANKS)
    while at < len(text):
        word = WORD.match(text, at)
        if not word:
            raise NoCondition(f"nothing begins with '{text[at:].strip(words.BLANKS)[:12]}' in a condition")
        kind = ("paren", "operator", "text", "run")[word.lastindex - 1]
        found.append((kind, word[word.lastindex]))
        at = word.end()
    return found


class Reader:
    """Reads the words of one condition from left to right."""

    def __init__(self, tokens):
        self.tokens, self.at, self.depth = tokens, 0, 0

    def next_is(self, kind, word):
        if self.at == len(self.tokens):
            return False
        mine, said = self.tokens[self.at]
        return mine == kind and said.lower() == word

    def took(self, kind, word):
        if not self.next_is(kind, word):
            return False
        self.at += 1
        return True

    def chain(self, word, part):
        parts = [part()]
        while self.took("run", word):
            parts.append(part())
        return parts[0] if len(parts) == 1 else (word, parts)

    def condition(self):
        return self.chain("or", lambda: self.chain("and", self.factor))

    def factor(self):
        turns = 0
        while self.took("run", "not"):
            turns += 1
        inner = self.inner()
        return ("not", inner) if turns % 2 else inner

    def inner(self):
        if not self.took("paren", "("):
            return self.comparison()
        self.depth += 1
        if self.depth > 64:
            raise NoCondition("its parentheses nest more than 64 deep")
        inner = self.condition()
        if not self.took("paren", ")"):
            raise NoCondition("a parenthesis isn't closed")
        self.depth -= 1
        return inner

    def take(self, kinds, wanted):
        if self.at == len(self.tokens) or self.tokens[self.at][0] not in kinds:
            said = f", and not '{self.tokens[self.at][1]}'" if self.at < len(self.tokens) else ""
            raise NoCondition(f"{wanted} is wanted{said}")
        self.at += 1
        return self.tokens[self.at - 1]

    def comparison(self):
        name = self.take({"run"}, "a variable")[1]
        if not words.is_name(name) or name.lower() in ("or", "and", "not"):
            raise NoCondition(f"'{name}' names no variable")
        operator = self.take({"operator"}, f"an operator behind '{name}'")[1]
        kind, literal = self.take({"text", "run"}, f"a value behind '{name} {operator}'")
        if not words.is_of_bytes(literal, words.LONGEST_TEXT) or words.has_control_byte(literal):
            raise NoCondition("its text is too long or holds a control byte")
        number = words.number_of(literal) if kind == "run" else None
        return Comparison(name, operator, literal if number is None else number)


def condition_of(text):
    """The condition that a text means: a Comparison, ("not", condition), or ("and" or "or", conditions)."""
    reader = Reader(tokens_of(text))
    whole = reader.condition()
    if reader.at < len(reader.tokens):
        rest = reader.tokens[reader.at][1]
        raise NoCondition(f"'{rest}' is too much: write `and` or `or` between comparisons" + instead_of(rest))
    return whole


def instead_of(word):
    return {"&&": " (not &&)", "||": " (not ||)", "&": " (not &)", ",": " (not a comma)"}.get(word, "")


def comparisons_of(condition):
    """The comparisons of a condition, from left to right."""
    if isinstance(condition, Comparison):
        return [condition]
    inner = condition[1] if condition[0] != "not" else [condition[1]]
    return [one for part in inner for one in comparisons_of(part)]


def lowered(text):
    """A text with the letters A to Z in lower case."""
    return re.sub("[A-Z]+", lambda found: found[0].lower(), text)


def is_in_path(path, name):
    """Whether the parts of a name are next to each other in a mode's path."""
    parts = lowered(name).split(":")
    path = [lowered(part) for part in path]
    return all(parts) and any(path[k : k + len(parts)] == parts for k in range(len(path)))


def compare(value, operator, literal):
    """Whether a comparison holds of a value that was mailed."""
    if operator in ("=", "==", "!="):
        same = lowered(value) == lowered(literal) if isinstance(value, str) and isinstance(literal, str) else value == literal
        return same == (operator != "!=")
    if isinstance(value, str) or isinstance(literal, str):
        return False
    return {"<": value < literal, "<=": value <= literal, ">": value > literal, ">=": value >= literal}[operator]


def holds(condition, known, path):
    """Whether a condition holds where `known` has the latest values and `path` is the mode."""
    if not isinstance(condition, Comparison):
        word, inner = condition
        if word == "not":
            return not holds(inner, known, path)
        return (all if word == "and" else any)(holds(part, known, path) for part in inner)
    if condition.name == "MODE":
        if condition.operator not in ("=", "==", "!="):
            return False
        is_in = isinstance(condition.literal, str) and is_in_path(path, condition.literal)
        return is_in == (condition.operator != "!=")
    return condition.name in known and compare(known[condition.name], condition.operator, condition.literal)
