"""The words of every file: lines and comments, numbers, names, patterns, texts and pairs, as docs/FORMATS.md has them."""
import os
import re
import stat
from typing import NamedTuple, Optional

BLANKS = " \t"
LONGEST_TEXT = 4096
LONGEST_FILE = 2**24
GREATEST_NUMBER = 10**12

NUMBER = re.compile(r"([+-]?)([0-9]*)(?:\.([0-9]*))?\Z")
NAME = re.compile(r"[A-Za-z_][A-Za-z0-9_.-]{0,63}\Z")
CONTROL = re.compile(r"[\x00-\x08\x0a-\x1f\x7f]")
PATTERN = re.compile(r"[A-Za-z0-9_.*?-]{1,64}\Z")


class Unreadable(Exception):
    """A file that can't be read, and why."""


class Line(NamedTuple):
    """A line of a file that isn't blank: its number from 1, what is left of it, and whether a quote stays open."""

    number: int
    text: str
    is_open: bool


class Finding(NamedTuple):
    """What is told of a line: the cause by which a run refuses it, or none if it is accepted and hardly meant."""

    number: int
    cause: Optional[str]
    words: str


def load(name):
    """The text of a file. A byte that is no UTF-8 stays one sign."""
    try:
        if stat.S_ISFIFO(os.stat(name).st_mode):
            raise Unreadable(f"{name}: it is a pipe, which can be read only once")
        with open(name, "rb") as file:
            text = file.read(LONGEST_FILE + 1)
    except (OSError, ValueError) as fault:
        raise Unreadable(f"{name}: {getattr(fault, 'strerror', None) or fault}") from fault
    if len(text) > LONGEST_FILE:
        raise Unreadable(f"{name}: it has more than {LONGEST_FILE:,} bytes")
    return text.decode("utf-8", "surrogateescape")


def is_of_bytes(text, most):
    """Whether a text has at most so many bytes."""
    return len(text.encode("utf-8", "surrogateescape")) <= most


def all_lines(text):
    """Each line of a text without its end, blank or not."""
    lines = text.split("\n")
    if lines[-1] == "":
        lines.pop()
    return [line[:-1] if line.endswith("\r") else line for line in lines]


def without_comment(line):
    """A line without its comment and the blanks around it, and whether a quote stays open."""
    at = -1
    while (at := line.find("//", at + 1)) >= 0:
        if line.count('"', 0, at) % 2 == 0:
            return line[:at].strip(BLANKS), False
    return line.strip(BLANKS), line.count('"') % 2 == 1


def split(text, most=-1):
    """The words of a line, or the first `most` and what is behind them: only spaces and tabs part words."""
    return [word for word in re.split("[ \t]+", text.strip(BLANKS), maxsplit=max(most, 0)) if word]


def lines_of(text):
    """The lines of a text that say something, and the number of the last line of all."""
    found, last = [], 1
    for last, line in enumerate(all_lines(text), 1):
        left, is_open = without_comment(line)
        if left:
            found.append(Line(last, left, is_open))
    return found, last


def number_of(word):
    """A number in thousandths, or None if the word is none."""
    found = NUMBER.match(word)
    if not found or not (found[2] or found[3]):
        return None
    size = int(found[2] or "0") * 1000 + int(((found[3] or "") + "000")[:3])
    if size > GREATEST_NUMBER:
        return None
    return -size if found[1] == "-" else size


def printed(number):
    """A number of thousandths as the program prints it."""
    whole, rest = divmod(abs(number), 1000)
    decimals = f".{rest:03}".rstrip("0") if rest else ""
    return f"{'-' if number < 0 else ''}{whole}{decimals}"


def shown(value):
    """A value as a report shows it: a number, or a text between quotes."""
    return printed(value) if isinstance(value, int) else f'"{value}"'


def is_name(word):
    return bool(NAME.match(word))


def is_pattern(word):
    return bool(PATTERN.match(word))


def matches(pattern, name):
    """Whether a pattern matches the whole of a name."""
    parts = {"*": ".*", "?": "."}
    return bool(re.fullmatch("".join(parts.get(sign, re.escape(sign)) for sign in pattern), name))


def has_control_byte(text):
    return bool(CONTROL.search(text))


class Pair(NamedTuple):
    """A pair of a variable and its value, which is a whole number of thousandths or a text."""

    name: str
    value: object
    is_quoted: bool


def pair_of(text):
    """A pair, and the fault that it has: NoEquals, BadName, BadValue or TooLong. One of the two is None."""
    left, equals, right = text.partition("=")
    if not equals:
        return None, "NoEquals"
    is_text = left.endswith(":")
    name, value = (left[:-1] if is_text else left).strip(BLANKS), right.strip(BLANKS)
    if not is_name(name):
        return None, "BadName"
    is_quoted = value.startswith('"')
    if is_quoted:
        if len(value) < 2 or value[-1] != '"' or '"' in value[1:-1]:
            return None, "BadValue"
        value = value[1:-1]
    elif not value:
        return None, "BadValue"
    number = None if is_quoted or is_text else number_of(value)
    if number is not None:
        return Pair(name, number, False), None
    if has_control_byte(value):
        return None, "BadValue"
    if not is_of_bytes(value, LONGEST_TEXT):
        return None, "TooLong"
    return Pair(name, value, is_quoted), None


def parts_of(text):
    """A text cut at each # outside quotes."""
    parts = [""]
    for place, run in enumerate(text.split('"')):
        first, *more = run.split("#") if place % 2 == 0 else [run]
        parts[-1] += ('"' if place else "") + first
        parts += more
    return parts
