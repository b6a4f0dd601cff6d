"""Texts that are posted for a behaviour or for the contact manager, and why these would refuse them."""
from . import values, words

REPORT = {
    "name": lambda word: words.is_name(word) and len(word) <= 32,
    "x": lambda word: words.number_of(word) is not None and abs(words.number_of(word)) <= 10**9,
    "y": lambda word: words.number_of(word) is not None and abs(words.number_of(word)) <= 10**9,
    "spd": lambda word: words.number_of(word) is not None and 0 <= words.number_of(word) <= 100_000,
    "hdg": lambda word: words.number_of(word) is not None and 0 <= words.number_of(word) <= 360_000,
}


def why_bad_part(kind, part):
    """Why a part of an update is refused, or None."""
    name, equals, value = (word.strip(words.BLANKS) for word in part.partition("="))
    if not equals:
        return f"'{part.strip()}' has no ="
    names, check = values.group_of(kind, name.lower())
    if not check or (names in values.COMMON and names != ("pwt",)):
        return f"{kind} has no parameter '{name}' that an update may change"
    try:
        check(value)
    except values.NoValue as fault:
        may_be = values.may_be(kind, name.lower())
        return f"{name} is {may_be}" + (f"; {fault}" if str(fault) else "")
    return None


def why_bad_update(block, value):
    """Why an update of a behaviour, or a letter to a template, is refused whatever was before it, or None."""
    if not isinstance(value, str):
        return "it is a number"
    parts = value.split("#")
    if block.is_template():
        name, equals, made = (word.strip(words.BLANKS) for word in parts.pop(0).partition("="))
        if name.lower() != "name" or not equals or not words.is_name(made):
            return "a letter to a template begins with name=N"
        if made == block.value("name"):
            return "the template itself has this name"
    return next((why for why in (why_bad_part(block.kind, part) for part in parts) if why), None)


def why_bad_report(value):
    """Why a node report is bad, or None."""
    if not isinstance(value, str):
        return "it is a number"
    seen = {}
    for part in value.split(","):
        key, equals, word = (word.strip(words.BLANKS) for word in part.partition("="))
        if not equals:
            return f"'{part.strip()}' has no ="
        seen.setdefault(key.lower(), []).append(word)
    for key, is_good in REPORT.items():
        if len(seen.get(key, ())) != 1:
            return f"{key.upper()} is missing" if key not in seen else f"{key.upper()} stands twice"
        if not is_good(seen[key][0]):
            return f"{key.upper()} can't be '{seen[key][0]}'"
    return None
