"""What of a behaviour file is accepted and hardly meant, in the run that its files make."""
import difflib
import re

from . import conditions, known, letters, values, words
from .runs import DESIRED, LISTED, is_parent_line
from .words import Finding

FEW = 4
FOUR = ("contact_x", "contact_y", "contact_speed", "contact_heading")


def near_to(word, names, likeness=0.7):
    """Which of some names is most like a word, in letters of either case, or None."""
    lowered = {name.lower(): name for name in names}
    found = difflib.get_close_matches(word.lower(), [name for name in lowered if name != word.lower()], 1, likeness)
    return lowered[found[0]] if found else lowered.get(word.lower())


def did_you_mean(word, names, likeness=0.7):
    near = near_to(word, names, likeness)
    return f": did you mean {near}?" if near else ""


def listed(names):
    names = list(names)
    return ", ".join(names[:FEW]) + (" and others" if len(names) > FEW else "")


def where(run, sources):
    """The values that were posted, and where: each value once."""
    seen = {}
    for source in sources:
        seen.setdefault(words.shown(source.value), source)
    return listed(f"{value} ({source.file}:{source.number})" for value, source in seen.items())


def why_text(value):
    """What is hardly meant of a text that is posted, or None."""
    macro = re.search(r"\$[\[({]\w*[\])}]", value)
    if macro:
        return f"{macro[0]} is posted as it stands: nothing is put in its place"
    pairs = LISTED.match(value)
    return f"it is one value, and {pairs[1]} isn't set by it" if pairs else None


def of_pairs(run):
    """Values of `initialize` lines and flags."""
    pairs = [(number, pair) for number, pair in run.file.opening]
    for block in run.file.behaviors:
        pairs += [(one.number, words.pair_of(one.value)[0]) for one in block.given if one.name in values.FLAGS]
    for number, pair in pairs:
        why = why_text(pair.value) if isinstance(pair.value, str) and not pair.is_quoted else None
        if why:
            mend = ": write one variable a line" if "one value" in why else ""
            yield Finding(number, None, f'{pair.name} is the text "{pair.value}": {why}{mend}')
        if pair.name in DESIRED:
            last = "its own is the last of an iteration, if it posts one"
            yield Finding(number, None, f"the helm posts {pair.name} itself, and behind this: {last}")
        if pair.name == "MODE":
            yield Finding(number, None, "MODE in a condition means the helm's own mode, whatever is posted as MODE")


def of_comparison(run, one):
    """Why a comparison never holds, or can't be meant; None if nothing is to be said."""
    if one.name == "MODE":
        return of_mode(run, one)
    if isinstance(one.literal, str) and re.search(r"\$[\[({]", one.literal):
        return "a variable on the right isn't looked up: it is compared with the text as it stands"
    if one.operator in ("<", "<=", ">", ">=") and isinstance(one.literal, str):
        return f"{one.operator} compares numbers alone, so this never holds"
    if not run.knows_posts():
        return None
    if not run.is_posted(one.name):
        if one.name.upper() == "MODE":
            return f"nobody posts {one.name}: MODE, in capital letters, is the helm's mode"
        return f"nobody posts {one.name}{did_you_mean(one.name, [*run.posted, *run.open], 0.8)}"
    sources = run.posted.get(one.name, [])
    if one.name in run.open or any(conditions.compare(source.value, one.operator, one.literal) for source in sources):
        return None
    return f"it never holds: {one.name} is only ever posted as {where(run, sources)}" + text_and_number(one, sources)


def text_and_number(one, sources):
    is_text = isinstance(one.literal, str)
    if all(isinstance(source.value, str) != is_text for source in sources):
        return "; a text and a number are never equal"
    return did_you_mean(one.literal, {source.value for source in sources if isinstance(source.value, str)}) if is_text else ""


def of_mode(run, one):
    if one.operator not in ("=", "==", "!="):
        return f"{one.operator} with MODE never holds"
    if not run.file.modes:
        return "no mode is declared (set MODE = NAME {), so MODE is never anything"
    paths = run.declared_paths()
    if isinstance(one.literal, str) and any(conditions.is_in_path(path, one.literal) for path in paths):
        return None
    parts = one.literal.split(":") if isinstance(one.literal, str) else []
    names = {part for path in paths for part in path}
    odd = [part for part in parts if part.lower() not in {name.lower() for name in names}]
    if not odd and run.file.has_bad_mode:
        return None
    said = f"no mode is named {odd[0]}{did_you_mean(odd[0], names)}" if odd else f"no mode has the path {words.shown(one.literal)}"
    return said + f"; there are {listed(':'.join(path) for path in paths)}"


def of_conditions(run):
    """Comparisons of modes and behaviours that can't be meant. The parent lines of modes are judged where they are read."""
    of_modes = [one for mode in run.file.modes for one in mode.conditions if not is_parent_line(one[1])]
    for number, condition in of_modes + [one for block in run.file.behaviors for one in block.conditions]:
        for one in conditions.comparisons_of(condition):
            why = of_comparison(run, one)
            if why:
                yield Finding(number, None, f"{one.shown()}: {why}")


def cases_of(run, wanted, with_modes):
    """The cases that some conditions tell apart, each with its mode; None if there are too many."""
    comparisons = [one for condition in wanted for one in conditions.comparisons_of(condition)]
    if with_modes:
        comparisons += run.mode_comparisons()
    cases = run.cases(comparisons)
    return None if cases is None else [(case, run.mode(case) if with_modes else []) for case in cases]


def can_hold(run, wanted):
    """Whether some conditions may hold together, as far as is known."""
    with_modes = any(one.name == "MODE" for condition in wanted for one in conditions.comparisons_of(condition))
    if with_modes and run.file.has_bad_mode:
        return True
    cases = cases_of(run, wanted, with_modes)
    return cases is None or any(all(conditions.holds(condition, case, path) for condition in wanted) for case, path in cases)


def of_life(run):
    """Behaviours that never run, or never matter, and modes that are never entered."""
    entered = {tuple(path) for path in run.paths()}
    for mode in run.file.modes if not run.file.has_bad_mode else ():
        if not any(list(path[: len(mode.path)]) == mode.path for path in entered):
            path = ":".join(mode.path)
            yield Finding(mode.number, None, f"the mode {path} is never entered, by its conditions or by those of modes above it")
    for block in run.file.behaviors:
        wanted = [condition for _, condition in block.conditions]
        if wanted and not can_hold(run, wanted):
            together = "" if any(not can_hold(run, [one]) for one in wanted) else " together"
            yield Finding(block.number, None, f"{block.name()} never runs: its conditions never hold{together}")
        if words.number_of(block.value("duration") or "1") == 0:
            yield Finding(block.number, None, f"{block.name()} is never stepped: its duration is 0")
        if words.number_of(block.value("pwt") or "1") == 0 and not block.has("updates"):
            yield Finding(block.number, None, f"{block.name()} has no say: its weight is 0, and no update changes it")


def of_contacts(run):
    """Behaviours that keep clear of a contact, and templates."""
    for block in run.file.behaviors:
        is_template, updates = block.is_template(), block.value("updates")
        if block.kind == "BHV_AvoidCollision":
            if is_template and block.value("perpetual") == "true":
                stays = f"what {block.name()} makes stays when a contact is clear, keeps `resolved`"
                yield Finding(block.number, None, f"{stays}, and never keeps clear of that contact again: take `perpetual` away")
            if not is_template and not updates and not all(block.has(name) for name in FOUR):
                lacks = f"one of {', '.join(FOUR)} isn't given, and it has no updates"
                yield Finding(block.number, None, f"{block.name()} never gives a function: {lacks}")
            if not is_template and updates == "CONTACT_INFO":
                refuses = f"{block.name()} refuses each letter of CONTACT_INFO, which begins with name=.."
                yield Finding(block.number, None, f"{refuses}: write templating = spawn")
        if is_template and updates and run.knows_posts() and not run.is_posted(updates):
            files = ": name a contacts file" if updates == "CONTACT_INFO" else did_you_mean(updates, [*run.posted, *run.open], 0.8)
            yield Finding(block.number, None, f"nothing is ever made of {block.name()}: nobody posts {updates}{files}")


def of_letters(run):
    """Updates that are posted and refused."""
    for block in run.file.behaviors:
        name = block.value("updates") if block.kind in values.OWN else None
        for source in run.posted.get(name, ()) if name else ():
            why = letters.why_bad_update(block, source.value)
            if why:
                yield source.file, Finding(source.number, None, f"{block.name()} refuses this update of {name}: {why}")
        if name and run.knows_posts() and not block.is_template() and not run.is_posted(name):
            near = near_to(name, [*run.posted], 0.8)
            if near:
                said = f"nobody posts {name}, the updates of {block.name()}: did you mean {near}?"
                yield run.names["behaviors"], Finding(block.number, None, said)


def of_parameters(run):
    """Parameters that are unused, or given twice."""
    for block, given in run.file.unused:
        why = why_unused(block, given.name)
        if why:
            yield Finding(given.number, None, f"{given.name} isn't used: {why}")
    for block in run.file.behaviors:
        seen = {}
        for given in block.given:
            names = values.group_of(block.kind, given.name)[0]
            if names == values.FLAGS or given.name == "condition":
                continue
            key = given.name if names == ("contact_x", "contact_y") else names
            if key in seen:
                yield Finding(given.number, None, f"{given.name} was given in line {seen[key]}: only the last one counts")
            seen[key] = given.number


def why_unused(block, name):
    if block.kind not in values.OWN or name in known.SILENT:
        return None
    if name in known.PARAMETERS:
        return known.PARAMETERS[name]
    near = near_to(name, values.names_of(block.kind), 0.75)
    if near:
        return f"did you mean {near}?"
    others = [kind for kind in values.OWN if values.group_of(kind, name)[1]]
    return f"it is a parameter of {' and '.join(others)}, and this is {block.kind}" if others else f"{block.kind} has no such parameter"


def findings(run):
    """All that is told of the behaviour file, and (file, finding) of the lines elsewhere that its updates come from."""
    mine = [found for rule in (of_pairs, of_conditions, of_life, of_contacts, of_parameters) for found in rule(run)]
    return [(run.names["behaviors"], found) for found in mine] + list(of_letters(run))
