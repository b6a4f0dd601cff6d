"""Makes a script of what programs of a MOOS-IvP mission post: uTimerScript's events, and the buttons of pMarineViewer."""
import re

from . import words

ENDS = 600.0
PERSONAL = ("apptick", "commstick", "maxappcommsratio")


def fields_of(text):
    """The fields KEY=value between commas outside quotes, keys in lower case, and those without a = as KEY alone."""
    fields = {}
    for part in re.findall(r'(?:[^,"]|"[^"]*")+', text):
        key, _, value = part.partition("=")
        fields[key.strip().lower()] = value.strip()
    return fields


def written(name, value):
    """The pair that posts a value: a number as one, and any other as a text, between quotes where it must be."""
    if value.startswith('"') and value.endswith('"') and len(value) > 1:
        value, is_number = value[1:-1], False
    else:
        is_number = words.number_of(value) is not None
    if is_number or re.fullmatch(r"[A-Za-z][\w.:-]*", value):
        return f"{name}={value}"
    return f'{name}="{value}"'


def event(value, delay):
    """The time of an event and the line behind it, or why it isn't carried. A random time counts as its earliest."""
    fields = fields_of(value)
    first, _, last = fields.get("time", "0").strip('"').partition(":")
    time = words.number_of(first.strip())
    if time is None or time < 0:
        return None, "its time is no number"
    time += delay
    if "quit" in fields:
        return time, "until"
    name, text = fields.get("var", ""), fields.get("val", "")
    if not words.is_name(name) or not text:
        return None, "it has no variable or no value"
    if "$[" in text or "$(" in text or "$[" in value:
        return None, "it has a macro, and nothing is put in its place here"
    said = f"   // at a random time there: {first.strip()} to {last.strip()}" if last else ""
    return time, f"uTimerScript post {written(name, text)}{said}"


def timers(lines, tell):
    """The events of a uTimerScript block, each (time, line); `tell` is told what isn't carried."""
    settings = {name.lower(): value for _, name, value in lines}
    delay = words.number_of(settings.get("delay_start", "0").partition(":")[0].strip()) or 0
    found = []
    for number, name, value in lines:
        if name.lower() == "event":
            time, line = event(value, delay)
            if time is None:
                tell(number, f"event = {value}", line)
            else:
                found.append((time, line))
        elif name.lower() not in PERSONAL + ("delay_start",):
            tell(number, f"{name} = {value}", "")
    return found


def buttons(lines, tell):
    """What pMarineViewer's first button posts, at 1 s; what the others post is left to whoever runs the mission."""
    posts = {}
    for number, name, value in lines:
        if not name.lower().startswith("button_"):
            continue
        label, *parts = value.split("#")
        for part in [label, *parts] if "=" in label else parts:
            pair, fault = words.pair_of(part)
            if fault:
                tell(number, f"{name} = {value}", "")
            else:
                posts.setdefault(name.lower(), []).append(written(pair.name, part.partition("=")[2].strip()))
    first = posts.pop("button_one", None)
    found = [(1000, f"pMarineViewer post {' # '.join(first)}")] if first else []
    return found, [f"// STAMP pMarineViewer post {' # '.join(pairs)}   // {name} of pMarineViewer" for name, pairs in posts.items()]


def script_of(mission, tell):
    """The lines of a script."""
    found, left = [], []
    for app, _, lines in mission.blocks:
        if app.lower().startswith("utimerscript"):
            found += timers(lines, lambda number, line, why: tell(number, "uTimerScript", line, why))
        elif app.lower() == "pmarineviewer":
            posts, more = buttons(lines, lambda number, line, why: tell(number, "pMarineViewer", line, why))
            found, left = found + posts, left + more
    if not any(line == "until" for _, line in found):
        last = max([time for time, _ in found], default=0)
        found.append((max(last, round(ENDS * 1000)), "until"))
    if not any("MOOS_MANUAL_OVER" in line for _, line in found):
        found.append((1000, "shore post MOOS_MANUAL_OVERRIDE=false   // nobody posts it there: without it the helm stays parked"))
    return left + [f"{words.printed(time)} {line}" for time, line in sorted(found, key=lambda one: one[0])]
