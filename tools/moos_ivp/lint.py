"""Everything that is told of the files of one run: what a run would refuse, and what it would accept and nobody can have meant."""
import os

from . import behaviors, meant, missions, runs, scripts, settings, voyages, words
from .words import Finding

MOST_TICKS = 20_000
KINDS = ("script", "second", "mission", "behaviors", "vehicle", "contacts", "bridge")


def sorted_out(names):
    """The files by their kind: the first of each kind, and those that are left."""
    first, left = {}, []
    for name in names:
        text = words.load(name)
        kind = runs.kind_of(name, text)
        if kind == "problem":
            raise words.Unreadable(f"{name}: a problem or a decision isn't read here: ./moos solve and ./moos check judge it")
        if kind == "script" and "script" in first and "second" not in first:
            kind = "second"
        if kind in first:
            left.append((name, kind, text))
        else:
            first[kind] = (name, text)
    return first, left


def find_behaviors(run, first):
    """Adds the behaviour file that the mission names, and gives what is to be said of its name."""
    mission, name = run.mission, run.names["mission"]
    if "behaviors" in first or not mission.behaviors:
        return []
    found = runs.behavior_file_of(mission, name)
    line = mission.behaviors_line
    if not found:
        said = f"the behaviour file {mission.behaviors} isn't there: {why_not_there(mission.behaviors)}"
        return [(name, Finding(line, "load fault", said))]
    first["behaviors"] = (found, words.load(found))
    if found != mission.behaviors:
        start = f"and isn't there: start it in {os.path.dirname(name)}"
        return [(name, Finding(line, None, f"{mission.behaviors} is looked for from the folder in which a run is started, {start}"))]
    return []


def why_not_there(name):
    if name.startswith('"'):
        return "its name is read with the quotes, so take them away"
    if "$" in name:
        return "$(..) is read as it stands"
    return f"it is looked for from the folder {os.getcwd()}"


def read_all(first):
    """The run that the files make, and the lines that it would refuse."""
    run, found = runs.Run(), []
    run.names = {kind: name for kind, (name, _) in first.items()}
    if "script" in first:
        run.script = scripts.read(first["script"][1])
        found += [(run.names["script"], one) for one in run.script.findings]
    if "second" in first:
        found += [(run.names["second"], one) for one in scripts.read(first["second"][1]).findings]
    if "mission" in first:
        run.mission = missions.read(first["mission"][1])
        found += [(run.names["mission"], one) for one in run.mission.findings] + find_behaviors(run, first)
        run.names = {kind: name for kind, (name, _) in first.items()}
    if "behaviors" in first:
        axes = run.mission.axes if run.mission and not any(one.cause for one in run.mission.findings) else None
        run.file = behaviors.read(first["behaviors"][1], axes)
        found += [(run.names["behaviors"], one) for one in run.file.findings]
    if "vehicle" in first:
        run.vehicle = settings.read_vehicle(first["vehicle"][1])
        found += [(run.names["vehicle"], one) for one in run.vehicle.findings]
    if "contacts" in first:
        run.contacts = settings.read_contacts(first["contacts"][1])
        found += [(run.names["contacts"], one) for one in run.contacts.findings]
    if "bridge" in first:
        posted = {post.pair.name for post in run.script.posts} if run.script else ()
        found += [(run.names["bridge"], one) for one in settings.read_bridge(first["bridge"][1], posted)]
    return run, found


def together(run, first):
    """What a run refuses of files that are good by themselves."""
    own = {"pMarinePID", "uSimMarine"} if run.vehicle else set()
    own |= {"pBasicContactMgr"} if run.contacts else set()
    tried = [("script", own, "S11 OwnName")]
    if "bridge" in first:
        tried += [(kind, {"pShare"}, "S10 ShareName") for kind in ("script", "second")]
    for kind, names, cause in tried:
        line = scripts.client_line(first[kind][1], names) if kind in first else None
        if line:
            yield run.names[kind], Finding(line[0], cause, f"{line[1]} is a client of the program here: give this one another name")
    if run.mission and run.script and not any(one.cause for one in run.mission.findings):
        ticks = run.script.stop // run.mission.period + 1
        if ticks > MOST_TICKS:
            said = f"up to the script's last stamp, {words.printed(run.script.stop)} s, the helm would iterate {ticks:,} times"
            mend = f"and may {MOST_TICKS:,}: end the script earlier, or make AppTick smaller"
            yield run.names["mission"], Finding(run.mission.last, "M8 TooManyTicks", f"{said}, {mend}")


def alone(name, kind, text):
    """What a run would refuse of a file that isn't the first of its kind."""
    readers = {
        "script": lambda: scripts.read(text).findings,
        "mission": lambda: missions.read(text).findings,
        "behaviors": lambda: behaviors.read(text).findings,
        "vehicle": lambda: settings.read_vehicle(text).findings,
        "contacts": lambda: settings.read_contacts(text).findings,
        "bridge": lambda: settings.read_bridge(text, ()),
    }
    return [(name, one) for one in readers[kind]()]


def findings(names):
    """Everything that is told of these files, in their order and by their lines, and each file's text."""
    first, left = sorted_out(names)
    run, found = read_all(first)
    found += together(run, first)
    for name, kind, text in left:
        found += alone(name, kind, text)
    texts = {name: text for name, text in first.values()} | {name: text for name, _, text in left}
    for name, text in texts.items():
        if text.startswith("\ufeff") and name != run.names.get("script"):
            said = "the file begins with a byte order mark, which can't be seen: save it as UTF-8 without one"
            found.append((name, Finding(1, None, said)))
    run.add_posts()
    for name, one in found:
        if one.cause and name in (run.names.get("script"), run.names.get("behaviors")):
            run.add_unread(words.all_lines(texts[name])[one.number - 1 : one.number])
    if run.file:
        found += meant.findings(run)
    found += voyages.findings(run)
    order = {run.names[kind]: place for place, kind in enumerate(KINDS) if kind in run.names}
    found = sorted(dict.fromkeys(found), key=lambda one: (order.get(one[0], len(KINDS)), one[0], one[1].number))
    return found, texts
