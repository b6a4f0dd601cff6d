#!/usr/bin/env python3
"""Makes the files of a run here of a mission of MOOS-IvP.

usage: python3 tools/from_moos.py MISSION FOLDER

MISSION is a .moos file, as it is behind nsplug: $(VAR) and #include are left as they stand. The folder is made, and in it

  mission.moos  the block of pHelmIvP: AppTick, the behaviour file, the domain
  NAME.bhv      the behaviour file, NAME the folder's: several become one, patterns of places are written out, and some names are
                those that are used here
  script.txt    what uTimerScript posts at its times, and what the first button of pMarineViewer posts, at 1 s
  vehicle.txt   what uSimMarine and pMarinePID say of the vehicle
  contacts.txt  the ranges of the contact manager, or of the behaviours that keep clear of a contact

Other programs' blocks say nothing of a run here. What is changed or not carried is printed, with its line. No file that is there is
written over. Then `./moos lint` tells what is left to be done. The exit status is 0, or 2 for other words, 3 if a file can't be read or
written, and 4 if standard output fails."""
import os
import re
import sys

sys.dont_write_bytecode = True
from moos_ivp import behaviors, ending, missions, port_behaviors, port_script, port_settings, words  # noqa: E402


def named_files(mission, folder):
    """The behaviour files that the helm's block names, from the mission's folder."""
    for app, _, lines in mission.blocks:
        for number, name, value in lines if app.lower() == missions.HELM else ():
            if name.lower() == "behaviors":
                yield number, os.path.join(folder, value.strip('"'))


def port_behavior_files(mission, folder, told):
    """The lines of the one behaviour file, or None if there is none."""
    lines = []
    for number, name in named_files(mission, folder):
        text = words.load(name)
        base = os.path.basename(name)
        told += unexpanded(text, base)
        lines += ([""] if lines else []) + [f"// From {base}."]
        lines += port_behaviors.behaviors_of(text, lambda line, said, base=base: told.append(f"{base}:{line}: {said}"))
    return lines or None


def port_mission(mission, name, tell):
    """The helm's block."""
    yield "// The helm's block of a mission."
    yield "ProcessConfig = pHelmIvP"
    yield "{"
    for app, _, lines in mission.blocks:
        for number, key, value in lines if app.lower() == missions.HELM else ():
            low = key.lower()
            if low == "behaviors" and name:
                yield f"  behaviors = {name}"
                name = None
            elif low == "domain":
                fields = re.split("[:,]", value)
                yield "  domain    = " + ":".join(field.strip() for field in fields[:4])
                if len(fields) > 4:
                    tell(number, f"domain = {value}: without {':'.join(fields[4:])}")
            elif low == "apptick":
                yield f"  AppTick   = {value}"
    yield "}"


def unexpanded(text, file):
    """Lines that nsplug would have made other lines of."""
    for number, line in enumerate(words.all_lines(text), 1):
        if re.search(r"\$\(|^[ \t]*#(include|ifdef|ifndef|else|endif|define)", line):
            yield f"{file}:{number}: left as it is, and nsplug is to be run before: {line.strip()}"


def reported(mission, text):
    """How the vehicle becomes a contact of another run, where pNodeReporter reports it."""
    named = re.search(r"^[ \t]*community[ \t]*=[ \t]*(\w+)", text, re.I | re.M)
    for app, _, lines in mission.blocks:
        if app.lower() == "pnodereporter":
            settings = {name.lower(): value for _, name, value in lines}
            every = settings.get("blackout_interval", "1")
            name = settings.get("platform_name") or (named[1] if named else "other")
            command = f"moos look contact --name {name} --every {every} REPORT"
            yield f"// pNodeReporter: {command} prints this vehicle's reports for another one's script"


def headed(head, lines, left):
    """The lines of a file under its head, and behind them what wasn't carried."""
    found = [f"// {head}", *lines]
    if left:
        found += ["", "// Not carried:", *(f"//   {line}" for line in left)]
    return found


def ported(name, folder):
    """The files by their names, each as its lines, and what is told of them."""
    text = words.load(name)
    told, left, mission = list(unexpanded(text, os.path.basename(name))), {}, missions.read(text)
    apps = [app for app, _, _ in mission.blocks]
    if missions.HELM not in [app.lower() for app in apps]:
        raise words.Unreadable(f"{name}: it has no block of pHelmIvP; there are {', '.join(apps) or 'none'}")
    base = os.path.basename(os.path.abspath(folder)) + ".bhv"

    def changed(number, said):
        told.append(f"{os.path.basename(name)}:{number}: {said}")

    def lost(kind):
        def tell(number, app, line, why):
            left.setdefault(kind, []).append(line)
            told.append(f"{os.path.basename(name)}:{number}: not carried, {app}: {line}" + (f": {why}" if why else ""))

        return tell

    bhv = port_behavior_files(mission, os.path.dirname(name), told)
    file = behaviors.read("\n".join(bhv)) if bhv else None
    script = [*reported(mission, text), *port_script.script_of(mission, lost("script.txt"))]
    vehicle, has_vehicle = port_settings.vehicle_of(mission, lost("vehicle.txt"))
    contacts = port_settings.contacts_of(mission, file, lost("contacts.txt"))
    about = f"From {os.path.basename(name)} of MOOS-IvP."
    files = {"mission.moos": list(port_mission(mission, base if bhv else None, changed))}
    files["script.txt"] = headed(about, script, left.get("script.txt"))
    if bhv:
        files[base] = bhv
    if has_vehicle:
        files["vehicle.txt"] = headed(about, vehicle, left.get("vehicle.txt"))
    if contacts:
        files["contacts.txt"] = headed(about, contacts, left.get("contacts.txt"))
    return files, told


def write(folder, files):
    os.makedirs(folder, exist_ok=True)
    there = [name for name in files if os.path.exists(os.path.join(folder, name))]
    if there:
        raise words.Unreadable(f"{os.path.join(folder, there[0])} is there: name a new folder")
    for name, lines in files.items():
        with open(os.path.join(folder, name), "w", encoding="utf-8", errors="surrogateescape") as file:
            file.writelines(line + "\n" for line in lines)


def main(said):
    if said[:1] in (["--help"], ["-h"]):
        print(__doc__)
        return 0
    if len(said) != 2 or said[0].startswith("--"):
        print("from_moos: usage: python3 tools/from_moos.py MISSION FOLDER (--help says more)", file=sys.stderr)
        return 2
    try:
        files, told = ported(*said)
        write(said[1], files)
    except (words.Unreadable, OSError) as fault:
        print(f"from_moos: {fault}", file=sys.stderr)
        return 3
    for line in told:
        print(line.encode("utf-8", "replace").decode("utf-8"))
    named = [name for name in ("script.txt", "mission.moos", "vehicle.txt", "contacts.txt") if name in files]
    print(f"{said[1]} has {', '.join(files)}. Next, in that folder: moos lint {' '.join(named)}")
    return 0


if __name__ == "__main__":
    ending.run("from_moos", main)
