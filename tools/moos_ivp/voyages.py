"""What of a script, a mission, a vehicle's file or all of them together is accepted and hardly meant."""
from . import letters, meant, places, values, words
from .runs import DESIRED
from .words import Finding

OVERRIDES = ("MOOS_MANUAL_OVERRIDE", "MOOS_MANUAL_OVERIDE")
SHORTEST = 10_000


def of_script(run):
    """Posts and registrations of the script."""
    parameters = {name for kind in values.OWN for name in values.names_of(kind)}
    updates = {block.value("updates") for block in run.file.behaviors} if run.file else set()
    before = None
    for post in run.script.posts:
        pair = post.pair
        why = meant.why_text(pair.value) if isinstance(pair.value, str) and not pair.is_quoted else None
        if why:
            more = ": write # between the pairs of a line" if "one value" in why else ""
            yield Finding(post.number, None, f'{pair.name} is the text "{pair.value}": {why}{more}')
        if run.mission and pair.name in DESIRED:
            follows = "the vehicle follows what is mailed last, so the helm's stop may not hold"
            yield Finding(post.number, None, f"the helm posts {pair.name} too: {follows}")
        if pair.name == "NODE_REPORT" and letters.why_bad_report(pair.value):
            yield Finding(post.number, None, f"a bad node report, which changes nothing: {letters.why_bad_report(pair.value)}")
        same_line = before is not None and before.number == post.number
        if same_line and before.pair.name in updates and not before.pair.is_quoted and pair.name in parameters:
            mend = "write the whole update between quotes, or it ends at the #"
            yield Finding(post.number, None, f"a variable {pair.name} is posted: {mend}")
        before = post
    yield from of_mail(run)


def of_mail(run):
    """Registrations that nothing matches, and fetches that give nothing."""
    if run.mission and not run.file:
        return
    names = {*run.posted, *run.open} | ({"MODE"} if run.file and run.file.modes else set())
    registered = set()
    for number, client, pattern in run.script.registered:
        registered.add(client)
        if not any(words.matches(pattern, name) for name in names):
            is_open = set("*?") & set(pattern)
            said = f"nobody posts anything like {pattern}" if is_open else f"nobody posts {pattern}"
            yield Finding(number, None, said + ("" if is_open else meant.did_you_mean(pattern, names, 0.8)))
    for client, number in run.script.fetches.items():
        if client not in registered:
            yield Finding(number, None, f"{client} fetches and never registers for anything: it gets nothing")


def of_mission(run):
    """The helm's block, and lines that aren't read."""
    for app, _, lines in run.mission.blocks:
        for number, name, _ in lines if app.lower() == "phelmivp" else ():
            near = meant.near_to(name, ("AppTick", "behaviors", "domain"), 0.8)
            if near and near.lower() != name.lower():
                yield Finding(number, None, f"{name} isn't read: did you mean {near}?")


def of_axes(run):
    """Axes of the domain that no behaviour mentions, without which the vehicle stops."""
    mentioned = {axis for block in run.file.behaviors for axis in values.AXES.get(block.kind, ())}
    if run.file.behaviors and mentioned & set(values.STEERING):
        for axis in values.STEERING:
            if axis in [one.name for one in run.mission.axes] and axis not in mentioned:
                stops = f"the domain has {axis}, and no behaviour mentions it: the vehicle is stopped (MissingDecVars)"
                yield Finding(run.mission.behaviors_line, None, f"{stops}. Take the axis away, or add a behaviour")


def of_driving(run):
    """What stops the helm from driving at all."""
    given = [source.value for name in OVERRIDES for source in run.posted.get(name, ())]
    number = run.mission.behaviors_line
    if run.file.behaviors and not any(isinstance(value, str) and value.lower() == "false" for value in given):
        yield Finding(number, None, "nobody posts MOOS_MANUAL_OVERRIDE=false: the helm stays parked")
    steered = [block for block in run.file.behaviors if block.kind in values.STEERED]
    for name in ("NAV_X", "NAV_Y"):
        if steered and not run.is_posted(name):
            stops = f"{steered[0].name()} raises NoPosition, and the vehicle is stopped"
            yield Finding(number, None, f"nobody posts {name}: {stops}. Name a vehicle file (simulate)")


def of_length(run):
    if run.script.stop < SHORTEST and run.vehicle:
        ends = f"the run ends at {words.printed(run.script.stop)} s, the script's last stamp"
        yield Finding(run.script.last, None, f"{ends}: let it end with a line such as 600 until")


def of_vehicle(run):
    """Steps of a vehicle that are none, and speeds that aren't those that were wanted."""
    got, lines = run.vehicle.values, run.vehicle.lines
    period = run.mission.period if run.mission else 250
    for name, what in (("accel", "gains speed"), ("decel", "brakes"), ("dive", "dives"), ("turn_rate", "turns")):
        if got[name] * period // 1000 == 0:
            why = "" if got[name] == 0 else f": its change in a step of {words.printed(period)} s is below a thousandth"
            yield Finding(lines[name] or 1, None, f"{name} = {words.printed(got[name])}: it never {what}{why}")
    full = got["speed_factor"] * got["max_speed"] // 1000
    if not 99_000 <= full <= 101_000 and got["speed_factor"]:
        fit = words.printed(100_000_000 // got["max_speed"])
        number = lines["speed_factor"] or lines["max_speed"] or 1
        said = f"speed_factor * max_speed is {words.printed(full)}, and not 100: the speed isn't the wanted one"
        yield Finding(number, None, f"{said}. Write speed_factor = {fit}")
    for name, what in (("max_rudder", "turns"), ("max_thrust", "moves"), ("yaw_kp", "turns"), ("speed_factor", "moves")):
        if got[name] == 0 and not (name == "yaw_kp" and (got["yaw_ki"] or got["yaw_kd"])):
            yield Finding(lines[name] or 1, None, f"{name} = 0: the vehicle never {what}")


def of_region(run):
    """Places outside an operating region, where the vehicle is stopped."""
    got = run.vehicle.values
    for block in run.file.behaviors:
        border = places_in(block) if block.kind == "BHV_OpRegion" else []
        if border and not places.is_inside(border, (got["start_x"], got["start_y"])):
            number = run.vehicle.lines["start_x"] or run.vehicle.lines["start_y"] or 1
            out = f"outside the polygon of {block.name()}, where it is stopped (OutsidePolygon)"
            yield "vehicle", Finding(number, None, f"the vehicle starts {out}")
        for other in run.file.behaviors if border else ():
            out = [place for place in places_in(other) if other is not block and not places.is_inside(border, place)]
            if out:
                at = ",".join(words.printed(number) for number in out[0])
                stops = f"outside the polygon of {block.name()}, where the vehicle is stopped (OutsidePolygon)"
                yield "behaviors", Finding(other.number, None, f"{other.name()} leads to {at}, {stops}")


def places_in(block):
    """The places of a behaviour."""
    text = block.value("points", "point", "polygon", "station_pt")
    return places.places_of(text) if text else []


def findings(run):
    """All that is told of the files beside the behaviour file: (file, finding)."""
    found = []
    if run.script:
        found += [(run.names["script"], one) for one in of_script(run)]
    if run.mission:
        found += [(run.names["mission"], one) for one in of_mission(run)]
    if run.mission and run.script and run.file:
        found += [(run.names["mission"], one) for rule in (of_axes, of_driving) for one in rule(run)]
        found += [(run.names["script"], one) for one in of_length(run)]
    if run.vehicle:
        found += [(run.names["vehicle"], one) for one in of_vehicle(run)]
        if run.file:
            found += [(run.names[kind], one) for kind, one in of_region(run)]
    return found
