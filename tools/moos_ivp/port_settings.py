"""Makes a vehicle's file and a contacts file of the blocks of a MOOS-IvP mission that say the same."""
import re

from . import settings, words
from .port_script import PERSONAL, fields_of

# Settings that have another name here and the same meaning.
SAME = {
    "start_x": "start_x",
    "start_y": "start_y",
    "start_heading": "start_heading",
    "start_depth": "start_depth",
    "max_depth_rate": "dive",
    "yaw_pid_kp": "yaw_kp",
    "maxrudder": "max_rudder",
    "maxthrust": "max_thrust",
    "speed_factor": "speed_factor",
}
STARTS = {"x": "start_x", "y": "start_y", "heading": "start_heading", "depth": "start_depth"}


class Vehicle:
    """The settings that were found, each with what is said of it, and what isn't carried."""

    def __init__(self, period, tell):
        self.period, self.tell, self.found = period, tell, {}

    def put(self, number, line, name, value, said=""):
        low, high, _ = settings.VEHICLE[name]
        if value is None or not low <= value <= high:
            self.tell(number, line, f"{name} is a number from {words.printed(low)} to {words.printed(high)}")
        else:
            self.found[name] = (value, said)

    def line(self, number, name, text):
        """Carries one line of a block."""
        line, value, low = f"{name} = {text}", words.number_of(text.strip('"')), name.lower()
        if low in SAME:
            self.put(number, line, SAME[low], value)
        elif low == "start_pos":
            self.start(number, line, text)
        elif low == "thrust_map":
            self.thrust(number, line, text)
        elif low == "thrust_factor" and value:
            self.put(number, line, "max_speed", 100_000_000 // value, "thrust_factor there")
        elif low == "turn_rate":
            self.put(number, line, "turn_rate", value, "there it has no unit: here it is degrees a second at full rudder and max_speed")
        elif low in ("max_acceleration", "max_deceleration") and value:
            self.put(number, line, "accel" if low == "max_acceleration" else "decel", value)
        elif low == "yaw_pid_kd" and value:
            here = f"here of a step of {words.printed(self.period)} s"
            self.put(number, line, "yaw_kd", value * 1000 // self.period, f"{text} there, of a change a second; {here}")
        elif low == "yaw_pid_ki" and value:
            here = f"here over steps of {words.printed(self.period)} s"
            self.put(number, line, "yaw_ki", value * self.period // 1000, f"{text} there, of a sum over seconds; {here}")
        elif low not in PERSONAL and not (value == 0 and low.startswith(("yaw", "max_"))):
            self.tell(number, line, "its unit there is another one" if low == "yaw_pid_integral_limit" else "")

    def start(self, number, line, text):
        """A start such as x=0,y=-20,heading=180 or 0,-20,180,0,0: x, y, heading, speed and depth."""
        fields = fields_of(text)
        if all("=" not in part for part in text.split(",")):
            fields = dict(zip(("x", "y", "heading", "speed", "depth"), text.split(",")))
        for key, value in fields.items():
            number_there = words.number_of(value.strip())
            if key in STARTS:
                if key == "heading" and number_there is not None:
                    number_there %= 360_000
                self.put(number, line, STARTS[key], number_there)
            elif not (key == "speed" and number_there == 0):
                self.tell(number, f"{key}={value} of {line}", "the vehicle lies still at the start" if key == "speed" else "")

    def thrust(self, number, line, text):
        """A thrust map such as 0:0, 20:1, 100:5, of which the end counts."""
        pairs = [[words.number_of(word.strip()) for word in part.split(":")] for part in text.strip('"').split(",")]
        if any(len(pair) != 2 or None in pair for pair in pairs) or max(pair[0] for pair in pairs) <= 0:
            self.tell(number, line, "it is no list of THRUST:SPEED")
            return
        thrust, speed = max(pairs)
        is_straight = all(one_speed * thrust == speed * one_thrust for one_thrust, one_speed in pairs)
        said = "" if is_straight else "the map there isn't straight: here the speed is in proportion to the thrust"
        self.put(number, line, "max_speed", speed * 100_000 // thrust, said)

    def lines(self):
        """The lines of the vehicle's file. The speed is as wanted if speed_factor * max_speed is 100."""
        if "max_speed" in self.found:
            speed = self.found["max_speed"][0]
            factor = self.found.get("speed_factor", (None, ""))[0]
            if factor is None or not 99_000 <= factor * speed // 1000 <= 101_000:
                there = f", and {words.printed(factor)} there" if factor is not None else ""
                self.found["speed_factor"] = (100_000_000 // speed, f"100 divided by max_speed{there}")
        for name in settings.VEHICLE:
            if name in self.found:
                value, said = self.found[name]
                yield f"{name} = {words.printed(value)}" + (f"   // {said}" if said else "")


def vehicle_of(mission, tell):
    """The lines of a vehicle's file, and whether the mission has a simulated vehicle at all."""
    there = False
    vehicle = None
    for app, _, lines in mission.blocks:
        if not app.lower().startswith(("usimmarine", "pmarinepid")):
            continue
        there = True
        told = vehicle.found if vehicle else {}
        vehicle = Vehicle(mission.period, lambda number, line, why, app=app: tell(number, app, line, why))
        vehicle.found.update(told)
        for number, name, text in lines:
            vehicle.line(number, name, text)
    return (list(vehicle.lines()) if there else []), there


def range_in(text, *names):
    """A number that a line gives behind one of these names, as alert_range=40."""
    for name in names:
        found = re.search(rf"\b{name}\s*=\s*\"?([0-9.]+)", text, re.I)
        if found and words.number_of(found[1]) is not None:
            return words.number_of(found[1])
    return None


def contacts_of(mission, file, tell):
    """The lines of a contacts file: ranges of the contact manager's block, or of the behaviours that keep clear."""
    alert = clear = None
    manages = False
    for app, _, lines in mission.blocks:
        if not re.match(r"p\w*contactmgr", app, re.I):
            continue
        manages = True
        for number, name, text in lines:
            line = f"{name} = {text}"
            near = range_in(line, "alert_range", "default_alert_range")
            far = range_in(line, "cpa_range", "default_cpa_range", "alert_range_far", "default_alert_range_far")
            if near or far:
                alert, clear = near or alert, far or clear
            elif name.lower() not in PERSONAL:
                tell(number, app, line, "")
    for block in file.behaviors if file else ():
        if block.kind == "BHV_AvoidCollision":
            for kind, given in file.unused:
                if kind is block and given.name == "pwt_outer_dist" and alert is None:
                    alert = words.number_of(given.value)
                if kind is block and given.name == "completed_dist" and clear is None:
                    clear = words.number_of(given.value)
            manages = True
    if not manages:
        return []
    alert = alert or settings.CONTACTS["alert_range"][2]
    clear = max(clear or 0, alert, settings.CONTACTS["clear_range"][2] if clear is None else 0)
    return [f"alert_range = {words.printed(alert)}", f"clear_range = {words.printed(clear)}"]
