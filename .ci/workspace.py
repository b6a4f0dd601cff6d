"""The crates with their definitions and types, and what each of these refers to.

A reference is a tuple that begins with its kind: ("definition", crate, file, name), ("type", crate, name), ("constant", crate, file, name)
of the code, or ("kit", crate, module, name) of a definition that isn't in the repository."""
import re
from pathlib import Path

from reading import WORD, Source, Spec, imports_of

ROOT = Path(__file__).resolve().parent.parent

# The words of each job: the variant of `Job`, the constructor of `Task`, and the word of a command line.
JOBS = {
    "play": {"Play", "Playing", "play"},
    "solve": {"Solve", "Solving", "solve"},
    "check": {"Check", "Checking", "check"},
    "generate": {"Generate", "Generating", "generate"},
    "share": {"Share", "Sharing", "share"},
    "simulate": {"Simulate", "Simulating", "simulate"},
}

# The definitions in which the jobs part: a line of theirs with the word of a job is of this job alone, and one without is of all.
PARTING = (
    ("definition", "command_line", "Jobs", "job_of"),
    ("definition", "moos_jobs", "Jobs", "Task"),
    ("definition", "moos_jobs", "Jobs", "turn_of"),
    ("definition", "moos_jobs", "Jobs", "IsOutput"),
    ("definition", "moos_jobs", "Jobs", "IsPartOutput"),
)


def is_of_job(job, line):
    words = set(WORD.findall(line))
    return bool(words & JOBS[job]) or not any(words & others for others in JOBS.values())


class Workspace:
    def __init__(self):
        lines = (ROOT / "crates.txt").read_text().splitlines()
        self.crates = [re.split("[: ]", line)[0] for line in lines if line and line[0] != "#"]
        self.specs, self.sources, self.types, self.known = {}, {}, {}, {}
        for crate in self.crates:
            lib = ROOT / "crates" / crate / "specs" / "Lib.antt"
            for file in re.findall(r"^pub mod (\w+)", lib.read_text(), re.M) if lib.exists() else []:
                self.specs[crate, file] = Spec(lib.parent / f"{file}.antt")
            self.sources[crate] = [Source(crate, path) for path in sorted((ROOT / "crates" / crate / "src").rglob("*.rt"))]
            for source in self.sources[crate]:
                for name, it in source.types.items():
                    self.types[crate, name] = it

    def definition(self, at):
        return self.specs[at[1], at[2]].owner[at[3]]

    def imported(self, path, name):
        """What a name of a module refers to. A constructor refers to its data, and a variant to its type."""
        crate, *inside = path
        if crate not in self.crates:
            return [("kit", crate, ".".join(inside), name)]
        if "TheConstants" in inside:
            return [("constant", crate, inside[2], name)]
        if inside[:2] == ["specs", "declared"]:
            return [("type", crate, part) for part in inside[2:] if (crate, part) in self.types]
        if (crate, inside[1]) in self.specs and name in self.specs[crate, inside[1]].owner:
            return [("definition", crate, inside[1], self.specs[crate, inside[1]].owner[name].name)]
        return []

    def type_named(self, crate, name):
        """The type that a crate declares by this name, or takes from another one and gives on."""
        if (crate, name) in self.types:
            return [("type", crate, name)]
        for source in self.sources.get(crate, []):
            if source.path.name == "lib.rt" and name in source.uses and source.uses[name][0] in self.crates:
                return self.type_named(*source.uses[name])
        return []

    def types_spoken_of(self, source, words):
        """The types that words of a source file refer to: by its imports, or as its own declarations."""
        found = []
        for word in words:
            crate, there = source.uses.get(word, (None, None))
            if word in source.types:
                found.append(("type", source.crate, word))
            elif crate:
                found += self.type_named(source.crate if crate in ("crate", "super", "self") else crate, there)
        return found

    def spoken_of(self, source, words):
        """What words of a contract, or of a model in a source file, refer to."""
        found = []
        for word in words:
            if word in source.imports:
                found += self.imported(*source.imports[word])
            else:
                found += self.types_spoken_of(source, [word])
        return found

    def below(self, at, job=None):
        """What a definition or a type refers to itself; what it does so for one job, if one is named."""
        job = job if at in PARTING else None
        if (at, job) not in self.known:
            self.known[at, job] = self.refers_to(at, job)
        return self.known[at, job]

    def refers_to(self, at, job):
        if at[0] == "type":
            it = self.types[at[1:]]
            return self.spoken_of(it.source, it.words()) if it.seen_as else self.types_spoken_of(it.source, it.words())
        if at[0] != "definition":
            return []
        spec, it, found = self.specs[at[1], at[2]], self.definition(at), []
        for word in it.words(lambda line: is_of_job(job, line)) if job else it.words():
            if word in spec.owner:
                found.append((*at[:3], spec.owner[word].name))
            elif word in spec.imports:
                found += self.imported(*spec.imports[word])
        return found

    def reached(self, waiting, job=None):
        """All that these references lead to, for one job if one is named."""
        seen, waiting = set(), list(waiting)
        while waiting:
            at = waiting.pop()
            if at not in seen:
                seen.add(at)
                waiting += self.below(at, job)
        return seen

    def files_in_order(self, crate):
        """The files of a crate's specs/, each behind those that it imports, and else as its specs/Lib.antt has them."""
        found = []

        def put(file):
            if file not in found:
                below = {path[2] for path, _ in self.specs[crate, file].imports.values() if path[:2] == [crate, "specs"]}
                for other in [other for owner, other in self.specs if owner == crate and other in below]:
                    put(other)
                found.append(file)

        for owner, file in self.specs:
            if owner == crate:
                put(file)
        return found

    def unreached(self):
        """The definitions that no contract rests on."""
        roots = [at for sources in self.sources.values() for source in sources for at in self.spoken_of(source, source.imports)]
        seen = self.reached(roots)
        return [(crate, file, it.name) for (crate, file), spec in self.specs.items() for it in spec.definitions if ("definition", crate, file, it.name) not in seen]
