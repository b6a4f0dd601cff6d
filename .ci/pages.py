"""The pages that `.ci/definitions` prints."""
import re
import sys
import textwrap

from reading import WORD
from workspace import JOBS, PARTING, ROOT, Workspace

CLAUSE = re.compile(r"^ +(?:requires|ensures)\b.*\n(?:^ {6,}.*\n)*", re.M)
MARK = "°"

# The functions whose contracts are the theorem, each with its crate; and the two traits that the signature of `run` names.
FUNCTIONS = {"run": "moos_jobs", "run_law": "moos_jobs", "run_whole": "moos_top"}
TRAITS = {"Folder": "moos_files", "Sink": "moos_io"}


class Top:
    """The contracts of the top call, the two traits and the two types that its signature names, and what these rest on."""

    def __init__(self, space):
        self.space = space
        self.sources = {function: source_of(space, crate, function) for function, crate in FUNCTIONS.items()}
        self.contracts = {function: contract_of(function, source.text) for function, source in self.sources.items()}
        self.traits = {name: trait_of(space.types[crate, name]) for name, crate in TRAITS.items()}
        self.roots = [("type", "command_line", "Words"), ("type", "command_line", "Status")]
        for function, text in self.contracts.items():
            self.roots += space.spoken_of(self.sources[function], WORD.findall("".join(CLAUSE.findall(text))))
        for name, text in self.traits.items():
            self.roots += space.spoken_of(space.types[TRAITS[name], name].source, WORD.findall(re.sub("//.*", "", text)))
        self.seen = space.reached(self.roots)
        self.of_job = {job: space.reached(self.roots, job) for job in JOBS}

    def jobs_of(self, found):
        """The jobs that need one of these, unless all jobs do, with a mark if `play` isn't one of them."""
        jobs = [job for job in JOBS if self.of_job[job] & set(found)]
        mark = "" if "play" in jobs else f" {MARK}"
        return "" if len(jobs) == len(JOBS) else f"{mark} ({', '.join(jobs)})"

    def mark_of(self, at, beside):
        """A mark if `play` doesn't need this, and needs something beside it."""
        return MARK if at not in self.of_job["play"] and self.of_job["play"] & set(beside) else ""

    def definitions(self, seen):
        return [self.space.definition(at) for at in seen if at[0] == "definition"]

    def types(self):
        """The types that are listed: all but the traits, which are printed, and the aliases that only parts name, which are written out."""
        kinds = {at: self.space.types[at[1:]].kind for at in self.seen if at[0] == "type"}
        return {at for at, kind in kinds.items() if kind in ("struct", "enum") or kind == "type" and at in self.roots}


def source_of(space, crate, function):
    return next(source for source in space.sources[crate] if re.search(rf"^(?:pub )?fn {function}\b", source.text, re.M))


def contract_of(function, text):
    """The signature of a function with the comment above it and its contract, as they stand."""
    found = re.search(rf"^((?://[^\n]*\n)*)(?:#[^\n]*\n)*((?:pub )?fn {function}\b.*?)^{{", text, re.M | re.S)
    return found.group(1) + found.group(2)


def trait_of(it):
    return re.search(rf"^(?:///[^\n]*\n)*pub trait {it.name} .*?^}}", it.source.text, re.M | re.S).group()


def about_crate(crate):
    source = ROOT / "crates" / crate / "src"
    root = source / "lib.rt" if (source / "lib.rt").exists() else source / "main.rt"
    said = []
    for line in root.read_text().splitlines():
        if not re.match(r"//!? ", line):
            break
        said.append(re.sub(r"^//!? ", "", line))
    return "\n".join(said)


def definitions_of(space, crate, file, top=None):
    """The definitions of a file of specs/ that are listed, by what refers to them."""
    at = {("definition", crate, file, it.name): it for it in space.specs[crate, file].definitions}
    return {key: it for key, it in at.items() if top is None or key in top.seen}


def print_definitions(space, top=None):
    """All definitions, or those that the contracts of the top call rest on, with the types that they name."""
    for crate in space.crates:
        files = {file: definitions_of(space, crate, file, top) for file in space.files_in_order(crate)}
        types = types_in_order(space, top, crate) if top else []
        if not types and not any(files.values()):
            continue
        found = [*types, *(at for listed in files.values() for at in listed)]
        print(f"\n## {crate}{top.jobs_of(found) if top else ''}\n\n{about_crate(crate)}")
        if types:
            print("\nTypes of the code:\n")
        for at in types:
            it = space.types[at[1:]]
            print(f"- `{it.name}{it.generics}`{top.mark_of(at, found)}: {type_text(space, it)}")
        for file, listed in files.items():
            if listed:
                print_file(space, top, crate, file, listed)
        if top:
            print_constants(top, crate)


def print_file(space, top, crate, file, listed):
    print(f"\n### {file}{top.jobs_of(listed) if top else ''}\n\n{space.specs[crate, file].about}\n")
    for at, it in listed.items():
        if not it.comment:
            print(f"crates/{crate}/specs/{file}.antt: no comment above {it.name}", file=sys.stderr)
    if not top:
        for it in listed.values():
            print(f"- `{it.name}`: {it.comment}")
    else:
        print("```text\n" + "\n\n".join(definition_text(it, top.mark_of(at, listed)) for at, it in listed.items()) + "\n```")
    print_later(space, listed)


def definition_text(it, mark):
    """A definition as it stands, with the comment above it."""
    comment = textwrap.wrap(f"{mark} {it.comment}".strip(), 130, initial_indent="-- ", subsequent_indent="-- ", break_on_hyphens=False)
    return "\n".join([*comment, *it.lines])


def print_later(space, listed):
    """Which definitions of a file use one that stands below them."""
    place = {at: number for number, at in enumerate(listed)}
    for at in listed:
        later = sorted(other[3] for other in set(space.below(at)) if place.get(other, -1) > place[at])
        if later:
            print(f"\n`{at[3]}` uses what stands below it: {', '.join(f'`{name}`' for name in later)}.")


def types_in_order(space, top, crate):
    """The types of a crate that are listed, each behind those that it has as parts."""
    listed, found = top.types(), []

    def put(at):
        if at in listed and at[1] == crate and at not in found:
            for other in sorted(space.below(at)):
                put(other)
            found.append(at)

    for source in space.sources[crate]:
        for name in source.types:
            put(("type", crate, name))
    return found


def written_out(space, source, text):
    """A part of a type, with each alias written out."""

    def word(found):
        at = space.types_spoken_of(source, [found.group()])
        it = space.types[at[0][1:]] if at else None
        return written_out(space, it.source, it.target) if it and it.target else found.group()

    return re.sub(r"(?<![\w:])[A-Z]\w*", word, text)


def type_text(space, it):
    """What a type is, and its fields or variants with what is said of them; or what contracts see it as."""
    if it.seen_as:
        seen_as = WORD.sub(lambda found: it.source.imports.get(found.group(), (None, found.group()))[1], it.seen_as)
        return f"{it.comment}. Seen as `{seen_as}`"
    if it.target:
        return f"{it.comment}. It is `{written_out(space, it.source, it.target)}`"
    parts = [f"`{written_out(space, it.source, part)}`" + (f" ({said})" if said else "") for part, said in it.parts]
    return f"{it.comment}. {'Fields' if it.kind == 'struct' else 'Variants'}: {'; '.join(parts)}" if parts else it.comment


def print_constants(top, crate):
    """The constants of the code that definitions of this crate name, and the file that the repository's checks compare each with."""
    checks = (ROOT / ".ci" / "checks").read_text()
    for _, owner, file, name in sorted(at for at in top.seen if at[0] == "constant" and at[1] == crate):
        files = re.findall(rf"^survey {name} (\S+)$", checks, re.M)
        same = f" and has the bytes of examples/alpha/{files[0]}: `.ci/checks` compares them" if files else ""
        print(f"\nThe constant `{name}` is in crates/{owner}/src/{file}.rt{same}.")


def kit_names(top):
    """The kit's definitions that are named, crate by crate; an operator has its arguments at `◌`."""
    space, found = top.space, {}
    for at in top.seen:
        if at[0] == "kit":
            found.setdefault(at[1], set()).add(at[3])
        if at[0] == "definition":
            text = "\n".join(space.definition(at).lines)
            for path, name in space.specs[at[1], at[2]].imports.values():
                if "◌" in name and all(part in text for part in name.split("◌")):
                    found.setdefault(path[0], set()).add(name)
    return found


def print_kit(top):
    print("\n## The kit\n\nThe definitions of the kit that are named above: of a command line's words (clap), of the generator of draws (rand_pcg), and of")
    print("numbers, lists, options and texts (std).\n")
    for crate, names in sorted(kit_names(top).items()):
        names = sorted(names, key=lambda name: ("◌" not in name, name.lower()))
        print(f"- {crate}: {', '.join(f'`{name}`' for name in names)}")


def counted_in(top):
    """How many definitions, lines, types and constants the contracts rest on, and how many of them `play` needs."""
    listed = top.definitions(top.seen)
    played = top.definitions(top.of_job["play"])
    return {
        "definitions": f"{len(listed):,}",
        "lines": f"{sum(len(it.lines) for it in listed):,}",
        "types": f"{len(top.types()):,}",
        "constants": f"{sum(at[0] == 'constant' for at in top.seen)}",
        "parting": ", ".join(f"`{at[3]}`" for at in PARTING),
        "play_definitions": f"{len(played):,}",
        "play_lines": f"{sum(len(it.lines) for it in played):,}",
    }


def print_all():
    print(
        """# Definitions

What the contracts speak of: each definition of the specifications and what it means, crate by crate from the lowest, by the files of
the crate's `specs/`. `.ci/definitions` makes this page from the comments in these files."""
    )
    print_definitions(Workspace())


def print_run():
    space = Workspace()
    top = Top(space)
    head = (ROOT / ".ci" / "definitions_head.md").read_text().rstrip()
    for name, text in counted_in(top).items():
        head = head.replace(f"{{{name}}}", text)
    print(f"{head}\n\n{contracts_text(top)}\n\n{traits_text(top)}")
    print_definitions(space, top)
    print_kit(top)


def contracts_text(top):
    """The contracts of the top call, as they stand."""
    paths = {function: source.path.relative_to(ROOT) for function, source in top.sources.items()}
    parts = [f"The contract of `{function}`, in {paths[function]}:\n\n```text\n{text.rstrip()}\n```" for function, text in top.contracts.items()]
    return "\n\n".join(parts)


def traits_text(top):
    """The traits that the signature of the top call names, as they stand."""
    paths = {name: top.space.types[crate, name].source.path.relative_to(ROOT) for name, crate in TRAITS.items()}
    return "\n\n".join(f"The trait `{name}`, in {paths[name]}:\n\n```text\n{text}\n```" for name, text in top.traits.items())


def print_unreached():
    for crate, file, name in Workspace().unreached():
        print(f"crates/{crate}/specs/{file}.antt: no contract rests on {name}")
