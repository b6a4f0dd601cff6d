"""docs/TRUSTED.md: the parts of it that are made, and what of the part that a person writes can be held against the definitions.

A made part stands between `<!-- made: NAME -->` and `<!-- end -->`. The rows of definitions are those of three cells of which the first
has names alone: names, a sentence, a line of formula. Each definition of the crates in `FRAME` that the contracts rest on has a row, and
so has each of another crate that one of these names. `.ci/told.txt` has a sum of the lines of each definition that has a row, taken when
somebody last read the row beside it. Of three other pages it is held that what they name in code is somewhere in the crates."""
import hashlib
import re

from pages import Top, contracts_text, counted_in
from reading import WORD
from workspace import JOBS, ROOT, Workspace

PAGE = ROOT / "docs" / "TRUSTED.md"
TOLD = ROOT / ".ci" / "told.txt"
FRAME = {"moos_io", "moos_files", "command_line", "moos_jobs"}
MADE = re.compile(r"(<!-- made: (\w+) -->\n)(?:(?!<!-- made).)*?(<!-- end -->)", re.S)
NAMES = re.compile(r"`[\w']+`(?:, `[\w']+`)*")
CODE = re.compile(r"`([^`]+)`")


def counts_text(top):
    counted = counted_in(top)
    told = to_be_told(top)
    lines = sum(len(top.space.definition(at).lines) for at in told)
    return (
        f"The contracts rest on {counted['definitions']} definitions with {counted['lines']} lines, {counted['types']} types of the code and "
        f"{counted['constants']} constants.\n`play` alone needs {counted['play_definitions']} definitions with {counted['play_lines']} lines. "
        f"This page tells {len(told)} definitions, with {lines} lines."
    )


def files_text(top):
    """The files of definitions by the jobs that need them, each with how many lines of it the contracts rest on."""
    groups = {}
    for at in sorted(at for at in top.seen if at[0] == "definition"):
        groups.setdefault(at[1:3], []).append(at)
    rows = {}
    for (crate, file), listed in groups.items():
        jobs = tuple(job for job in JOBS if top.of_job[job] & set(listed))
        lines = sum(len(top.space.definition(at).lines) for at in listed)
        rows.setdefault(jobs, {}).setdefault(crate, []).append((file, lines))
    out = ["| jobs | crate | files, each with its lines |", "|---|---|---|"]
    for jobs in sorted(rows, key=lambda jobs: (-len(jobs), [list(JOBS).index(job) for job in jobs])):
        for crate in sorted(rows[jobs], key=top.space.crates.index):
            files = ", ".join(f"{file} {lines}" for file, lines in rows[jobs][crate])
            out.append(f"| {'all' if len(jobs) == len(JOBS) else ', '.join(jobs)} | `{crate}` | {files} |")
    return "\n".join(out)


PARTS = {"contracts": contracts_text, "counts": counts_text, "files": files_text}


def filled(text, top):
    """The page with its made parts made anew."""
    return MADE.sub(lambda found: found.group(1) + PARTS[found.group(2)](top) + "\n" + found.group(3), text)


def to_be_told(top):
    """The definitions that need a row: those of the frame, and those that these name."""
    frame = [at for at in top.seen if at[0] == "definition" and at[1] in FRAME]
    return {other for at in frame for other in (at, *top.space.below(at)) if other[0] == "definition"}


def rows_of(text):
    """The rows of definitions: their names, and their formulas."""
    for line in MADE.sub("", text).splitlines():
        cells = [cell.strip() for cell in line.strip("|").split(" | ")] if line.startswith("| `") else []
        if len(cells) == 3 and NAMES.fullmatch(cells[0]):
            yield CODE.findall(cells[0]), cells[2]


def sum_of(it):
    return hashlib.sha256("\n".join(it.lines).encode()).hexdigest()[:12]


def sums_of(text, top):
    """The sum of each definition that has a row."""
    named = named_in(top)
    return {name: sum_of(top.space.definition(at)) for names, _ in rows_of(text) for name in names for at in named.get(name, [])[:1]}


def named_in(top):
    """The definitions that the contracts rest on, by name: those to be told first."""
    found, told = {}, to_be_told(top)
    for at in sorted((at for at in top.seen if at[0] == "definition"), key=lambda at: (at not in told, at)):
        found.setdefault(at[3], []).append(at)
    return found


def faults_of(text, top):
    """What is out of order in the page."""
    if filled(text, top) != text:
        yield "its made parts are out of date: run .ci/definitions --fill"
    named, seen = named_in(top), set()
    for names, formula in rows_of(text):
        known = set(names)
        for name in names:
            if name not in named:
                yield f"the row of `{name}`: the contracts rest on no such definition"
            elif name in seen:
                yield f"`{name}` has two rows"
            seen.add(name)
            known |= {word for at in named.get(name, []) for word in WORD.findall(" ".join(top.space.definition(at).lines))}
        for word in WORD.findall(" ".join(CODE.findall(formula))):
            if word not in known:
                yield f"the row of `{names[0]}`: no definition of this row has the word `{word}`"
    for at in sorted(to_be_told(top)):
        if at[3] not in seen:
            yield f"`{at[3]}` of {at[1]}, specs/{at[2]}, has no row"
    told = dict(line.split() for line in TOLD.read_text().splitlines())
    for name, now in sums_of(text, top).items():
        if told.get(name) != now:
            yield f"`{name}` isn't what it was when its row was last read: read the row, and run .ci/definitions --told"
    for name in told.keys() - seen:
        yield f".ci/told.txt has `{name}`, which has no row: run .ci/definitions --told"


def words_known():
    """The words of the crates and of their table, and the names of what stands beside them."""
    crates = ROOT / "crates"
    files = [*crates.glob("*/src/**/*.rt"), *crates.glob("*/specs/**/*.antt"), *crates.glob("*/proofs/**/*.antt"), ROOT / "crates.txt"]
    known = {word for file in files for word in WORD.findall(file.read_text())}
    return known | {path.name for path in ROOT.iterdir()} | {path.stem for path in crates.glob("*/must-fail/*.edit")}


def unknown_names(text, known):
    """Names in code, outside blocks, that nothing in the repository has: those with a capital, a `_` or a `::`."""
    for code in CODE.findall(re.sub(r"^```.*?^```", "", MADE.sub("", text), flags=re.M | re.S)):
        if re.fullmatch(r"[\w']*[^\W_](?:::\w+)*", code) and re.search(r"[A-Z_]|::", code) and not set(code.split("::")) <= known:
            yield f"nothing has the name `{code}`"


def print_faults():
    top = Top(Workspace())
    for fault in faults_of(PAGE.read_text(), top):
        print(f"docs/TRUSTED.md: {fault}")
    known = words_known()
    for page in (PAGE, *(PAGE.with_name(f"{name}.md") for name in ("PROOFS", "SAFETY", "DECISIONS"))):
        for fault in unknown_names(page.read_text(), known):
            print(f"docs/{page.name}: {fault}")


def fill():
    PAGE.write_text(filled(PAGE.read_text(), Top(Workspace())))


def tell():
    sums = sums_of(PAGE.read_text(), Top(Workspace()))
    TOLD.write_text("".join(f"{name} {sums[name]}\n" for name in sorted(sums)))
