"""How the texts of the crates are read: the definitions of a file of specs/, and the types of a source file with their comments."""
import re

WORD = re.compile(r"[A-Za-z_][A-Za-z0-9_'-]*")
OPENING = re.compile(r"(?:abbrev pub|unfoldable pub|pub record|pub data|pub) (?!mod )([^ :]+)")
CONSTRUCTOR = re.compile(r"^ +(\w+) :", re.M)
BLOCK = re.compile(r"(?:(?:abbrev|unfoldable) )?mutual|module .* where")
IMPORT = re.compile(r"^ *(?:ghost )?use Rattle\.([\w.]+)\.\{(.*)\};?$", re.M)
USE = re.compile(r"^ *(?:pub(?:\(\w+\))? )?use ([\w:]+?)(?:::\{([^{}]*)\})?;$", re.M)
TYPE = re.compile(r"^(?:pub(?:\(\w+\))? )?(struct|enum|trait|type) (\w+)", re.M)
PATTERNS = {"zero", "suc", "pos", "negsuc", "true", "false"}
VISIBILITY = re.compile(r"^pub(?:\(\w+\))? ")


def imports_of(text):
    """Each name that is imported from a specification, with the path of the module and the name that it has there."""
    found = {}
    for path, names in IMPORT.findall(text):
        for name in names.split(","):
            there, _, here = name.strip().partition(" as ")
            found[here or there] = (path.split("."), there)
    return found


def uses_of(text):
    """Each name that a source file uses of another one, with the crate (`crate` for its own) and the name that it has there."""
    found = {}
    for path, names in USE.findall(text):
        crate, *rest = path.split("::")
        for name in names.split(",") if names else rest[-1:]:
            there, _, here = name.strip().partition(" as ")
            found[here or there] = (crate, there)
    return found


class Definition:
    """A definition: its name, the comment above it, and its lines."""

    def __init__(self, name, comment):
        self.name, self.comment, self.lines = name, comment, []

    def clauses(self):
        """The signature and each equation, or the head and each field, with the lines that go on with it."""
        found = []
        for line in self.lines:
            line = re.sub(r"--.*", "", line)
            if found and line.startswith("    "):
                found[-1] += "\n" + line
            else:
                found.append(line)
        return found

    def constructors(self):
        text = "\n".join(self.lines)
        return CONSTRUCTOR.findall(text) if self.lines[0].startswith("pub data") else []

    def words(self, of_line=None):
        """The words by which the clauses, or some of the lines, may refer to something: no field, no label of one, and no variable."""
        found, above = set(), set()
        for clause in filter(of_line, self.lines) if of_line else self.clauses():
            field = re.match(r" +pub (\w+) :", clause)
            said = re.sub(rf"\.{WORD.pattern}", " ", re.sub(r"λ ([^.]*)\.", r"λ \1 ", clause[field.end() :] if field else clause))
            said = re.sub(rf"([{{;]\s*){WORD.pattern} = ", r"\1", said)
            variables = variables_of(self.name, clause)
            found |= set(WORD.findall(said)) - variables - above
            # The fields of a record may speak of its parameters and of those above them.
            above |= {field.group(1)} if field else variables if clause.startswith("pub record") else set()
        return found


def variables_of(name, clause):
    """The variables of a clause: what is on the left of its equation, behind a λ or a `let`, or before a `:` in parentheses."""
    places = re.findall(r"λ ([^.]*)\.|\blet ([^=]*?) = |[({]((?:[\w'-]+ )+): ", clause)
    if left := re.match(rf"{re.escape(name)}((?: [^=]*)?) = ", clause):
        places.append((left.group(1),))
    found = {word for place in places for part in place for word in WORD.findall(part.partition(" : ")[0])}
    return {word for word in found if not word[0].isupper()} - PATTERNS


class Spec:
    """A file of specs/: what its first comment says, what it imports, and its definitions in their order."""

    def __init__(self, path):
        text = path.read_text()
        self.imports = imports_of(text)
        self.about, self.definitions = None, []
        comment, in_block = [], False
        for line in text.splitlines():
            if line[:1] not in ("", " "):
                in_block = BLOCK.fullmatch(line) is not None
            if in_block and line.startswith("  "):
                line = line[2:]
            if line.startswith("-- "):
                comment.append(line[3:])
                continue
            if self.about is None:
                self.about, comment = " ".join(comment), []
            if opened := OPENING.match(line):
                self.definitions.append(Definition(opened.group(1), " ".join(comment).removesuffix(".")))
            if self.definitions and line.strip():
                self.definitions[-1].lines.append(line)
            comment = []
        self.owner = {name: it for it in self.definitions for name in (it.name, *it.constructors())}


class CodeType:
    """A type of the code: its comment, its fields or variants with theirs, and what contracts see it as, if it has a model.

    An alias has what it stands for in `target`. Each part is a pair of its text and its comment."""

    def __init__(self, kind, name, source, at):
        self.kind, self.name, self.source = kind, name, source
        self.comment = comment_above(source.text[:at])
        text = re.match(r".*?(?:^}|;$)", source.text[at:], re.M | re.S).group()
        self.generics = re.match(rf".*?\b{name}(<[^>]*>)?", text).group(1) or ""
        self.target = " ".join(text.partition(" = ")[2].rstrip(";").split()) if kind == "type" else None
        self.parts = parts_of(text.partition("{")[2].rpartition("}")[0]) if kind in ("struct", "enum") else []
        model = re.search(rf"^impl(?:<[^{{]*?>)? Model for {name}\b.*?^}}", source.text, re.M | re.S)
        value = re.search(r"ghost Value = \{(.*?)\};", model.group(), re.S) if model else None
        self.seen_as = " ".join(value.group(1).split()) if value else None

    def words(self):
        """The words by which the type refers to other types: of its model's value, or of its parts without their own names."""
        if self.seen_as:
            return set(WORD.findall(self.seen_as))
        texts = [self.target] if self.target else [part for part, _ in self.parts]
        return {word for text in texts for word in WORD.findall(re.sub(r"^\w+|\w+:(?!:)", " ", text) if self.parts else text)}


def comment_above(text):
    lines = []
    for line in reversed(text.splitlines()):
        if said := re.match(r" *///? ?(.*)", line):
            lines.append(said.group(1))
        elif not line.strip().startswith("#["):
            break
    return " ".join(" ".join(reversed(lines)).split()).removesuffix(".")


def parts_of(body):
    """The fields or variants between the braces of a type. The comment of a field inside a variant goes to the variant's."""
    found, text, said, inner, depth = [], "", [], [], 0
    for line in body.splitlines():
        line = line.strip()
        if comment := re.match(r"///? ?(.*)", line):
            (inner if depth else said).append(comment.group(1))
        elif line and not line.startswith("#["):
            if inner:
                said.append(f"`{line.partition(':')[0]}`: {' '.join(inner)}")
                inner = []
            text += " " + VISIBILITY.sub("", line)
            depth += sum(line.count(sign) for sign in "{(<[") - sum(line.count(sign) for sign in "})>]")
            if depth == 0:
                part = text.strip().rstrip(",").replace(", }", " }")
                found.append((part, " ".join(said).removesuffix(".")))
                text, said = "", []
    return found


class Source:
    """A source file: its types, and what it imports of specifications and of other source files."""

    def __init__(self, crate, path):
        self.crate, self.path, self.text = crate, path, path.read_text()
        self.imports, self.uses = imports_of(self.text), uses_of(self.text)
        self.types = {found.group(2): CodeType(*found.groups(), self, found.start()) for found in TYPE.finditer(self.text)}
