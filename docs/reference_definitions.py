"""Reads the `.antt` files for reference.py: their definitions, with the comments above them."""
import dataclasses
import re

from reference_sources import NotUnderstood, imports_of


@dataclasses.dataclass
class Definition:
    """A definition of an `.antt` file, or a heading among them: then its kind is `heading`."""
    kind: str
    name: str
    line: int
    public: bool
    comment: list
    lines: list
    context: str = ""
    crate: str = ""
    anchor: str = ""

    def constructors(self):
        """The names of its cases, if it is a `data`."""
        if self.kind != "data":
            return []
        found = (re.match(r"  ([^\s(){}:-][^\s(){}:]*) :", line) for line in self.lines)
        return [match.group(1) for match in found if match]


@dataclasses.dataclass
class SpecFile:
    """A file of definitions."""
    name: str
    path: str
    comment: list
    imports: list
    definitions: list
    crate: str = ""


class SpecReader:
    """Reads the definitions of one `.antt` file, line by line."""

    DECLARED = re.compile(
        r"(?:abbrev |unfoldable )?(pub )?(?:(data|record) )?([^\s(){}:]+)(?= [:({]|$)")

    def __init__(self, file, text):
        """`file` is the name for messages."""
        self.spec = SpecFile(file.rpartition("/")[2].removesuffix(".antt"), file, [], [], [])
        self.text, self.comment, self.current, self.context, self.modules = text, [], None, "", []

    def read(self):
        """Reads all lines."""
        for number, line in enumerate(self.text.split("\n"), 1):
            if self.context and re.match(r"\S", line):
                self.context = ""
            self.line(number, line.removeprefix("  ") if self.context else line)
        return self.spec

    def line(self, number, line):
        """Reads one line."""
        if line.startswith("--"):
            self.comment.append(line[2:].removeprefix(" "))
            self.current = None
        elif not line.strip():
            if self.comment:
                self.heading(number)
        elif self.goes_on(line):
            if not self.current:
                raise NotUnderstood(f"{self.spec.path}:{number}: of no definition: {line}")
            self.current.lines.append(line)
        elif match := re.match(r"(pub )?use (.*)$", line):
            self.spec.comment += self.comment
            self.comment = []
            self.spec.imports += imports_of(match[2], bool(match[1]), number, ".")
        elif match := re.match(r"module _ (.*) where$", line):
            self.context = match[1]
        elif match := re.match(r"pub mod (\w+)$", line):
            self.modules.append(match[1])
        else:
            self.declaration(number, line)

    def goes_on(self, line):
        """Whether a line belongs to the definition above it."""
        head = f"{self.current.name} " if self.current else " "
        return re.match(r"[ )}\]]", line) or line.startswith(head)

    def heading(self, number):
        """Keeps a comment with a blank line behind it: the file's own, or a heading."""
        if self.spec.definitions or self.spec.comment:
            self.spec.definitions.append(
                Definition("heading", "", number, False, self.comment, [], self.context))
        else:
            self.spec.comment = self.comment
        self.comment = []

    def declaration(self, number, line):
        """Begins a definition."""
        match = self.DECLARED.match(line)
        if not match:
            raise NotUnderstood(f"{self.spec.path}:{number}: an unknown definition: {line}")
        self.current = Definition(match[2] or "definition", match[3], number, bool(match[1]),
                                  self.comment, [line], self.context)
        self.spec.definitions.append(self.current)
        self.comment = []


def count_read(spec, text):
    """Tests that each `pub` of a file was read."""
    read = sum(definition.public for definition in spec.definitions)
    read += sum(bool(re.match(r" +pub ", line))
                for definition in spec.definitions for line in definition.lines[1:])
    written = len(re.findall(r"^ *(?:\w+ )?pub (?!use |mod )", text, re.M))
    if read != written:
        raise NotUnderstood(f"{spec.path}: {read} of {written} `pub` were read")


def read_specs(folder, problems):
    """The files of definitions of a crate, in the order of its `Lib.antt`; a folder's files where its name stands."""
    specs = folder / "specs"
    found, modules = {}, {}
    for path in sorted(specs.rglob("*.antt")):
        text = path.read_text(encoding="utf-8")
        reader = SpecReader(str(path.relative_to(folder.parent.parent)), text)
        try:
            spec = reader.read()
            count_read(spec, text)
        except NotUnderstood as problem:
            problems.append(str(problem))
            continue
        spec.name = ".".join(path.relative_to(specs).with_suffix("").parts)
        modules[spec.name] = reader.modules
        if spec.name != "Lib" and not path.with_suffix("").is_dir():
            found[spec.name] = spec

    def in_order(name, prefix):
        for module in modules.get(name, []):
            yield prefix + module
            if prefix + module not in found:
                yield from in_order(prefix + module, f"{prefix}{module}.")

    order = [name for name in in_order("Lib", "") if name in found]
    problems += [f"{spec.path}: not in Lib.antt" for name, spec in found.items() if name not in order]
    return [found[name] for name in order]
