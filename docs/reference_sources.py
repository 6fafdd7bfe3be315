"""Reads the `.rt` files for reference.py: their items, with docs and contracts.

What isn't understood is reported, and never passed over: each file's count of `pub` and of clauses
of contracts is compared with what was read of it.
"""
import dataclasses
import re
import textwrap

BLANKED = re.compile(r"//[^\n]*|\br(?P<mark>#*)\".*?\"(?P=mark)|\"(?:\\.|[^\"\\])*\""
                     r"|'(?:\\.[^'\n]*|[^'\\\n])'", re.S)
PUBLIC = r"(?P<public>pub(?P<inner>\([a-z]+\))?\s+)?"
HEAD = re.compile(PUBLIC + r"(?P<words>(?:(?:const|unsafe|extern|ghost)\s+)*)"
                  r"(?P<kind>(?<=ghost )\w+|[a-z_]+!?)")
FIELD = re.compile(PUBLIC + r"(?P<ghost>ghost\s+)?(?:(?P<name>\w+):)?")
CLAUSE = re.compile(r"(requires|ensures)\*?(\s+\w+)?\s*(?=\{)")
SHOWN_ATTRIBUTES = ("#[derive", "#[error", "#[repr", "#[unsafe")
HIDDEN_ATTRIBUTES = ("#[cold", "#[tactic", "#![tactic", "#[inline", "#[allow", "#[default")
CLAUSE_LINE = re.compile(r"^\s*(?:requires|ensures)\b", re.M)
OPENING, CLOSING = "([{", ")]}"


class NotUnderstood(Exception):
    """A construct of a source that this reader doesn't know, with its place."""


@dataclasses.dataclass
class Import:
    """A name that a `use` brings, and the path for which it stands."""
    name: str
    path: tuple
    public: bool
    line: int


@dataclasses.dataclass
class Item:
    """Something that a source declares: a module, a type, a function, a variant, a field .."""
    kind: str
    name: str
    line: int
    public: bool = False
    docs: list = dataclasses.field(default_factory=list)
    text: str = ""
    attributes: list = dataclasses.field(default_factory=list)
    contract: list = dataclasses.field(default_factory=list)
    children: list = dataclasses.field(default_factory=list)
    imports: list = dataclasses.field(default_factory=list)
    ghosts: list = dataclasses.field(default_factory=list)
    bounds: dict = dataclasses.field(default_factory=dict)
    parameters: tuple = ()
    of_trait: str = ""
    module: object = None
    parent: object = None
    crate: str = ""
    file: str = ""
    anchor: str = ""


def blanked(text):
    """The text with comments, strings and characters turned to spaces, so that brackets pair."""
    return BLANKED.sub(lambda match: re.sub(r"[^\n]", " ", match.group()), text)


def listed(text):
    """The parts of a list between commas that stand in no brackets."""
    parts, depth, start = [], 0, 0
    for at, char in enumerate(text):
        if char in OPENING + "<":
            depth += 1
        elif char in CLOSING or char == ">" and text[at - 1] != "-":
            depth -= 1
        elif char == "," and depth == 0:
            parts.append(text[start:at])
            start = at + 1
    parts.append(text[start:])
    return [part.strip() for part in parts if part.strip()]


def imports_of(tree, public, line, separator, prefix=()):
    """The imports of the tree behind a `use`: `a::b`, `a as b`, `a::{b, c::d}`, or with dots."""
    if tree.endswith("}"):
        path, inner = tree[:-1].split("{", 1)
        path = prefix + tuple(path.strip().removesuffix(separator).split(separator))
        return [found for branch in listed(inner)
                for found in imports_of(branch, public, line, separator, path)]
    path, _, name = tree.partition(" as ")
    path = prefix + tuple(path.strip().split(separator))
    if path[-1] == "self":
        path = path[:-1]
    return [Import(name.strip() or path[-1], path, public, line)]


class Reader:
    """Reads the items of one `.rt` file."""

    def __init__(self, file, text):
        """`file` is the name for messages."""
        self.file, self.text, self.bare = file, text, blanked(text)
        self.at = self.publics = self.clauses = 0

    def line(self, at=None):
        """The number of a place's line."""
        return self.text.count("\n", 0, self.at if at is None else at) + 1

    def fail(self, why):
        """Reports that the construct at this place isn't understood."""
        shown = self.text[self.at:].split("\n")[0].strip()
        raise NotUnderstood(f"{self.file}:{self.line()}: {why}: {shown}")

    def skip(self):
        """Goes behind the bracket that pairs with the one at this place."""
        depth = 0
        for at in range(self.at, len(self.bare)):
            depth += (self.bare[at] in OPENING) - (self.bare[at] in CLOSING)
            if depth == 0:
                self.at = at + 1
                return
        self.fail("a bracket without its pair")

    def until(self, stop, angles=False):
        """Goes to the first match of a pattern outside brackets, and answers what is before it."""
        start, depth, stop = self.at, 0, re.compile(stop)
        while depth or not stop.match(self.bare, self.at):
            if self.at >= len(self.bare):
                self.at = start
                self.fail("no end")
            char = self.bare[self.at]
            if char in OPENING:
                self.skip()
                continue
            if angles and char == "<":
                depth += 1
            elif angles and char == ">" and self.bare[self.at - 1] != "-":
                depth -= 1
            self.at += 1
        return self.text[start:self.at].strip()

    def take(self, pattern, what):
        """Goes behind a match of a pattern, which has to be at this place."""
        match = re.compile(pattern).match(self.bare, self.at)
        if not match:
            self.fail(f"{what} was looked for")
        self.at = match.end()
        return match

    def cut(self, start):
        """The text from a place to this one, without the indentation of its first line."""
        begin = self.text.rfind("\n", 0, start) + 1
        indent = re.match(r" *", self.text[begin:]).group()
        return textwrap.dedent(indent + self.text[start:self.at]).strip()

    def lead(self):
        """What stands before an item: its docs, the docs of what it is in, and its attributes."""
        docs, inner, attributes = [], [], []
        while True:
            self.at = re.compile(r"\s*").match(self.text, self.at).end()
            if self.text.startswith("//", self.at):
                start, self.at = self.at, self.text.find("\n", self.at)
                line = self.text[start:self.at]
                into = docs if line.startswith("///") else inner if line.startswith("//!") else []
                into.append(line[3:].removeprefix(" "))
            elif re.match(r"#!?\[", self.text[self.at:self.at + 3]):
                start, self.at = self.at, self.text.index("[", self.at)
                self.skip()
                attributes.append(self.text[start:self.at])
            else:
                break
        known = SHOWN_ATTRIBUTES + HIDDEN_ATTRIBUTES
        if unknown := [text for text in attributes if not text.startswith(known)]:
            self.fail(f"an unknown attribute {unknown[0]}")
        return docs, inner, [a for a in attributes if a.startswith(SHOWN_ATTRIBUTES)]

    def is_public(self, match):
        """Whether a declaration is `pub`, which is counted; `pub(crate)` isn't for readers."""
        self.publics += bool(match["public"])
        return bool(match["public"]) and not match["inner"]

    def items(self, owner, end):
        """Reads the items up to a closing brace or the end of the file, into their owner."""
        while True:
            docs, inner, attributes = self.lead()
            owner.docs += inner
            if self.at >= len(self.bare) or end and self.bare[self.at] == end:
                break
            head, start = HEAD.match(self.bare, self.at), self.at
            if not head:
                self.fail("an unknown item")
            item = Item(head["kind"].rstrip("!"), "", self.line(), self.is_public(head), docs,
                        attributes=attributes, file=self.file)
            self.at = head.end()
            if "ghost" in head["words"] and item.kind != "use":
                self.fact(item, owner, start)
            else:
                self.declaration(item, owner, start, "ghost" in head["words"])
        self.at += bool(end)

    def declaration(self, item, owner, start, ghost):
        """Reads the rest of an item by its kind."""
        if item.kind == "use":
            tree = re.sub(r"\s+", " ", self.until(";"))
            found = imports_of(tree, item.public, item.line, "." if ghost else "::")
            (owner.ghosts if ghost else owner.imports).extend(found)
            self.at += 1
            return
        kinds = {"mod": self.short, "const": self.short, "type": self.short, "fn": self.function,
                 "struct": self.struct, "enum": self.enum, "trait": self.trait, "impl": self.impl,
                 "bitflag_items": self.flags}
        if item.kind not in kinds:
            self.at = start
            self.fail("an unknown item")
        kinds[item.kind](item, start)
        owner.children.append(item)

    def name(self, item):
        """Reads the name of an item, and the bounds of its type parameters."""
        item.name = self.take(r"\s*(\w+)", "a name").group(1)
        self.generics(item)

    def generics(self, item):
        """Reads type parameters, if there are some."""
        if not self.bare.startswith("<", self.at):
            return
        self.at += 1
        for part in listed(self.until(">", angles=True)):
            name, _, bounds = part.partition(":")
            item.bounds[name.strip()] = [re.match(r"[\w:']*", b.strip()).group()
                                         for b in bounds.split("+")]
        self.at += 1

    def short(self, item, start):
        """Reads a constant, a type or the line of a module, which end at a semicolon."""
        self.name(item)
        self.until(";")
        item.text = self.cut(start)
        self.at += 1

    def function(self, item, start):
        """Reads a function: its signature and contract; its body is passed over."""
        self.name(item)
        begin = self.at
        self.skip()
        names = (re.match(r"(?:mut )?(\w+)\s*:", part)
                 for part in listed(self.bare[begin + 1:self.at - 1]))
        item.parameters = tuple(match.group(1) for match in names if match)
        self.until(r"\b(?:requires|ensures)\b|[{;]")
        item.text = self.cut(start)
        while match := CLAUSE.match(self.bare, self.at):
            begin, self.at = self.at, match.end()
            self.skip()
            item.contract.append(self.cut(begin))
            self.clauses += 1
            self.at = re.compile(r"\s*").match(self.bare, self.at).end()
        if self.bare[self.at] == "{":
            begin = self.at
            self.skip()
            self.clauses += len(CLAUSE_LINE.findall(self.bare[begin:self.at]))    # of closures
        else:
            self.take(";", "the body of a function")

    def fact(self, item, owner, start):
        """Reads a ghost fact of a trait, or its meaning in an impl: `ghost name: {..};`."""
        item.name, item.kind = item.kind, "fact"
        self.take(r"\s*[:=]\s*(?=\{)", "a ghost fact")
        self.skip()
        self.take(";", "the end of a ghost fact")
        item.text = self.cut(start).removesuffix(";")
        owner.children.append(item)

    def fields(self, owner, end):
        """Reads fields up to the closing bracket; those of a tuple are named by their places."""
        self.at += 1
        for place in range(len(self.bare)):
            docs, _, attributes = self.lead()
            if self.bare[self.at] == end:
                break
            match, start = FIELD.match(self.bare, self.at), self.at
            field = Item("ghost field" if match["ghost"] else "field", match["name"] or str(place),
                         self.line(), self.is_public(match), docs, attributes=attributes)
            self.at = match.end()
            self.until(r",|\)|\}", angles=not match["ghost"])
            field.text = self.cut(start)
            owner.children.append(field)
            self.at += self.bare[self.at] == ","
        self.at += 1

    def struct(self, item, start):
        """Reads a struct with its fields."""
        self.name(item)
        item.text = self.cut(start)
        if self.bare.startswith("(", self.at):
            self.fields(item, ")")
        elif self.take(r"\s*", "").end() and self.bare[self.at] == "{":
            self.fields(item, "}")
            return
        self.take(r"\s*;", "the end of a struct")

    def enum(self, item, start):
        """Reads an enum with its variants and their fields."""
        self.name(item)
        item.text = self.cut(start)
        self.take(r"\s*\{", "variants")
        while True:
            docs, _, attributes = self.lead()
            if self.bare[self.at] == "}":
                break
            begin = self.at
            variant = Item("variant", "", self.line(), True, docs, attributes=attributes)
            variant.name = self.take(r"(\w+)\s*", "a variant").group(1)
            variant.text = variant.name
            if self.bare[self.at] == "{":
                self.fields(variant, "}")
            else:
                self.until(r",|\}")
                variant.text = self.cut(begin)
            self.take(r",?", "")
            item.children.append(variant)
        self.at += 1

    def trait(self, item, start):
        """Reads a trait with its facts and functions, which are as public as it is."""
        self.name(item)
        self.until(r"\{")
        item.text = self.cut(start)
        self.at += 1
        self.items(item, "}")
        for child in item.children:
            child.public = item.public

    def impl(self, item, start):
        """Reads an impl: of which type, of which trait if of one, and what is in it."""
        self.generics(item)
        head = self.until(r"\{")
        item.text = self.cut(start)
        trait, _, target = head.rpartition(" for ")
        item.of_trait = trait.strip()
        item.name = re.match(r"\w*(?:::\w+)*", target.strip()).group()
        self.at += 1
        self.items(item, "}")

    def flags(self, item, start):
        """Reads the flags that `bitflag_items!` makes constants of a type."""
        self.take(r"\s*\{\s*impl", "flags")
        item.kind = "impl"
        self.impl(item, start)
        for child in item.children:
            child.public = True
        self.take(r"\s*\}", "the end of flags")

    def counted(self):
        """Tests that each `pub` and each clause of the file was read."""
        publics = len(re.findall(r"\bpub\b", self.bare))
        clauses = len(CLAUSE_LINE.findall(self.bare))
        if (publics, clauses) != (self.publics, self.clauses):
            raise NotUnderstood(f"{self.file}: {self.publics} of {publics} `pub` were read, and "
                                f"{self.clauses} of {clauses} clauses of contracts")


def read_module(folder, path, module, problems, read):
    """Reads the file of a module, and those of the modules that it names."""
    read.add(path)
    module.file = str(path.relative_to(folder.parent.parent.parent))
    reader = Reader(module.file, path.read_text(encoding="utf-8"))
    try:
        reader.items(module, "")
        reader.counted()
    except NotUnderstood as problem:
        problems.append(str(problem))
    below = path.parent if path.stem in ("lib", "main") else path.parent / path.stem
    for child in [child for child in module.children if child.kind == "mod"]:
        read_module(folder, below / f"{child.name}.rt", child, problems, read)


def read_sources(folder, problems):
    """The root module of a crate, by its folder."""
    source = folder / "src"
    root = Item("mod", "", 1, True)
    first = [source / name for name in ("lib.rt", "main.rt") if (source / name).is_file()]
    if len(first) != 1:
        problems.append(f"crates/{folder.name}: not one of src/lib.rt and src/main.rt")
        return root
    read = set()
    read_module(source, first[0], root, problems, read)
    for path in sorted(set(source.rglob("*.rt")) - read):
        problems.append(f"crates/{folder.name}: no module of {path.relative_to(folder)}")
    return root
