"""Finds what names stand for, for reference.py: paths of Rattle, identifiers of contracts."""
import dataclasses
import re
import urllib.parse

from reference_definitions import Definition, SpecFile
from reference_sources import Item

TYPES = ("struct", "enum", "trait", "type")
BINDERS = re.compile(r"λ ([^.]*)\.|[({]([^(){}:;]+) : |\blet (\S+) =")
PATTERNS = re.compile(r"^\S+ ([^=\n]+) = ", re.M)


@dataclasses.dataclass
class Crate:
    """A crate: its modules, its files of definitions, and the crates that it stands on."""
    name: str
    root: Item
    specs: list
    below: list
    layer: int = 0


def shown(item):
    """Whether an item has a place in the reference."""
    return bool(item.anchor) or item.kind == "mod" and not item.name


def href(target):
    """The address of an item or a definition, or None where it has no place."""
    if isinstance(target, Item) and not shown(target):
        return None
    anchor = f"specs.{target.name}" if isinstance(target, SpecFile) else target.anchor
    return f"{target.crate}.html" + (f"#{urllib.parse.quote(anchor)}" if anchor else "")


class Names:
    """The names of all crates."""

    def __init__(self, crates):
        """Gives each item its place, and each type its impls."""
        self.crates = {crate.name: crate for crate in crates}
        self.definitions, self.given, self.anchors = {}, {}, set()
        for crate in crates:
            self.place(crate.root, crate.name, True, "")
            for spec in crate.specs:
                self.place_definitions(spec, crate.name)
        for crate in crates:
            self.place_impls(crate.root)

    def anchor(self, crate, wanted):
        """A place's name on a page, which no other place there has."""
        name, count = wanted, 1
        while (crate, name) in self.anchors:
            count += 1
            name = f"{wanted}-{count}"
        self.anchors.add((crate, name))
        return name

    def place(self, module, crate, reached, prefix):
        """Gives the items of a module their places; those that can't be reached get none."""
        module.crate, module.module = crate, module.module or module
        for item in module.children:
            item.crate, item.module, item.parent = crate, module, module
            if item.kind == "impl":
                continue
            if reached and item.public:
                item.anchor = self.anchor(crate, prefix + item.name)
            if item.kind == "mod":
                item.module = item
                self.place(item, crate, reached and item.public, f"{prefix}{item.name}.")
            else:
                self.place_children(item, item.children)

    def place_children(self, owner, children):
        """Gives what is in a type or an impl its place, if it is public and the owner has one."""
        for child in children:
            child.crate, child.module, child.parent = owner.crate, owner.module, owner
            child.file = child.file or owner.file
            if owner.anchor and (child.public or owner.of_trait):
                child.anchor = self.anchor(owner.crate, f"{owner.anchor}.{child.name}")
            self.place_children(child, child.children)

    def place_impls(self, module):
        """Gives each impl to its type, or to its module where that has another one's type."""
        for item in module.children:
            if item.kind == "mod":
                self.place_impls(item)
            if item.kind != "impl":
                continue
            target = self.walk(module, item.name.split("::"))
            own = target is not None and target.crate == module.crate
            if own and not target.anchor:
                continue
            item.parent = target if own else module
            if own and not item.of_trait:
                item.anchor = target.anchor
            elif shown(module):
                trait = re.sub(r"\W+", "-", item.of_trait).strip("-")
                base = target.anchor if own else f"{module.anchor}.{item.name}".strip(".")
                item.anchor = self.anchor(item.crate, f"{base}.{trait}")
            self.given.setdefault(id(item.parent), []).append(item)
            self.place_children(item, item.children)

    def impls(self, item):
        """The impls of a type, or those of a module for types of other modules."""
        return self.given.get(id(item), [])

    def place_definitions(self, spec, crate):
        """Gives the definitions of a file their places, and notes the names of their cases."""
        spec.crate = crate
        names = self.definitions[id(spec)] = {}
        for definition in spec.definitions:
            definition.crate = crate
            if definition.public:
                definition.anchor = self.anchor(crate, f"specs.{spec.name}.{definition.name}")
                names[definition.name] = definition
        for definition in spec.definitions:
            for constructor in definition.constructors():
                names.setdefault(constructor, definition)

    def find(self, module, name, seen=()):
        """What a name stands for in a module: an item of it, or what a `use` brings."""
        for item in module.children:
            if item.name == name and item.kind != "impl":
                return item
        if (id(module), name) in seen:
            return None
        for found in module.imports:
            if found.name == name:
                return self.walk(module, found.path, (*seen, (id(module), name)))
        return None

    def walk(self, module, path, seen=()):
        """What a path of Rattle stands for in a module, or None."""
        first, *rest = path
        if first == "crate":
            current = self.crates[module.crate].root
        elif first in ("self", "super"):
            current = module if first == "self" else module.parent
        else:
            current = self.find(module, first, seen)
            if current is None and first in self.crates:
                current = self.crates[first].root
        for name in rest:
            current = current and self.step(current, name, seen)
        return current

    def step(self, owner, name, seen=()):
        """What a name stands for behind a module or a type, or None."""
        if owner.kind == "mod":
            return self.find(owner, name, seen)
        if owner.kind == "type":
            aliased = re.search(r"= ([\w:]+)", owner.text)
            target = aliased and self.walk(owner.module, aliased.group(1).split("::"), seen)
            return target and self.step(target, name, seen)
        inherent = [impl for impl in self.impls(owner) if not impl.of_trait]
        traits = [impl for impl in self.impls(owner) if impl.of_trait]
        for place in [owner, *inherent, *traits]:
            for child in place.children:
                if child.name == name:
                    return child
        return None

    def is_ours(self, found):
        """Whether an import of definitions names some of the repository that a writer wrote."""
        path = found.path
        return path[0] == "Rattle" and path[1] in self.crates and path[2] == "specs" \
            and path[3] not in ("contracts", "given")

    def ghost(self, path, seen=()):
        """What a path to a definition stands for: a file, a definition, or an item; or None."""
        crate = self.crates.get(path[1]) if len(path) > 3 else None
        if path[0] != "Rattle" or crate is None:
            return None
        if path[3] == "declared":
            return self.declared(crate, path[4:])
        for length in range(4, len(path) + 1):
            spec = next((spec for spec in crate.specs if spec.name == ".".join(path[3:length])), None)
            if spec:
                return self.defined(spec, path[length], seen) if length < len(path) else spec
        return None

    def defined(self, spec, name, seen=()):
        """A definition of a file, or one that it hands on; or None."""
        if name in self.definitions[id(spec)]:
            return self.definitions[id(spec)][name]
        for found in spec.imports:
            if found.public and found.name == name and (id(spec), name) not in seen:
                return self.ghost(found.path, (*seen, (id(spec), name)))
        return None

    def declared(self, crate, path):
        """The item for which the checker declares a type, its variants or a constant."""
        current = crate.root
        for name in path:
            if name in ("TheVariants", "TheConstants") or current is None:
                continue
            if current.kind in TYPES and name == current.name:
                continue
            current = self.step(current, name)
        return current


class Scope:
    """What identifiers stand for at one place, in Rattle and in contracts."""

    def __init__(self, names, item=None, spec=None):
        """The place is an item of a source, or a file of definitions."""
        self.names, self.spec = names, spec
        self.module = item.module if item else None
        self.hidden, self.ghosts, self.bounds = {"self", "result"}, {}, {}
        if spec:
            self.ghosts = {found.name: found.path for found in spec.imports}
        owners = []
        while item is not None and item.kind != "mod":
            owners.append(item)
            item = item.parent
        for owner in [self.module, *reversed(owners)] if self.module else []:
            self.ghosts.update({found.name: found.path for found in owner.ghosts})
            self.bounds.update(owner.bounds)
            self.hidden.update(owner.parameters)
        self.owners = owners

    def hiding(self, text):
        """This scope without the names that are bound in a text."""
        scope = Scope.__new__(Scope)
        scope.__dict__.update(self.__dict__)
        bound = " ".join(" ".join(filter(None, found)) for found in BINDERS.findall(text))
        bound = re.sub(r" : [^()]*\)", " ", bound)
        patterns = re.findall(r"[^\s(){};,=]+", " ".join(PATTERNS.findall(text)))
        scope.hidden = self.hidden | set(re.findall(r"[^\s(){}:,]+", bound)) \
            | {name for name in patterns if name[0].islower() and "." not in name}
        return scope

    def rattle(self, path):
        """The item that a path of Rattle names, or None."""
        parts = path.split("::")
        if parts[0] == "Self":
            owner = next((owner for owner in self.owners if owner.kind in (*TYPES, "impl")), None)
            if owner is not None and owner.kind == "impl" and owner.parent.kind != "mod":
                owner = owner.parent
            return self.names.step(owner, parts[1]) if owner is not None and parts[1:] else None
        return self.names.walk(self.module, parts) if self.module else None

    def contract(self, token):
        """What an identifier of a contract stands for, and how many of its parts name that."""
        parts = token.split(".")
        if parts[0] in self.hidden or not parts[0]:
            return None, 0
        target = self.names.ghost(self.ghosts[parts[0]]) if parts[0] in self.ghosts else None
        if target is None and self.spec:
            target = self.names.defined(self.spec, parts[0])
        if target is None and parts[0] not in self.ghosts:
            target = self.fact(parts) or self.named(parts[0])
        if len(parts) > 1 and parts[1] and target is not None:
            inner = self.inner(target, parts[1])
            if inner is not None:
                return inner, 2
        return (None, 0) if isinstance(target, (SpecFile, type(None))) else (target, 1)

    def inner(self, target, name):
        """What a name stands for behind the name of a file or a type."""
        if isinstance(target, SpecFile):
            return self.names.defined(target, name)
        if isinstance(target, Definition) or target.kind not in (*TYPES, "mod"):
            return None
        found = self.names.step(target, name)
        return found if found is None or found.kind in ("variant", "const", "fact", "fn") else None

    def fact(self, parts):
        """A fact of the trait in which the place is, or the trait that bounds a type parameter."""
        for bound in self.bounds.get(parts[0], []):
            trait = self.names.walk(self.module, bound.split("::")) if bound else None
            if trait is not None and len(parts) > 1 and self.names.step(trait, parts[1]):
                return trait
        for owner in self.owners:
            for child in owner.children if owner.kind == "trait" else []:
                if child.kind == "fact" and child.name == parts[0]:
                    return child
        return None

    def named(self, name):
        """An item of Rattle that a contract names: a type or a constant."""
        found = self.names.walk(self.module, [name]) if self.module else None
        return found if found is not None and found.kind in (*TYPES, "const") else None
