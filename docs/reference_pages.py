"""Makes the pages of reference.py: the items and definitions of crates as HTML."""
import html
import re
import urllib.parse

from reference_definitions import SpecFile
from reference_names import Names, Scope, href, shown
from reference_sources import Item

SHOWN = ("const", "type", "struct", "enum", "trait", "fn")
KINDS = {"mod": "module", "fact": "ghost fact"}
INLINE = re.compile(r"\[(?P<mark>`?)(?P<text>[^\]`]+)(?P=mark)\](?:\((?P<to>[^)\s]+)\))?"
                    r"|`(?P<code>[^`]+)`")
RATTLE = re.compile(r"'?[A-Za-z_]\w*(?:::[A-Za-z_]\w*)*")
CONTRACT = re.compile(r"[^\s(){}\[\];,\"]+")


def escaped(text):
    """Text for HTML."""
    return html.escape(text, quote=False)


def linked(target, text, kind=""):
    """Text as a link to what it stands for, if that has a place."""
    address = target and href(target)
    named = f' class="{kind}"' if kind else ""
    return f'<a{named} href="{address}">{escaped(text)}</a>' if address else escaped(text)


def place(item):
    """The attribute that names the place of an item on its page, if it has one."""
    return f' id="{html.escape(item.anchor)}"' if item.anchor else ""


def rattle(text, scope, own=""):
    """A signature, with links to the types, traits and constants that it names."""
    done, parts = 0, []
    for match in RATTLE.finditer(text):
        name, behind = match.group(), text[match.end():match.end() + 2]
        if name == own or name[0] == "'" or re.match(r":[^:]", behind):
            continue
        target = scope.rattle(name)
        if target is not None and target.kind in SHOWN and target.kind != "fn":
            parts += [escaped(text[done:match.start()]), linked(target, name)]
            done = match.end()
    return "".join(parts) + escaped(text[done:])


def contract(text, scope, own=None):
    """A clause or a definition, with a link from each identifier to its definition."""
    scope, done, parts = scope.hiding(text), 0, []
    for match in CONTRACT.finditer(text):
        is_label = text.startswith((" = ", " : "), match.end()) and match.group()[0].islower()
        target, count = (None, 0) if is_label else scope.contract(match.group())
        if target is None or target is own or not href(target):
            continue
        name = ".".join(match.group().split(".")[:count])
        parts += [escaped(text[done:match.start()]), linked(target, name)]
        done = match.start() + len(name)
    return "".join(parts) + escaped(text[done:])


def clause(text, scope):
    """A clause or a ghost fact: its head as it is, and what stands in braces with links."""
    head, brace, rest = text.partition("{")
    return f"<b>{escaped(head)}</b>{brace}{contract(rest, scope)}"


def code(item, scope):
    """The text of an item, with links."""
    text = item.text.rstrip(" {")
    if item.kind in ("fact", "ghost field"):
        return clause(text, scope)
    return rattle(text, scope, item.name)


def head(item, scope):
    """The signature of an item, below its attributes."""
    lines = [*map(escaped, item.attributes), code(item, scope)]
    return '<pre class="head">' + "\n".join(lines) + "</pre>"


def folded(clauses, scope):
    """A contract, folded."""
    if not clauses:
        return ""
    count = {word: sum(text.startswith(word) for text in clauses)
             for word in ("requires", "ensures")}
    says = ", ".join(f"{number} {word}" for word, number in count.items() if number)
    body = "\n".join(clause(text, scope) for text in clauses)
    return f'<details class="contract"><summary>Contract: {says}</summary>' \
        f"<pre>{body}</pre></details>"


def page(title, body, scripts=""):
    """A page of HTML."""
    return f"""<!doctype html>
<html lang="en">
<head>
<meta charset="utf-8">
<meta name="viewport" content="width=device-width, initial-scale=1">
<title>{escaped(title)}</title>
<link rel="stylesheet" href="reference.css">
{scripts}<script src="reference.js" defer></script>
</head>
<body>
<nav><a href="index.html">All crates</a></nav>
<main>
{body}
</main>
</body>
</html>
"""


class Writer:
    """Makes the pages, and notes what is wrong with the sources."""

    def __init__(self, crates, problems):
        """`problems` is the list for what is wrong."""
        self.names, self.problems = Names(crates), problems
        self.index, self.items, self.definitions, self.bare = [], 0, 0, 0

    def note(self, target, name, where="", kind=""):
        """Puts a name into the list for the search."""
        kind = kind or KINDS.get(target.kind, target.kind)
        self.index.append((name, kind, where or target.crate, href(target)))

    # Docs

    def inline(self, text, item):
        """The text of a paragraph, with its code and links."""
        done, parts = 0, []
        for match in INLINE.finditer(text):
            parts.append(escaped(text[done:match.start()]))
            done = match.end()
            parts.append(self.link(match, item) if match["text"] else
                         f"<code>{escaped(match['code'])}</code>")
        return "".join(parts) + escaped(text[done:])

    def link(self, match, item):
        """A link of docs, by its address or by the path of an item."""
        text = escaped(match["text"])
        text = f"<code>{text}</code>" if match["mark"] else text
        path = match["to"] or match["text"].removesuffix("()")
        if re.match(r"https?://", path):
            return f'<a href="{html.escape(path)}">{text}</a>'
        is_path = re.fullmatch(r"[\w:]+", path)
        target = Scope(self.names, item).rattle(path) if is_path else None
        if target is not None and href(target):
            return f'<a href="{href(target)}">{text}</a>'
        if match["mark"] or match["to"]:
            self.wrong(item, f"a link of the docs leads nowhere: {path}")
        return escaped(match.group())

    def wrong(self, item, what):
        """Notes what is wrong with an item."""
        self.problems.append(f"{item.file}:{item.line}: {what}")

    def docs(self, item):
        """Docs as paragraphs, lists and blocks of code."""
        blocks, parts = re.split(r"\n\s*\n", "\n".join(item.docs).strip("\n")), []
        for block in filter(None, blocks):
            if fenced := re.fullmatch(r"```\w*\n(.*)\n```", block, re.S):
                parts.append(f"<pre>{escaped(fenced.group(1))}</pre>")
            elif re.match(r"[-*] ", block):
                entries = (self.inline(entry, item) for entry in re.split(r"\n[-*] ", block[2:]))
                parts.append("<ul>" + "".join(f"<li>{entry}</li>" for entry in entries) + "</ul>")
            else:
                if re.search(r"^(?:[|#>]|```|    |[-*] )", block, re.M):
                    self.wrong(item, f"docs that aren't understood: {block}")
                parts.append(f"<p>{self.inline(block, item)}</p>")
        return "\n".join(parts)

    def wants_docs(self, item):
        """Notes a public item without docs; fields and variants may be told of with their type."""
        self.items += 1
        if not any(line.strip() for line in item.docs):
            owner = f"{item.parent.name}::" if item.parent and item.parent.name else ""
            kind = KINDS.get(item.kind, item.kind)
            self.wrong(item, f"a public {kind} without docs: {owner}{item.name}")

    # Items

    def item(self, item, level=3):
        """An item with all that belongs to it."""
        self.wants_docs(item)
        scope, owner = Scope(self.names, item), item.parent
        owner = owner.parent if owner.kind == "impl" else owner
        of_type = owner.kind != "mod"
        kind = "method" if item.kind == "fn" and of_type else KINDS.get(item.kind, item.kind)
        self.note(item, f"{owner.name}::{item.name}" if of_type else item.name, kind=kind)
        parts = [f'<section class="item"{place(item)}>',
                 f'<h{level}><span class="kind">{kind}</span> '
                 f'<a href="#{urllib.parse.quote(item.anchor)}">{item.name}</a></h{level}>',
                 head(item, scope), self.docs(item), folded(item.contract, scope)]
        if item.kind in ("struct", "enum"):
            parts.append(self.fields(item, scope))
        if item.kind == "trait":
            parts += [self.item(child, level + 1) for child in item.children if child.anchor]
        impls = self.names.impls(item)
        parts += [self.item(child, level + 1) for impl in impls if not impl.of_trait
                  for child in impl.children if child.anchor]
        parts += [self.impl(impl) for impl in impls if impl.of_trait]
        return "\n".join([*filter(None, parts), "</section>"])

    def fields(self, item, scope):
        """The variants of an enum, or the public fields of a type or variant, with their docs."""
        public = [child for child in item.children if child.public or item.kind == "variant"]
        entries = "".join(self.field(child, item, scope) for child in public)
        which = "Its other fields" if public else "Its fields"
        rest = len(public) < len(item.children)
        return (f"<dl>{entries}</dl>" if public else "") + \
            (f'<p class="note">{which} are private.</p>' if rest else "")

    def field(self, child, owner, scope):
        """A variant or a field, with its docs."""
        if child.kind == "variant":
            self.note(child, f"{owner.name}::{child.name}")
        self.bare += not child.docs
        text = code(child, scope).removeprefix("pub ").replace("<b>pub ", "<b>")
        named = f"{child.name}: " if child.name.isdigit() and owner.kind == "struct" else ""
        marks = "".join(f'<span class="kind">{escaped(mark)}</span> ' for mark in child.attributes)
        return f"<dt{place(child)}>{marks}<code>{named}{text}</code></dt>" \
            f"<dd>{self.docs(child)}{self.fields(child, scope)}</dd>"

    def impl(self, impl):
        """An impl of a trait, folded: its facts, and its functions with their contracts."""
        text = f"<code>{rattle(impl.text, Scope(self.names, impl))}</code>"
        if not impl.children:
            return f'<div class="impl"{place(impl)}>{text}\n{self.docs(impl)}</div>'
        parts = [f'<details class="impl"{place(impl)}><summary>{text}</summary>', self.docs(impl)]
        for child in impl.children:
            scope = Scope(self.names, child)
            clauses = "\n".join(clause(text, scope) for text in child.contract)
            parts += [f"<div{place(child)}>", head(child, scope), self.docs(child),
                      clauses and f"<pre>{clauses}</pre>", "</div>"]
        return "\n".join([*filter(None, parts), "</details>"])

    # Modules and definitions

    def exports(self, module):
        """What a module re-exports, with links; and a test that its imports lead somewhere."""
        parts = []
        for found in module.imports:
            path, first = "::".join(found.path), found.path[0]
            ours = first in ("crate", "self", "super") or first in self.names.crates \
                or self.names.find(module, first) is not None
            target = self.names.walk(module, found.path)
            exported = found.public and shown(module)
            if ours and (target is None or exported and not href(target)):
                self.problems.append(f"{module.file}:{found.line}: leads nowhere: {path}")
            if exported:
                parts.append(f"<code>{linked(target, path)}</code>")
        return f"<h3>Re-exports</h3>\n<p class=\"contents\">{', '.join(parts)}</p>" if parts else ""

    def module(self, module):
        """A module: its docs, what it re-exports, its items in the order of the source."""
        self.wants_docs(module)
        parts = []
        if module.name:
            self.note(module, module.name)
            parts += [f'<h2{place(module)}><span class="kind">module</span> '
                      f'<a href="#{module.anchor}">{module.name}</a></h2>', self.docs(module)]
        parts.append(self.exports(module))
        parts += [self.item(item) for item in module.children if item.kind in SHOWN and item.anchor]
        parts += [self.impl(impl) for impl in self.names.impls(module) if impl.anchor]
        for child in module.children:
            if child.kind == "mod":
                parts.append(self.module(child) if child.anchor else self.exports(child))
        return "\n".join(filter(None, parts))

    def file(self, spec):
        """The definitions of a file, each folded below its comment."""
        scope = Scope(self.names, spec=spec)
        if not spec.comment:
            self.problems.append(f"{spec.path}: nothing says what it has")
        parts = [f'<h3 id="specs.{spec.name}"><a href="#specs.{spec.name}">{spec.path}</a></h3>',
                 f"<p>{escaped(' '.join(spec.comment))}</p>" if spec.comment else ""]
        for definition in spec.definitions:
            comment = escaped(" ".join(definition.comment))
            if definition.kind == "heading":
                parts.append(f"<h4>{comment}</h4>")
            if not definition.public:
                continue
            self.definitions += 1
            self.note(definition, definition.name, f"{spec.crate}, {spec.name}", "definition")
            lines = [f"module _ {definition.context} where"] if definition.context else []
            text = contract("\n".join(lines + definition.lines).rstrip(), scope, definition)
            parts.append(f'<details class="definition"{place(definition)}><summary><code>'
                         f"{escaped(definition.name)}</code> {comment}</summary>"
                         f"<pre>{text}</pre></details>")
        return "\n".join(filter(None, parts))

    def test_ghosts(self, owner, file):
        """Tests that each import of the repository's definitions leads to one."""
        for found in owner.imports if isinstance(owner, SpecFile) else owner.ghosts:
            if self.names.is_ours(found) and self.names.ghost(found.path) is None:
                path = ".".join(found.path)
                self.problems.append(f"{file}:{found.line}: leads nowhere: {path}")
        for child in owner.children if isinstance(owner, Item) else []:
            self.test_ghosts(child, child.file or file)

    # Pages

    def contents(self, module, crate):
        """What is in a module and in those below it, a line for each."""
        items = [item for item in module.children if item.kind in SHOWN and item.anchor]
        links = ", ".join(linked(item, item.name) for item in items)
        lines = [f"<li>{linked(module, module.name or crate.name, 'module')} {links}</li>"] \
            if module.name or links else []
        for child in module.children:
            if child.kind == "mod" and child.anchor:
                lines += self.contents(child, crate)
        return lines

    def crate(self, crate):
        """The page of a crate."""
        self.note(crate.root, crate.name, "all its modules", "crate")
        self.test_ghosts(crate.root, crate.root.file)
        for spec in crate.specs:
            self.test_ghosts(spec, spec.path)
        below = ", ".join(f'<a href="{name}.html">{name}</a>' for name in crate.below)
        lines = self.contents(crate.root, crate)
        if crate.specs:
            links = ", ".join(linked(spec, spec.name) for spec in crate.specs)
            lines.append(f'<li><a class="module" href="#definitions">definitions</a> {links}</li>')
        parts = [f'<h1><span class="kind">crate</span> {crate.name}</h1>', self.docs(crate.root),
                 f'<p class="note">Layer {crate.layer}. It stands on {below or "no other"}.</p>',
                 f'<ul class="contents">{"".join(lines)}</ul>' if lines else "",
                 self.module(crate.root)]
        if crate.specs:
            parts.append('<h2 id="definitions">Definitions</h2>')
        return page(crate.name, "\n".join([*parts, *map(self.file, crate.specs)]))

    def files(self, crates):
        """The page of all files of definitions, with what each has."""
        parts = []
        for crate in crates:
            rows = "".join(f"<tr><td>{linked(spec, spec.name)}</td>"
                           f"<td>{escaped(' '.join(spec.comment))}</td></tr>\n" for spec in crate.specs)
            if rows:
                parts.append(f'<h2><a href="{crate.name}.html#definitions">{crate.name}</a></h2>\n'
                             f"<table><tbody>{rows}</tbody></table>")
        return page("Definitions", "<h1>All files of definitions</h1>\n" + "\n".join(parts))

    def first_page(self, crates):
        """The page of all crates by their layers, with the search."""
        rows, above = [], 0
        for crate in sorted(crates, key=lambda crate: crate.layer):
            text = re.split(r"(?<=\.)\s+(?=[A-Z`\[])", " ".join(crate.root.docs))[0]
            layer, above = "" if crate.layer == above else crate.layer, crate.layer
            rows.append(f'<tr><td>{layer}</td><td><a href="{crate.name}.html">{crate.name}</a>'
                        f"</td><td>{self.inline(text, crate.root)}</td></tr>\n")
        return page("Reference of Fumitorygate", f"""<h1>Fumitorygate: the reference</h1>
<p>All public items of each crate, with their docs and contracts, and the definitions of which
contracts speak. Begin with <a href="interface.html">interface</a>, or with <a href="files.html">all files of
definitions</a>.</p>
<p><label for="search">Search</label> <input id="search" type="search" autocomplete="off"
placeholder="an item or a definition"></p>
<ul id="found" class="names"></ul>
<table><thead><tr><th>Layer</th><th>Crate</th><th>What it is</th></tr></thead>
<tbody>{''.join(rows)}</tbody></table>
<p class="note">A crate stands on crates of lower layers.</p>""",
                    '<script src="names.js" defer></script>\n')
