"""Writes texts of the sources as HTML: code with a link at each name that has a place on a page, doc comments, errors."""
import functools
import html
import re
from dataclasses import dataclass, field

import rattle_names as names
import rattle_sources as sources

DEFINITIONS, BELOW = "definitions.html", "definitions_below.html"
KEYWORDS = set("pub fn struct enum trait impl for where const type mut ghost requires ensures dyn static record data abbrev unfoldable mutual let in module open".split())
# A word or a path of code, with the field that follows it.
WORD = re.compile(r"((?:\w+::)*[^\W\d][\w']*|[^\s\w(){}\[\],;.:⟦⟧\"`#&*?!<>|]+|[<>|&*!?]+)(?:\.([^\W\d][\w']*))?")
# The keyword and the label of a clause.
LABEL = re.compile(r"(requires|ensures)(\*? \w+)(?= \{)")
ERROR_KINDS = ("capnp_units", ("kinds",), "ErrorKind")


@dataclass
class Entry:
    """An item of a door: where it is defined, and its name and anchor on the page."""

    crate: str
    module: tuple
    item: sources.Item
    title: str
    anchor: str

    @property
    def key(self):
        return names.key_of(self.crate, self.module, self.item.name)

    @property
    def file(self):
        return names.module_file(self.crate, self.module)


@dataclass
class Section:
    """A module of a door, or its items that are in no module."""

    name: str
    doc: str
    entries: list
    crate: str = ""
    path: tuple = ()


@dataclass
class Door:
    name: str
    doc: str
    sections: list

    @property
    def page(self):
        return f"{self.name}.html"

    def entries(self):
        return [it for section in self.sections for it in section.entries]


def escaped(text):
    return html.escape(text, quote=False)


def entries_of(crate, module, prefix):
    """The public items of a module, in the order of its file, and those that it passes on."""
    file = names.module_file(crate, module)
    for item in file.items:
        if item.is_public and item.kind in names.DECLARED:
            yield Entry(crate, module, item, f"{prefix}{item.name}", (prefix + item.name).replace("::", "."))
    for name, path in sorted(file.passed.items()):
        kind, *found = names.locate(*names.absolute(crate, module, path))
        if kind == "module":
            yield from entries_of(*found, f"{prefix}{name}::")
        else:
            yield Entry(*found, f"{prefix}{name}", (prefix + name).replace("::", "."))


def door_of(name):
    """A door with its sections: first the items that are in no module, then its modules."""
    lib = names.module_file(name, ())
    own, modules = [], [(it.name, name, (it.name,)) for it in lib.items if it.kind == "mod" and it.is_public]
    for passed, path in lib.passed.items():
        kind, *found = names.locate(*names.absolute(name, (), path))
        if kind == "module":
            modules.append((passed, *found))
        else:
            own.append(Entry(*found, passed, passed))
    sections = [Section("", "", own)]
    for module, crate, path in sorted(modules):
        sections.append(Section(module, names.module_file(crate, path).doc, list(entries_of(crate, path, f"{module}::")), crate, path))
    return Door(name, lib.doc, sections)


@dataclass
class Scope:
    """The names that a text may use: those of its file, and those that its block imports."""

    crate: str
    module: tuple
    file: object
    imports: dict
    owner: tuple = None


@dataclass
class Book:
    """All doors and definitions, and the place of each on the pages."""

    doors: list
    places: dict = field(default_factory=dict)
    cited: dict = field(default_factory=dict)
    below: dict = field(default_factory=dict)
    faults: list = field(default_factory=list)
    notes: list = field(default_factory=list)

    def __post_init__(self):
        for door in self.doors:
            for entry in door.entries():
                self.places.setdefault(entry.key, []).append((door.page, entry.anchor))

    def link_to_item(self, key, page, inner=None):
        """The link from a page to an item, or to a variant or method of it; nothing if no door has the item."""
        found = self.places.get(key)
        if not found:
            return None
        to, anchor = next((it for it in found if it[0] == page), found[0])
        return f"{'' if to == page else to}#{anchor}{'.' + inner if inner else ''}"

    def link_to_definition(self, found, page):
        """The link from a page to what `definition_at` found; a definition that is cited gets its place by this."""
        if found[0] == "item":
            _, crate, module, name, variant = found
            key = names.key_of(crate, module, name)
            item = item_at(key)
            return self.link_to_item(key, page, variant if item and variant in inner_names(item) else None)
        definition = found[1]
        key = (definition.crate, definition.module, definition.names[0])
        if key not in self.cited:
            (self.below if page in (DEFINITIONS, BELOW) else self.cited).setdefault(key, definition)
        to = DEFINITIONS if key in self.cited else BELOW
        return f"{'' if to == page else to}#{anchor_of(definition, found[2])}"


def item_at(key):
    file = names.module_file(key[0], key[1])
    return next((it for it in file.items if it.name == key[2] and it.kind in names.DECLARED), None) if file else None


def inner_names(item):
    return {it.name for it in item.members} if item.kind == "enum" else set()


def anchor_of(definition, name):
    """The anchor of a definition; a constructor leads to the type of its block."""
    own = name if name in definition.names else definition.names[0]
    return f"{definition.crate}.{definition.module}.{own}"


class Page:
    """Writes texts of one page: code with links, and doc comments."""

    def __init__(self, book, name):
        self.book, self.name = book, name

    def target(self, scope, word, inner, is_head):
        """The link of a word of code, and whether it holds for the word with its field; a head names no definitions."""
        path = scope.imports.get(word)
        if "::" in word:
            key = names.named_in_path(scope.crate, scope.module, scope.file, word) if scope.file else None
            return self.book.link_to_item(key, self.name), False
        if path and path[0] == "Rattle":
            if is_head:
                return None, False
            found = names.definition_at(path)
            if found and found[0] == "item" and inner:
                item = item_at(names.key_of(*found[1:4]))
                if item and (inner in inner_names(item) or word != item.name):
                    variant = inner if inner in inner_names(item) else None
                    return self.book.link_to_definition((*found[:4], variant), self.name), True
            if found:
                return self.book.link_to_definition(found, self.name), False
            found = names.definition_at((*path, inner)) if inner else None
            return (self.book.link_to_definition(found, self.name), True) if found else (None, False)
        key = names.item_named(scope.crate, scope.module, scope.file, word) if scope.file else None
        item = item_at(key) if key else None
        if item and inner in inner_names(item):
            return self.book.link_to_item(key, self.name, inner), True
        return (self.book.link_to_item(key, self.name), False) if key else (None, False)

    def code(self, text, scope, is_head=False):
        """A text of code, with a link at each name that has a place; the head of an item links items only."""
        operators = names.operators_of(tuple(sorted(it for it in scope.imports if "◌" in it)))
        lines = []
        for line in text.split("\n"):
            code, mark, comment = partition_comment(line)
            label = LABEL.match(code)
            at = label.end() if label else 0
            out = [f"<b>{label[1]}</b>{escaped(label[2])}"] if label else []
            for found in WORD.finditer(code, at):
                word, inner = found[1], found[2]
                out.append(escaped(code[at:found.start()]))
                at = found.end()
                is_named = is_head and bool(re.search(r"\b(fn|struct|enum|trait|type|const|ghost) $", code[:found.start()]))
                link, is_whole = (None, False) if is_named else self.target(scope, operators.get(word, word), inner, is_head and "ghost" not in code)
                rest = f".{escaped(inner)}" if inner else ""
                if link:
                    shown = escaped(word) + (rest if is_whole else "")
                    out.append(f'<a href="{link}">{shown}</a>{"" if is_whole else rest}')
                elif word in KEYWORDS:
                    out.append(f"<b>{word}</b>{rest}")
                else:
                    out.append(escaped(word) + rest)
            out.append(escaped(code[at:]))
            lines.append("".join(out) + (f"<i>{escaped(mark + comment)}</i>" if mark else ""))
        return "\n".join(lines)

    def pre(self, text, scope, style=""):
        return f"<pre{style}><code>{self.code(text, scope)}</code></pre>"

    def head(self, text, scope):
        return f"<pre><code>{self.code(text, scope, is_head=True)}</code></pre>"

    def inline(self, text, scope):
        """A line of a doc comment: code between backticks, with a link if it names an item, and links of Markdown."""
        out = []
        for part in re.split(r"(`[^`]*`|\[[^\]]*\]\([^)\s]*\))", text):
            link = re.fullmatch(r"\[([^\]]*)\]\(([^)\s]*)\)", part)
            if part.startswith("`") and len(part) > 1:
                out.append(f"<code>{self.code_name(part[1:-1], scope)}</code>")
            elif link and "://" in link[2]:
                out.append(f'<a href="{html.escape(link[2])}">{escaped(link[1])}</a>')
            else:
                out.append(escaped(link[1] if link else part))
        return "".join(out)

    def code_name(self, text, scope):
        """A name between backticks, with a link if it is that of an item or of one of its variants or methods."""
        first, *rest = text.split("::")
        key = names.item_named(scope.crate, scope.module, scope.file, first) if scope.file and re.fullmatch(r"\w+(::\w+)?", text) else None
        if not key and scope.owner and text in documented_names(scope.owner):
            key, rest = scope.owner, [text]
        if not key:
            return escaped(text)
        inner = rest[0] if rest and rest[0] in documented_names(key) else None
        link = self.book.link_to_item(key, self.name, inner)
        return f'<a href="{link}">{escaped(text)}</a>' if link else escaped(text)

    def doc(self, text, scope):
        """A doc comment: paragraphs and lists."""
        out, kind = [], None
        for block in re.split(r"\n\s*\n", text.strip()):
            parts = []
            for line in block.split("\n"):
                mark = re.match(r"(-|\d+\.) ", line)
                if mark:
                    parts.append(["ul" if mark[1] == "-" else "ol", line[mark.end():]])
                elif parts and (line.startswith("  ") or parts[-1][0] == "p"):
                    parts[-1][1] += " " + line.strip()
                else:
                    parts.append(["p", line.strip()])
            for tag, line in parts:
                if kind != tag and kind in ("ul", "ol"):
                    out.append(f"</{kind}>")
                if kind != tag and tag in ("ul", "ol"):
                    out.append(f"<{tag}>")
                element = "p" if tag == "p" else "li"
                out.append(f"<{element}>{self.inline(line, scope)}</{element}>" if line else "")
                kind = tag
        if kind in ("ul", "ol"):
            out.append(f"</{kind}>")
        return "\n".join(out)

    def contract(self, clauses, scope):
        return f"<h5>Contract</h5>{self.pre(contract_text(clauses), scope, ' class=contract')}" if clauses else ""

    def errors(self, item, scope, doc):
        """The type of a function's errors, and the kinds that its text or its contract names."""
        failing = error_type(item.signature, scope)
        if not failing:
            return ""
        shown, key = failing
        link = self.book.link_to_item(key, self.name) if key else None
        head = f'<code><a href="{link}">{escaped(shown)}</a></code>' if link else f"<code>{escaped(shown)}</code>"
        kinds = kinds_of(key)
        rows = []
        for variant in kinds[1].members if kinds else ():
            if kinds[0] != ERROR_KINDS or names_kind(variant.name, doc, item.clauses):
                to = self.book.link_to_item(kinds[0], self.name, variant.name)
                name = f'<a href="{to}">{variant.name}</a>' if to else variant.name
                rows.append(f"<dt><code>{name}</code></dt><dd>{self.doc(variant.doc, scope_of(*kinds[0][:2], ()))}</dd>")
        table = f"<dl>{''.join(rows)}</dl>" if rows else ""
        note = ""
        if rows:
            note = "; kinds that the text or the contract names:" if kinds[0] == ERROR_KINDS else "; its kinds:"
        elif any("result ≡ Ok " in it for it in item.clauses):
            note = ", which is never returned"
        elif kinds and item.clauses:
            note = "; the contract says when, by the definitions that it cites"
        others = ", ".join(f"<code>{self.code_name(it, scope)}</code>" for it in models_of(doc))
        others = f"<p>The text also refers to the refusals of {others}.</p>" if others else ""
        return f"<h5>Errors</h5><p>{head}{note}</p>{table}{others}"


def partition_comment(line):
    """A line of code, the mark of its comment and the comment; a mark in a text is not one."""
    found = re.search(r"(?:^|\s)(//+|--)(?= |$)", line)
    return (line[:found.start(1)], found[1], line[found.end():]) if found else (line, "", "")


def contract_text(clauses):
    """The clauses as the source has them."""
    return "\n".join(it.replace("\n", "\n    ") for it in clauses)


def scope_of(crate, module, owners):
    """The scope of a text in a module, within items that import names of their own."""
    file = names.module_file(crate, module)
    imports = dict(file.imports) if file else {}
    for owner in owners:
        imports.update(sources.imports_among(owner.members)[0])
    return Scope(crate, module, file, imports)


@functools.lru_cache(maxsize=None)
def documented_names(key):
    """The variants of an enum, the methods of a type, and the functions of a trait."""
    item = item_at(key)
    found = inner_names(item) if item.kind == "enum" else {it.name for it in item.members if it.kind in ("fn", "const", "type")} if item.kind == "trait" else set()
    for kind, _, trait, _, block, _, _ in names.impls_of(key[0]):
        if kind == key and not trait:
            found |= {it.name for it in block.members if it.is_public}
    return found


def returned_type(signature):
    """The type that a function returns, as its signature writes it."""
    text = re.sub(r"^.*?\bfn \w+", "", " ".join(signature.split()))
    text, depth = names.without_parameters(text), 0
    for at in range(len(text)):
        depth += (text[at] in "([{") - (text[at] in ")]}")
        if not depth:
            rest = text[at + 1:].strip()
            return rest[2:].partition(" where ")[0].strip() if rest.startswith("->") else ""
    return ""


def arguments_of(text):
    """The arguments in angles of a type."""
    inner, depth, part, found = text.partition("<")[2].rpartition(">")[0], 0, "", []
    for sign in inner + ",":
        depth += (sign in "<([") - (sign in ">)]")
        if sign == "," and not depth:
            found.append(part.strip())
            part = ""
        else:
            part += sign
    return [it for it in found if it]


def error_type(signature, scope):
    """The name of the type of a function's errors, and its key if it is an item here; nothing if it returns no Result."""
    returned = returned_type(signature)
    if not re.match(r"(std::result::)?Result\b", returned):
        return None
    arguments = arguments_of(returned)
    if len(arguments) > 1:
        name = arguments[1]
        return name, names.item_named(scope.crate, scope.module, scope.file, names.head_type(name))
    key = names.item_named(scope.crate, scope.module, scope.file, "Result")
    alias = item_at(key) if key else None
    if not alias:
        return "Error", None
    name = arguments_of(alias.signature.partition("=")[2])[-1]
    return name, names.item_named(key[0], key[1], names.module_file(key[0], key[1]), name)


def kinds_of(key):
    """The enum whose variants are an error's kinds: the error itself, or that of its field."""
    item = item_at(key) if key else None
    if not item:
        return None
    if item.kind == "enum":
        return key, item
    file = names.module_file(key[0], key[1])
    for member in item.members:
        found = names.item_named(key[0], key[1], file, names.head_type(member.lines[0].partition(": ")[2]))
        if member.kind == "field" and found and item_at(found).kind == "enum":
            return found, item_at(found)
    return None


def models_of(doc):
    """The functions like which a function is refused, as its doc comment says."""
    found = []
    for sentence in re.split(r"(?<=\.)\s", " ".join(doc.split())):
        if "refused like `" in sentence:
            found += re.findall(r"\blike `([\w:]+)`", sentence)
    return found


def names_kind(name, doc, clauses):
    """Whether a doc comment or a contract names a kind, other than to rule it out."""
    text = re.sub(rf"≢ (?:\w+\.)?{name}\b", "", "\n".join(clauses))
    words = re.sub(rf"(?:except|never|not) `(?:\w+::)?{name}`", "", " ".join(doc.split()))
    return bool(re.search(rf"(?<![\w]){name}\b", text) or re.search(rf"`(?:\w+::)?{name}[`(]", words))
