#!/usr/bin/env python3
"""Writes the reference of the library as pages of HTML: one page for each door, and the definitions that contracts cite.

usage: tools/reference.py [--out FOLDER]    writes the pages into FOLDER, out/reference unless it is named
       tools/reference.py --check           writes them into a temporary folder, and keeps nothing

The text comes from the sources: signatures, doc comments, contracts, and the definitions of specs/ with their comments. Both
forms print a line for each link without a target and for each item of a door without a doc comment, and then end with
status 1. A method without a doc comment is only noted. The pages need no network and no JavaScript.
"""
import argparse
import html
import os
import re
import shutil
import sys
import tempfile

TOP = os.path.dirname(os.path.dirname(os.path.realpath(__file__)))
sys.dont_write_bytecode = True
sys.path.insert(0, f"{TOP}/tools")
import rattle_names as names
import rattle_sources as sources
from reference_texts import BELOW, DEFINITIONS, Book, Page, Scope, anchor_of, door_of, escaped, scope_of

DOORS = ("capnp_layout", "capnp_message", "capnp_schema", "capnp_relay")
INDEX = "index.html"
KIND_WORDS = {"struct": "Structs", "enum": "Enums", "trait": "Traits", "fn": "Functions", "type": "Types", "const": "Constants", "static": "Statics"}


class ItemWriter:
    """Writes an item of a door: its head, doc comment, contract, errors, members and implementations."""

    def __init__(self, page, entry):
        self.page, self.entry, self.book = page, entry, page.book
        self.scope = scope_of(entry.crate, entry.module, ())
        self.scope.owner = entry.key if entry.item.kind in ("struct", "enum", "trait") else None

    def miss(self, what):
        path = f"crates/{self.entry.crate}/src/{'/'.join(self.entry.module) or 'lib'}.rt"
        (self.book.notes if what.count("::") > self.entry.title.count("::") else self.book.faults).append(f"{path}: {what} has no doc comment")

    def written(self):
        """The item as HTML."""
        item, entry = self.entry.item, self.entry
        if not item.doc:
            self.miss(entry.title)
        place = f"{entry.crate}/src/{'/'.join(entry.module) or 'lib'}.rt, line {item.number}"
        out = [f'<section class=item id="{entry.anchor}">']
        out.append(f'<h3><small>{item.kind}</small> <a href="#{entry.anchor}">{escaped(entry.title)}</a></h3>')
        out.append(self.page.head(self.declaration(), self.scope))
        out.append(self.page.doc(item.doc, self.scope))
        if item.kind == "fn":
            out.append(self.page.contract(item.clauses, self.scope) + self.page.errors(item, self.scope, item.doc))
        elif item.kind in ("struct", "enum"):
            out.append(self.variants(item))
        elif item.kind == "trait":
            scope = scope_of(entry.crate, entry.module, (item,))
            scope.owner = entry.key
            out += self.members(item.members, scope)
        if item.kind in ("struct", "enum", "trait"):
            out += self.blocks()
        out.append(f"<p class=from>{place}</p></section>")
        return "\n".join(it for it in out if it)

    def declaration(self):
        """The head of an item, with the parts of it that are public."""
        item = self.entry.item
        derived = [it for it in item.attributes if it.startswith("#[derive")]
        if item.kind in ("fn", "trait"):
            return item.signature
        if item.kind == "enum":
            return "\n".join([*derived, f"{item.signature} {{", *("    " + short_text(it) for it in item.members), "}"])
        if item.kind == "struct" and item.lines[0].rstrip().endswith("{"):
            shown = ["    " + short_text(it) for it in item.members if it.is_public]
            hidden = ["    // private fields"] if any(not it.is_public and it.kind == "field" for it in item.members) else []
            return "\n".join([*derived, f"{item.signature} {{", *shown, *hidden, "}"])
        return "\n".join([*derived, *item.lines]).rstrip()

    def variants(self, item):
        """The variants of an enum or the public fields of a struct, with what their doc comments say."""
        rows, bare = [], []
        for member in item.members:
            if item.kind == "struct" and not (member.is_public and member.doc):
                continue
            inner = "".join(f"<dt class=inner><code>{escaped(it.name)}</code></dt><dd class=inner>{self.page.inline(' '.join(it.doc.split()), self.scope)}</dd>" for it in member.members if it.doc)
            inner_name = member.name if item.kind == "enum" else f"field.{member.name}"
            if not member.doc and not inner:
                bare.append(f'<span id="{self.entry.anchor}.{inner_name}"></span>')
                continue
            rows.append(f'<dt id="{self.entry.anchor}.{inner_name}"><code>{escaped(member.name)}</code></dt><dd>{self.page.doc(member.doc, self.scope)}</dd>{inner}')
        return "".join(bare) + (f"<dl>{''.join(rows)}</dl>" if rows else "")

    def members(self, members, scope, block_doc=""):
        """The functions, constants, types and ghost members of a trait or an implementation."""
        for member in members:
            if member.kind not in ("fn", "const", "type", "ghost"):
                continue
            name = f"{self.entry.title}::{member.name}"
            if not member.doc and not block_doc and member.kind == "fn":
                self.miss(name)
            anchor = f"{self.entry.anchor}.{'ghost.' if member.kind == 'ghost' else ''}{member.name}"
            text = member.signature if member.kind == "fn" else "\n".join(member.lines).rstrip()
            yield f'<div class=member id="{anchor}"><h4><a href="#{anchor}">{escaped(member.name)}</a></h4>'
            yield self.page.head(text, scope)
            yield self.page.doc(member.doc, scope)
            yield self.page.contract(member.clauses, scope) + (self.page.errors(member, scope, member.doc) if member.kind == "fn" else "")
            yield "</div>"

    def blocks(self):
        """The methods of a type, and the traits that it implements, or the types that implement a trait."""
        own, others = [], []
        blocks = sorted(self.implementations(), key=lambda it: it[6] != self.entry.module)
        for kind, _, trait_text, _, block, file, module in blocks:
            scope = scope_of(self.entry.crate if kind == self.entry.key else block_crate(file), module, (block,))
            scope.file, scope.owner = file, self.entry.key
            if not trait_text:
                public = [it for it in block.members if it.is_public and it.kind in ("fn", "const")]
                if public:
                    own += [f"<p class=head><code>{self.page.code(block.signature, scope, is_head=True)}</code></p>", self.page.doc(block.doc, scope)]
                    own += self.members(public, scope, block.doc)
            else:
                others.append(self.implementation(block, scope, self.entry.item.kind != "trait" or kind not in self.book.places))
        head = f"<h4>{'Implemented by' if self.entry.item.kind == 'trait' else 'Implements'}</h4>"
        return [*own, *([head, "<ul class=impls>", *others, "</ul>"] if others else [])]

    def implementations(self):
        """The implementations of a type, in its crate; for a trait, those for items of any door."""
        if self.entry.item.kind != "trait":
            return [it for it in names.impls_of(self.entry.crate) if it[0] == self.entry.key]
        crates = sorted({key[0] for key in self.book.places} | {self.entry.crate})
        return [it for crate in crates for it in names.impls_of(crate) if it[1] == self.entry.key]

    def implementation(self, block, scope, is_whole):
        """An implementation of a trait: its head, and with its whole text its comment and what it says of ghost members."""
        head = self.page.code(block.signature, scope, is_head=True)
        doc = self.page.doc(block.doc, scope) if is_whole else ""
        text = "\n".join("\n".join(it.lines).rstrip() for it in block.members if it.kind == "ghost" and is_whole)
        inner = f"<details><summary>ghost members</summary>{self.page.pre(text, scope)}</details>" if text else ""
        return f"<li><code>{head}</code>{doc}{inner}</li>"


def block_crate(file):
    return os.path.relpath(file.path, f"{sources.TOP}/crates").split(os.sep)[0]


def short_text(member):
    """A field or a variant on its lines, without doc comments and attributes inside."""
    lines = [it for it in member.lines if not it.strip().startswith(("///", "#["))]
    return "\n    ".join(lines).rstrip()


def summary(text):
    """The first sentence of a doc comment."""
    first = " ".join(text.split("\n\n")[0].split())
    return re.split(r"(?<=[.])\s", first)[0]


def listing(page, section):
    """The items of a section by kind, each with the first sentence of its doc comment."""
    out = []
    for kind, title in KIND_WORDS.items():
        entries = sorted((it for it in section.entries if it.item.kind == kind), key=lambda it: it.title)
        if entries:
            rows = "".join(f'<dt><a href="{page.book.link_to_item(it.key, page.name)}">{escaped(it.title)}</a></dt><dd>{page.inline(summary(it.item.doc), scope_of(it.crate, it.module, ()))}</dd>' for it in entries)
            out.append(f"<h3>{title}</h3><dl class=list>{rows}</dl>")
    return "\n".join(out)


def implementations_in(page, section):
    """Where the implementations are that a module without items has: at their types, or at their traits."""
    found = [(it[0] or it[1], it[2 if it[0] is None else 3]) for it in names.impls_of(section.crate) if it[6] == section.path]
    links = {escaped(names.head_type(text)): page.book.link_to_item(key, page.name) for key, text in found if key}
    rows = ", ".join(f'<code><a href="{link}">{name}</a></code>' for name, link in sorted(links.items()) if link)
    return f"<p>The implementations of this module are at {rows}.</p>" if rows else ""


def door_page(book, door):
    """The page of a door: its contents, then each item."""
    page, scope = Page(book, door.page), scope_of(door.name, (), ())
    out = [f"<h1>{door.name}</h1>", page.doc(door.doc, scope)]
    inside = [it for it in door.sections if it.entries or it.name]
    links = "".join(f'<li><a href="#{anchor_of_section(it)}">{escaped(it.name)}</a></li>' for it in inside if it.name)
    out.append(f"<p>Modules:</p><ul class=row>{links}</ul>" if links else "")
    written = set()
    for section in inside:
        title = f"Module {section.name}" if section.name else "Items"
        out.append(f'<h2 id="{anchor_of_section(section)}">{title}</h2>')
        out.append(page.doc(section.doc, scope))
        out.append(listing(page, section) or implementations_in(page, section))
        order = list(KIND_WORDS)
        for entry in sorted(section.entries, key=lambda it: (order.index(it.item.kind), it.title)):
            if entry.key not in written:
                out.append(ItemWriter(page, entry).written())
            written.add(entry.key)
    return shell(book, door.page, door.name, "\n".join(out))


def anchor_of_section(section):
    return f"module.{section.name}" if section.name else "items"


def definition_text(page, definition):
    """A definition as HTML: its names, comment and text."""
    specs = sources.specs_of(definition.crate, definition.module)
    own = {name: ("Rattle", definition.crate, "specs", definition.module, name) for name in specs.by_name}
    scope = Scope(definition.crate, (), None, {**specs.imports, **own})
    anchors = [anchor_of(definition, it) for it in definition.names]
    more = "".join(f'<span id="{it}"></span>' for it in anchors[1:])
    heads = ", ".join(f'<a href="#{anchor}">{escaped(name)}</a>' for anchor, name in zip(anchors, definition.names))
    text = "\n".join([*definition.context, *("  " * len(definition.context) + it for it in definition.text.split("\n"))])
    doc = f"<p>{page.inline(definition.doc, scope)}</p>" if definition.doc else ""
    return f'<section class=definition id="{anchors[0]}">{more}<h4>{heads}</h4>{doc}{page.pre(text, scope)}</section>'


def definitions_page(book, name, title, intro, taken):
    """A page of definitions, by crate and file; writing one may add to those that are taken."""
    page, texts = Page(book, name), {}
    while len(texts) < len(taken):
        for key, definition in list(taken.items()):
            if key not in texts:
                texts[key] = definition_text(page, definition)
    crates = {}
    for key, definition in taken.items():
        crates.setdefault(definition.crate, {}).setdefault(definition.module, []).append((definition.number, texts[key]))
    order = [it for it in listed_crates() if it in crates]
    out = [f"<h1>{title}</h1><p>{intro}</p><ul class=row>", *(f'<li><a href="#{it}">{it}</a></li>' for it in order), "</ul>"]
    for crate in order:
        out.append(f'<h2 id="{crate}">{crate}</h2>')
        for module in sorted(crates[crate]):
            doc = sources.specs_of(crate, module).doc
            out.append(f'<h3 id="{crate}.{module}">{crate}/specs/{module}.antt</h3>' + (f"<p>{escaped(doc)}</p>" if doc else ""))
            out += [text for _, text in sorted(crates[crate][module])]
    return shell(book, name, title, "\n".join(out))


def listed_crates():
    """The crates of crates.txt, lowest first."""
    heads = (it.split("#")[0].partition(":")[0].strip() for it in sources.text_of(f"{sources.TOP}/crates.txt").splitlines())
    return [it for it in heads if it]


FORMS = (
    ("requires P", "the caller has to prove P before the call"),
    ("ensures name { P }", "P holds when the function returns; the name says what the clause is about"),
    ("ensures* P", "P is a statement of separation logic: mostly, what a &mut holds after the borrow by the result has ended"),
    ("result", "what the function returns"),
    ("x.now", "what the reference x points to"),
    ("x.old, x.new", "what the &mut x points to when the call begins, and at the return"),
    ("x.entry, x.exit", "a parameter that holds a reference, as it was passed, and at the return"),
    ("≡, ≢", "is, is not"),
    ("A × B, A ⊎ B, A → B", "both, one of the two, B if A holds"),
    ("(k : ℕ) → P, (k : ℕ) × P", "P for each k, P for some k"),
    ("λ x. P", "the function of x whose value is P"),
    ("OnOk result P, OnErr result P", "P holds if the result is Ok, or if it is Err"),
    ("IfOk result (λ v. P), IfErr result (λ e. P)", "P holds of the value of an Ok, or of the error of an Err"),
    ("xs ++ ys, x ∷ xs, length xs", "two lists joined, a list with x before it, the number of elements"),
)


def place_on(book, entry, door):
    """The place at which the page of a door has an item; others of its modules pass on the item too."""
    return next(it for it in book.places[entry.key] if it[0] == door.page)


def index_page(book):
    """The first page: the doors, how a contract is read, and all items by name."""
    page = Page(book, INDEX)
    out = ["<h1>Hagzimot: reference of the library</h1>"]
    out.append("<p>The library is used through four crates, the doors, which pass on the items of the crates below them. Each page has the items of one door, with signature, doc comment, contract and errors.</p><dl class=list>")
    for door in book.doors:
        text = page.inline(" ".join(door.doc.split()), scope_of(door.name, (), ()))
        out.append(f'<dt><a href="{door.page}">{door.name}</a></dt><dd>{text} {len(door.entries())} items.</dd>')
    out.append(f'<dt><a href="{DEFINITIONS}">Definitions</a></dt><dd>The definitions that contracts cite: {len(book.cited)} of them.</dd>')
    out.append(f'<dt><a href="{BELOW}">Definitions below</a></dt><dd>The definitions that those cite in turn: {len(book.below)} of them.</dd></dl>')
    out.append("<h2>How to read a contract</h2><p>A contract is the clauses between a signature and the body. A check of the crate proves that the body meets them for every input that meets the <code>requires</code>. A name in a clause leads to its definition; a name without a link belongs to Rattle's libraries, or is a parameter, a field or a ghost member of a trait.</p><dl class=list>")
    out += [f"<dt><code>{escaped(form)}</code></dt><dd>{escaped(text)}</dd>" for form, text in FORMS]
    out.append("</dl><p>A <i>law</i> is a function that does nothing: a proof calls it for its contract. A <i>ghost</i> member or field exists only in contracts.</p><h2>All items</h2><ul class=columns>")
    entries = [(it.title.rpartition("::")[2].lower(), it, door) for door in book.doors for it in door.entries() if (door.page, it.anchor) == place_on(book, it, door)]
    for _, entry, door in sorted(entries, key=lambda it: (it[0], it[1].title, it[2].name)):
        out.append(f'<li><a href="{door.page}#{entry.anchor}">{escaped(entry.title)}</a> <small>{door.name.removeprefix("capnp_")}</small></li>')
    out.append("</ul>")
    return shell(book, INDEX, "Reference", "\n".join(out))


def shell(book, name, title, body):
    """A whole page around its body."""
    places = [(INDEX, "Index"), *((it.page, it.name.removeprefix("capnp_")) for it in book.doors), (DEFINITIONS, "definitions"), (BELOW, "definitions below")]
    links = "".join(f'<a href="{to}"{" class=here" if to == name else ""}>{text}</a>' for to, text in places)
    return f"""<!doctype html>
<html lang=en>
<head>
<meta charset=utf-8>
<meta name=viewport content="width=device-width, initial-scale=1">
<title>{escaped(title)} - Hagzimot</title>
<link rel=stylesheet href=style.css>
</head>
<body>
<nav>{links}</nav>
<main>
{body}
</main>
</body>
</html>
"""


def pages():
    """All pages by name, the faults of their sources, which are items without a doc comment, and methods without one."""
    book = Book([door_of(it) for it in DOORS])
    made = {door.page: door_page(book, door) for door in book.doors}
    intro = "These are the definitions of <code>specs/</code> that the contracts of the doors name, by crate, lowest first. The names in a definition lead to the definitions that it uses."
    made[DEFINITIONS] = definitions_page(book, DEFINITIONS, "Definitions that contracts cite", intro, book.cited)
    intro = f'These are the definitions that those of the page <a href="{DEFINITIONS}">Definitions</a> use, directly or by others.'
    made[BELOW] = definitions_page(book, BELOW, "Definitions below", intro, book.below)
    made[INDEX] = index_page(book)
    return made, book.faults, book.notes


def faults_of_links(made):
    """The links of the pages that lead to no page, or to no place of one, and places that are there twice."""
    places = {}
    for name, text in made.items():
        found = re.findall(r'\bid="?([^"\s>]+)"?', text)
        places[name] = set(found)
        yield from (f"{name}: {it} is there twice" for it in sorted({it for it in found if found.count(it) > 1}) if len(found) != len(places[name]))
    for name, text in made.items():
        for link in sorted(set(re.findall(r'\bhref="([^"]*)"', text))):
            page, _, anchor = html.unescape(link).partition("#")
            if "://" in link:
                continue
            if page and page not in made:
                yield f"{name}: the link {link} leads to no page"
            elif anchor and anchor not in places[page or name]:
                yield f"{name}: the link {link} leads to no place"


def write(folder):
    """Writes the pages and their style into a folder, and returns the faults."""
    made, faults, notes = pages()
    os.makedirs(folder, exist_ok=True)
    for name, text in made.items():
        with open(f"{folder}/{name}", "w", encoding="utf-8") as file:
            file.write(text)
    shutil.copyfile(f"{TOP}/tools/reference.css", f"{folder}/style.css")
    return [*faults, *faults_of_links(made)], notes, made


def main(words):
    parser = argparse.ArgumentParser(usage=__doc__, add_help=False)
    parser.add_argument("--out", default=f"{TOP}/out/reference")
    parser.add_argument("--check", action="store_true")
    parser.add_argument("-h", "--help", action="store_true")
    taken = parser.parse_args(words)
    if taken.help:
        print(__doc__)
        return 0
    try:
        if taken.check:
            with tempfile.TemporaryDirectory() as folder:
                faults, notes, made = write(folder)
        else:
            faults, notes, made = write(taken.out)
    except (sources.Unreadable, names.Lost) as failed:
        print(f"reference: {failed}: it can't be read (mend the source or tools/rattle_sources.py)", file=sys.stderr)
        return 1
    for line in [*(f"note: {it}" for it in notes), *faults]:
        print(f"reference: {line}")
    where = "" if taken.check else f" in {taken.out}"
    print(f"reference: {len(made)} pages{where}, {len(faults)} faults")
    return 1 if faults else 0


if __name__ == "__main__":
    sys.exit(main(sys.argv[1:]))
