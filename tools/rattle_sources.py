"""Reads the text of crates: the items of a file of code with their doc comments and contracts, and the definitions of specs.

The files are in the layout of `rt fmt`: what begins at an indentation ends before the next line of this indentation that
isn't a closing bracket.
"""
import functools
import os
import re
from dataclasses import dataclass, field

TOP = os.path.dirname(os.path.dirname(os.path.realpath(__file__)))
CLOSING = ("}", ")", "]", ">", "{", "where")
KINDS = ("fn", "struct", "enum", "trait", "impl", "type", "const", "static", "mod", "use")
HEAD = re.compile(r"(pub(?:\(\w+\))? )?(ghost )?(?:(?:unsafe|final|const(?= fn)) )*(\w+)[ <]")
CLAUSE = re.compile(r"\s*(requires|ensures)\b")
NAME = r"[^\s(){}:;,.]+"


class Unreadable(Exception):
    """A source that isn't in the layout that these functions read."""


@dataclass
class Item:
    """An item of a file of code, or a member of one."""

    kind: str
    name: str
    doc: str
    lines: list
    attributes: list
    number: int
    is_public: bool
    signature: str = ""
    clauses: list = field(default_factory=list)
    members: list = field(default_factory=list)


@dataclass
class File:
    """A file of code: its own doc comment, its items, and the names that it imports."""

    path: str
    doc: str
    items: list
    imports: dict
    passed: dict


@dataclass
class Definition:
    """A block of a file of specs: a definition, or several that refer to each other."""

    crate: str
    module: str
    names: list
    inner: list
    doc: str
    text: str
    number: int
    context: tuple


@dataclass
class Specs:
    """A file of specs: its own comment, its definitions by name, and the names that it imports and passes on."""

    doc: str
    blocks: list
    by_name: dict
    imports: dict
    passed: dict


def text_of(path):
    with open(path, encoding="utf-8") as file:
        return file.read()


def paths_in(text, mark):
    """The names and paths of an import after its keyword: `a.{b, c as d}` is [(b, (a, b)), (d, (a, c))]."""
    text = text.strip().rstrip(";").strip()
    head, brace, rest = text.partition("{")
    if brace:
        before = tuple(it for it in head.strip().split(mark) if it)
        depth, part, parts = 0, "", []
        for sign in rest.rstrip()[:-1] + ",":
            depth += (sign == "{") - (sign == "}")
            if sign == "," and not depth:
                parts.append(part)
                part = ""
            else:
                part += sign
        return [(name, before + path) for it in parts if it.strip() for name, path in paths_in(it, mark)]
    path, _, name = text.partition(" as ")
    names = tuple(path.strip().split(mark))
    return [(name.strip() or names[-1], names)]


def is_cut(lines):
    """Whether a constant goes on in a text, whose lines may begin anywhere."""
    is_constant = re.match(r"(pub(\(\w+\))? )?(const|static) (?!fn)", lines[0])
    return bool(is_constant) and re.sub(r"\\.", "", "\n".join(lines)).count('"') % 2 == 1


def chunks(lines, indent, first):
    """What begins at an indentation: its doc comment, attributes, lines and the number of its first line."""
    doc, attributes, current, is_open = [], [], None, False
    for number, line in enumerate(lines, first):
        text = line[indent:]
        is_own = bool(line.strip()) and len(line) - len(line.lstrip(" ")) == indent
        if current and is_cut(current[2]):
            current[2].append(line)
        elif is_open:
            attributes[-1] += " " + line.strip()
            is_open = not line.rstrip().endswith("]")
        elif is_own and text.startswith(("///", "#[", "#![", "//")):
            if current:
                yield current
                current = None
            if text.startswith("///"):
                doc.append(text[3:].removeprefix(" "))
            elif text.startswith("#"):
                attributes.append(text)
                is_open = not text.rstrip().endswith("]")
        elif is_own and not text.startswith(CLOSING):
            if current:
                yield current
            current = ("\n".join(doc), attributes, [text], number)
            doc, attributes = [], []
        elif current:
            current[2].append(text)
    if current:
        yield current


def parts_of_function(lines):
    """The signature of a function and its clauses, each a text; its body is left out."""
    head, clauses = [], []
    for line in lines:
        if line.startswith(("{", "where {")) and head:
            break
        if CLAUSE.match(line):
            clauses.append(line.strip())
        elif clauses:
            clauses[-1] += "\n" + line.strip()
        else:
            head.append(line.rstrip())
            if line.rstrip().endswith(("{", "{}", ";")):
                break
    clauses = [it.rstrip() for it in clauses]
    if clauses:
        clauses[-1] = clauses[-1].removesuffix(";")
    return re.sub(r"\s*(\{\}?|;)$", "", "\n".join(head)).rstrip(","), clauses


def name_of(kind, text):
    if kind == "impl":
        return ""
    found = re.search(rf"\b{kind} (?:mut )?(\w+)", text)
    return found[1] if found else ""


def head_of(lines):
    """The lines of a head up to its opening brace, without the brace."""
    taken = []
    for line in lines:
        if line.startswith("{"):
            break
        taken.append(line.rstrip())
        if line.rstrip().endswith(("{", "{}")):
            break
    return re.sub(r"\s*\{\}?$", "", "\n".join(taken))


def item_of(chunk, place):
    """The item of a chunk at the outermost indentation, or of one in a trait or an implementation."""
    doc, attributes, lines, number = chunk
    head = HEAD.match(lines[0] + " ")
    kind = "ghost" if head and head[2] and head[3] != "use" else head[3] if head else ""
    if kind not in (*KINDS, "ghost"):
        raise Unreadable(f"{place}:{number}: not an item: {lines[0]}")
    name = re.match(r"(?:pub )?ghost (\w+)", lines[0])[1] if kind == "ghost" else name_of(kind, lines[0])
    item = Item(kind, name, doc, lines, attributes, number, (head[1] or "") == "pub ")
    if kind == "fn":
        item.signature, item.clauses = parts_of_function(lines)
    elif kind in ("trait", "impl"):
        item.signature = head_of(lines)
        inner = lines[item.signature.count("\n") + 1:]
        first = number + item.signature.count("\n") + 1
        item.members = [item_of(it, place) for it in chunks(inner, 4, first)]
    elif kind in ("struct", "enum"):
        item.signature = head_of(lines)
        item.members = [variant_of(it) for it in chunks(lines[1:], 4, number + 1)] if len(lines) > 1 else []
    else:
        item.signature = "\n".join(lines).rstrip()
    return item


def variant_of(chunk):
    """A field of a struct, or a variant of an enum."""
    doc, attributes, lines, number = chunk
    found = re.match(r"(pub(?:\(\w+\))? )?(ghost )?(\w+)", lines[0])
    kind = "ghost" if found and found[2] else "field"
    item = Item(kind, found[3] if found else "", doc, lines, attributes, number, bool(found) and found[1] == "pub ")
    item.members = [variant_of(it) for it in chunks(lines[1:], 4, number + 1)] if len(lines) > 1 and kind == "field" else []
    return item


def imports_among(items):
    """The names that `use` and `ghost use` items bring into scope: paths of code, and those of specs."""
    found, passed = {}, {}
    for item in items:
        if item.kind != "use":
            continue
        text = " ".join(it.strip() for it in item.lines)
        text = re.sub(r"^(pub(\(\w+\))? )?(ghost )?use ", "", text)
        for name, path in paths_in(text, "." if text.startswith("Rattle.") else "::"):
            found[name] = path
            if item.is_public:
                passed[name] = path
    return found, passed


@functools.lru_cache(maxsize=None)
def file_of(path):
    """A file of code, read."""
    lines = text_of(path).split("\n")
    doc = [it[3:].removeprefix(" ") for it in lines if it.startswith("//!")]
    items = [item_of(it, path) for it in chunks([("" if it.startswith("//!") else it) for it in lines], 0, 1)]
    items = [it for it in items if not any("cfg(test)" in at for at in it.attributes)]
    return File(path, "\n".join(doc), items, *imports_among(items))


def names_in(block):
    """The names that a block of specs defines, and those of constructors, which lead to their type's block."""
    names, inner = [], []
    is_mutual = bool(re.match(r"(\w+ )?mutual", block[0]))
    margin = "  " if is_mutual else ""
    data = None
    for line in block:
        head = re.match(rf"{margin}(?:abbrev |unfoldable )?pub (record |data )?(?!mod |use )({NAME})", line)
        if head:
            names.append(head[2])
            data = (head[1] or "").strip()
        elif data == "data":
            variants = re.match(rf"{margin}  (?! )((?:{NAME} )+): ", line)
            inner += variants[1].split() if variants else []
    return names, inner


class SpecsReader:
    """Reads the lines of a file of specs into its definitions; those in a module have its head as their context."""

    def __init__(self, crate, module):
        self.crate, self.module = crate, module
        self.specs = Specs("", [], {}, {}, {})
        self.block, self.doc, self.at, self.context = [], [], 0, ()

    def close(self):
        """Ends the definition that is being read."""
        while self.block and not self.block[-1].strip():
            self.block.pop()
        names, inner = names_in(self.block) if self.block else ([], [])
        if names:
            found = Definition(self.crate, self.module, names, inner, " ".join(self.doc), "\n".join(self.block), self.at, self.context)
            self.specs.blocks.append(found)
            self.specs.by_name.update({it: found for it in [*inner, *names]})
        self.block.clear()
        self.doc.clear()

    def import_names(self, line):
        self.close()
        head, _, text = line.partition("use ")
        pairs = dict(paths_in(text, "."))
        self.specs.imports.update(pairs)
        if "pub " in head:
            self.specs.passed.update(pairs)

    def read(self, lines, first):
        """Reads lines that begin at the margin, the first of which has this number."""
        at = 0
        while at < len(lines):
            line = lines[at]
            following = next((it for it in lines[at + 1:] if it.strip()), "")
            inside = re.match(r"(?:pub )?module .* where$", line)
            if inside:
                size = next((k for k, it in enumerate(lines[at + 1:]) if it.strip() and not it.startswith("  ")), len(lines) - at - 1)
                self.close()
                before, self.context = self.context, (*self.context, line)
                self.read([it[2:] for it in lines[at + 1:at + 1 + size]], first + at + 1)
                self.close()
                self.context = before
                at += size + 1
                continue
            self.take(line, first + at, following)
            at += 1

    def take(self, line, number, following):
        """Takes one line."""
        if re.match(r"((abbrev|unfoldable) )?(pub )?use ", line):
            self.import_names(line)
        elif line.startswith("--"):
            if self.block:
                self.close()
            if not re.match(r"-- --", line):
                self.doc.append(line.lstrip("-").strip())
        elif not line.strip():
            if self.block and following.startswith(" "):
                self.block.append(line)
            else:
                self.close()
        elif re.match(r"(abbrev|unfoldable|pub|mutual|record|data)\b", line):
            if self.block:
                self.close()
            self.block.append(line)
            self.at = number
        elif re.match(r"infix[lr]? ", line):
            if self.block:
                self.close()
        elif self.block:
            self.block.append(line)


@functools.lru_cache(maxsize=None)
def specs_of(crate, module):
    """A file of specs, read; nothing if there is none."""
    path = f"{TOP}/crates/{crate}/specs/{module}.antt"
    if not os.path.isfile(path):
        return None
    lines = text_of(path).split("\n")
    size = next((at for at, it in enumerate(lines) if not it.startswith("--")), len(lines))
    reader = SpecsReader(crate, module)
    reader.specs.doc = " ".join(it.lstrip("-").strip() for it in lines[:size])
    reader.read(lines[size:], size + 1)
    reader.close()
    return reader.specs
