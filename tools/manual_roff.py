"""Turns the Markdown of the manual into roff.

A page of docs/manual has paragraphs, lists, tables, blocks of code and headings. A table becomes a list of its rows, and a
long line of a block is folded. A link to another page of the manual names that page's man page.
"""
import re

# The most columns of a line of a block: a terminal has 80, and the block is indented.
COLUMNS = 64
LINK = re.compile(r"\[((?:[^\[\]`]|`[^`]*`)+)\]\(([^)\s]+)\)")
INLINE = re.compile(rf"`([^`]+)`|{LINK.pattern}|(?<![\w*])\*([^*\s](?:[^*]*[^*\s])?)\*(?![\w*])")
ITEM = re.compile(r"(-|\d+\.) (.*)")
# The characters that mean something else in roff.
ESCAPES = {"\\": "\\e", "-": "\\-", "'": "\\(aq", "^": "\\(ha", "~": "\\(ti", "`": "\\(ga"}


def escaped(text):
    """A text of which roff prints each character."""
    return "".join(ESCAPES.get(it, it) for it in text)


def quoted(text):
    """A line that is no request of roff."""
    text = escaped(text)
    return f"\\&{text}" if text.startswith((".", "\\(aq")) else text


def man_page(target):
    """The man page of a page of the manual, as (name, section), or None if a link leads elsewhere."""
    found = re.fullmatch(r"([\w-]+)\.md(?:#.*)?", target)
    if not found:
        return None
    name = found[1]
    if name == "README":
        return "hagzimot", 1
    return f"hagzimot-{name}", section_of(name)


def section_of(name):
    """The section of the manual: 7 for pages that are not of a command."""
    return 7 if name in ("schemas", "calls", "messages", "pipes", "first-steps") else 1


def reference(page):
    return f"\\fB{escaped(page[0])}\\fR({page[1]})"


def linked(text, target):
    """The text of a link, with the man page that it leads to."""
    page = man_page(target)
    if page is None:
        return inline(text)
    is_command = text in (f"`{page[0]}`", f"`{page[0].replace('-', ' ', 1)}`", f"`{page[0].removeprefix('hagzimot-')}`")
    return reference(page) if is_command else f"{inline(text)} ({reference(page)})"


def inline(text):
    """A text with code in bold, emphasis in italics, and links as references."""
    parts, at = [], 0
    for found in INLINE.finditer(text):
        parts.append(escaped(text[at:found.start()]))
        if found[1]:
            parts.append(f"\\fB{escaped(found[1])}\\fR")
        elif found[2]:
            parts.append(linked(found[2], found[3]))
        else:
            parts.append(f"\\fI{escaped(found[4])}\\fR")
        at = found.end()
    line = "".join([*parts, escaped(text[at:])])
    return f"\\&{line}" if line.startswith((".", "\\(aq")) else line


def folded(line):
    """A line of a block, in parts that fit: a command goes on after a backslash, and output is indented."""
    line = line.expandtabs(8).rstrip()
    if len(line) <= COLUMNS:
        return [line]
    if not line.startswith("$ "):
        # Between words if there is a blank in the second half of the line.
        at = line.rfind(" ", COLUMNS // 2, COLUMNS + 1)
        at = COLUMNS if at < 0 else at
        return [line[:at], *folded(f"    {line[at:].lstrip()}")]
    lines = [""]
    # An option and its value remain on one line.
    for word in re.findall(r"""(?:--?[\w-]+ (?![-|]))?(?:'[^']*'|"[^"]*"|\S)+""", line):
        if lines[-1] and len(lines[-1]) + len(word) + 3 > COLUMNS:
            lines[-1] += " \\"
            lines.append(f"    {word}")
        else:
            lines[-1] = f"{lines[-1]} {word}".lstrip() if len(lines) == 1 else f"{lines[-1]} {word}"
    return lines


def code(lines):
    """A block of code."""
    return [".PP", ".RS 4", ".nf", *(quoted(part) for line in lines for part in folded(line)), ".fi", ".RE"]


def cells_of(line):
    """The cells of a row; a bar in code is part of its cell."""
    kept = re.sub(r"`[^`]*`", lambda found: found[0].replace("|", "\0"), line.strip().strip("|"))
    return [it.replace("\0", "|").strip() for it in kept.split("|")]


def table(lines):
    """A table as a list: the first cell of each row, and the others below it."""
    head, rows = cells_of(lines[0]), [cells_of(it) for it in lines[2:]]
    made = []
    for row in rows:
        made += [".TP", inline(row[0])]
        if len(row) == 2:
            made.append(inline(row[1]) or "\\&")
            continue
        parts = [f"{inline(name)}: {inline(cell)}." for name, cell in zip(head[1:], row[1:]) if cell]
        made += [part for it in parts for part in (it, ".br")][:-1]
    return made


def blocks_of(lines):
    """The blocks of a section, each as its kind and its lines."""
    kind, block, is_fenced = None, [], False
    for line in [*lines, ""]:
        if line.startswith("```"):
            is_fenced, now = not is_fenced, None
        elif is_fenced:
            now = "code"
        elif not line.strip():
            now = None
        elif line.startswith("    ") and kind in (None, "code"):
            now, line = "code", line[4:]
        elif line.startswith("  ") and kind == "item":
            now = kind
        else:
            now = "table" if line.startswith("|") else "item" if ITEM.match(line) else "head" if line.startswith("#") else "text"
        if block and (now != kind or now == "head" or (now == "item" and ITEM.match(line))):
            yield kind, block
            block = []
        kind = now
        if now:
            block.append(line)
    if block:
        yield kind, block


def roff_of(lines):
    """The lines of a section in roff."""
    made = []
    for kind, block in blocks_of(lines):
        if kind == "code":
            made += code(block)
        elif kind == "table":
            made += table(block)
        elif kind == "item":
            mark, text = ITEM.fullmatch(" ".join(it.strip() for it in block)).groups()
            made += [".IP \\(bu 2" if mark == "-" else f".IP {mark} 3", inline(text)]
        elif kind == "head":
            made.append(f".SS {escaped(block[0].lstrip('# '))}")
        else:
            made += [".PP", inline(" ".join(block))]
    return made


class Page:
    """A page of the manual: its title, summary and synopsis, and its sections."""

    def __init__(self, text):
        head, *parts = re.split(r"(?m)^## ", text)
        lines = head.splitlines()
        self.title = lines[0].removeprefix("# ")
        body = [it for it in lines[1:]]
        paragraphs = [list(block) for _, block in blocks_of(body)]
        self.summary = " ".join(paragraphs[0]) if paragraphs else ""
        self.synopsis = next((it[4:] for it in body if it.startswith("    hagzimot")), None)
        self.sections = {}
        for part in parts:
            title, _, rest = part.partition("\n")
            self.sections[title.strip()] = rest.splitlines()
        self.body = body

    @property
    def description(self):
        """What comes before the first section, without the summary and the synopsis of a command."""
        if self.synopsis is None:
            return self.body
        return self.body[self.body.index(f"    {self.synopsis}") + 1:]

    def references(self, own):
        """The man pages to which the page's links lead, except its own."""
        text = "\n".join([*self.body, *(it for lines in self.sections.values() for it in lines)])
        found = {man_page(target) for _, target in LINK.findall(text)} - {None, own}
        return sorted(found, key=lambda it: (it[1], it[0]))
