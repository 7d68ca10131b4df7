#!/usr/bin/env python3
"""Finds what docs/STYLE.md rules out: words of a list, long sentences, and doc comments that begin with a question word.

usage: style.py [FILE..]    (at the top of the repository)

Reads README.md, CONTRIBUTING.md, the pages below docs/, the README.md of each crate, and the doc comments of each .rt file. Code
between ``` marks, indented code and `code` in a line are not read. A file that style_allowed.txt lists may have faults; a
listed file without faults is itself a fault, so the list only shrinks. With files, prints the faults of these, listed or
not. Prints a line for each fault, and ends with status 1 if there is one.
"""
import bisect
import glob
import os
import re
import sys

ALLOWED = ".ci/style_allowed.txt"
PAGES = ("README.md", "CONTRIBUTING.md", "docs/**/*.md", "crates/*/README.md")
SOURCES = "crates/*/src/**/*.rt"
# The most words of a sentence.
MOST_WORDS = 45
# Code whose name a pattern may need.
KEPT_CODE = ("None", "null", "true", "false")
# What an expression finds, and what to say instead.
PATTERNS = tuple(
    (re.compile(expression), instead)
    for expression, instead in (
        (r"\b(?:exactly|just) where\b|\bif and only if\b", "exactly when"),
        (r"(?i)\b(?:none|null|true|false|nothing|errors?|faults?|fails?|refuses?|refused|except|also|even|only) where\b", "if"),
        (r"(?i)\bbehind\b", "after, below, or 'that X leads to'"),
        (r"(?i)\b(?:tells|told)\b", "reports, says, indicates, distinguishes"),
        (r"(?i)\bst(?:ands?|ood)\b(?! for\b)", "is, remains, applies"),
        (r"(?i)(?<!thing )(?<!body )(?<!\bwho )(?<!\bwhat )(?<!\bwhere )\belse\b(?! if\b)", "otherwise, or 'everything else'"),
        (r"(?i)(?<!\bthere )\b(?:is|are|was|were) no (?!longer\b|\w+er than\b|more\b|less\b)", "is not a"),
        (r"(?<!\bthere )\b(?:is|are|was|were) none\b|\bnone if\b", "is not one, or `None` if"),
        (r"(?i)(?<!let )\balone\b", "only"),
        (r"(?i)\bwho(?:so)?ever\b", "the caller, the reader, anyone who"),
        (r"(?i)\bgrowths?\b", "allocation"),
        (r"(?i)(?<!each )(?<!some )(?<!one )(?<!both )(?<!all )\b(?:of|by) which\b", "whose, or a sentence of its own"),
        (r"(?i)\bso many\b", "'n words', the number"),
        (r"(?i)\bg(?:ives?|ave|iven) back\b|\bgive \w+ back\b", "returns"),
        (r"(?i)\bbut for\b|\ball but\b", "except"),
        (r"(?i)\b(?:anew|in vain)\b", "again; without effect"),
        (r"(?i)\b(?:roads?|tapes?)\b", "path; the thing itself"),
        (r"(?i)(?<!\bdid )\bwants?\b", "needs"),
        (r"(?i)\b(?:is|are|was|were|be) got\b", "is read, is returned"),
        (r"(?i)\b(?:there|here|where)(?:by|of|in|to|at|fore?)\b(?<!\btherefore)", "a plain word"),
    )
)
# How no doc comment begins.
OPENERS = re.compile(r"(?:What|How|The same|As)\b")


def text_of(path):
    with open(path, encoding="utf-8") as file:
        return file.read()


def without_code(line):
    """A line with one letter in place of each code, and without the targets of links."""
    line = re.sub(r"`([^`]*)`", lambda found: found[1] if found[1] in KEPT_CODE else "x", line)
    return re.sub(r"\]\([^)\s]*\)", "", line)


class Paragraph:
    """Lines that are read as one text: its words, and the line of the file on which each begins."""

    def __init__(self):
        self.text, self.offsets, self.lines = "", [], []

    def add(self, number, text):
        self.offsets.append(len(self.text))
        self.lines.append(number)
        self.text += f"{text} "

    def line_at(self, offset):
        return self.lines[bisect.bisect_right(self.offsets, offset) - 1]


def paragraphs(lines):
    """The paragraphs of numbered lines of Markdown: list items, headings and cells of tables are each one."""
    current, is_fenced = Paragraph(), False
    for number, line in lines:
        text = line.strip()
        if text.startswith("```"):
            is_fenced = not is_fenced
            text = ""
        if is_fenced or not text or (line.startswith("    ") and not current.text):
            yield current
            current = Paragraph()
        elif text.startswith("|"):
            for cell in without_code(text).strip("|").split("|"):
                yield current
                current = Paragraph()
                current.add(number, cell.strip())
        else:
            if re.match(r"(?:#+|[-*]|\d+\.) ", text):
                yield current
                current = Paragraph()
            current.add(number, without_code(re.sub(r"^(?:#+|[-*]|\d+\.) ", "", text)))
            if text.startswith("#"):
                yield current
                current = Paragraph()
    yield current


def comments(text):
    """The doc comments of a source, each as its numbered lines."""
    block, marker = [], None
    for number, line in enumerate(text.splitlines(), 1):
        found = re.match(r"\s*(//[/!])(?!/) ?(.*)", line)
        if block and (not found or found[1] != marker):
            yield block
            block = []
        if found:
            marker = found[1]
            block.append((number, found[2]))
    if block:
        yield block


def faults_of_paragraph(paragraph):
    """The line of each fault of a paragraph, and what is wrong."""
    for pattern, instead in PATTERNS:
        for found in pattern.finditer(paragraph.text):
            yield paragraph.line_at(found.start()), f"'{found[0].strip()}': say {instead}"
    start = 0
    for end in re.finditer(r"[.!?][\"')]*\s|$", paragraph.text):
        sentence = paragraph.text[start:end.end()]
        count = sum(1 for it in sentence.split() if re.search(r"\w", it))
        if count > MOST_WORDS:
            yield paragraph.line_at(start), f"a sentence of {count} words, and {MOST_WORDS} are the most: {sentence.strip()[:40]}.."
        start = end.end()


def faults_of_text(text, is_source):
    """The line of each fault of a page, or of a source's doc comments, and what is wrong."""
    blocks = list(comments(text)) if is_source else [list(enumerate(text.splitlines(), 1))]
    found = []
    for block in blocks:
        opener = OPENERS.match(block[0][1]) if is_source else None
        if opener:
            found.append((block[0][0], f"a doc comment begins with '{opener[0]}': begin with a verb or a noun"))
        for paragraph in paragraphs(block):
            found += faults_of_paragraph(paragraph)
    return sorted(found)


def faults_of_file(path):
    """The faults of a file, each as `path:line: what`."""
    return [f"{path}:{line}: {what}" for line, what in faults_of_text(text_of(path), path.endswith(".rt"))]


def paths():
    """The files that are read."""
    return sorted({it for pattern in (*PAGES, SOURCES) for it in glob.glob(pattern, recursive=True)})


def faults_of_list(allowed, files, clean):
    """What is wrong with the list of files that may have faults."""
    if allowed != sorted(set(allowed)):
        yield f"{ALLOWED} is not sorted, or lists a file twice"
    for path in allowed:
        if path not in files:
            yield f"{ALLOWED}: {path} is not a file that is read (delete the line)"
        elif path in clean:
            yield f"{ALLOWED}: {path} has no fault (delete the line)"


def faults():
    """The faults of all files that the list doesn't allow, and those of the list."""
    allowed = text_of(ALLOWED).splitlines() if os.path.isfile(ALLOWED) else []
    files = paths()
    found = {path: faults_of_file(path) for path in files}
    yield from (line for path in files if path not in allowed for line in found[path])
    yield from faults_of_list(allowed, files, {path for path in files if not found[path]})


def main(names):
    found = [line for path in names for line in faults_of_file(path)] if names else list(faults())
    for line in found:
        print(line)
    return 1 if found else 0


if __name__ == "__main__":
    if sys.argv[1:] in (["-h"], ["--help"]):
        sys.exit(print(__doc__))
    sys.exit(main(sys.argv[1:]))
