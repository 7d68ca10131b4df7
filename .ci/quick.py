#!/usr/bin/env python3
"""Refuses in seconds what would fail the gate after an hour: files out of layout, edits that no longer apply, dead links,
dependencies that nothing cites or that go up, a second path to an item, a second meaning of a word of the definitions,
and English that docs/STYLE.md rules out (style.py).

usage: quick.py    (at the top of the repository)

Prints a line for each fault, and ends with status 1 where there is one.
"""
import concurrent.futures
import glob
import os
import re
import shutil
import subprocess
import sys
import tempfile

sys.dont_write_bytecode = True
import style

# The most wrong bodies in the repository, and in a crate.
MOST_EDITS = 90
MOST_EDITS_OF_A_CRATE = 8
# The folders of a crate that hold its text, and the most lines of a file of code.
PARTS = ("src", "specs", "proofs")
MOST_LINES = 400
# The most parameters of a definition of `specs`, those in braces not counted.
MOST_PARAMETERS = 8
# The crates that pass on what stands in others.
DOORS = ("capnp_layout", "capnp_message", "capnp_schema", "capnp_relay")


def text_of(path):
    with open(path, encoding="utf-8") as file:
        return file.read()


def files_below(folder):
    for at, _, names in os.walk(folder):
        for name in sorted(names):
            yield os.path.join(at, name)


def listed_lines():
    """The crates that crates.txt names, each with the crates that it uses."""
    for line in text_of("crates.txt").splitlines():
        head, _, uses = line.split("#")[0].partition(":")
        if head.strip():
            yield head.split()[0], uses.split()


def listed_crates():
    """The crates that crates.txt names."""
    return [crate for crate, _ in listed_lines()]


def faults_of_crates(crates):
    """Crates that are listed twice, or listed and not there, or there and not listed."""
    there = {it for it in os.listdir("crates") if os.path.isdir(f"crates/{it}/src")}
    yield from (f"crates.txt: {it} is listed twice" for it in set(crates) if crates.count(it) > 1)
    yield from (f"crates.txt: crates/{it} is not there" for it in sorted(set(crates) - there))
    yield from (f"crates/{it} is not in crates.txt" for it in sorted(there - set(crates)))


def faults_of_uses():
    """Crates that a line of crates.txt names and no file of its crate cites."""
    for crate, uses in listed_lines():
        paths = [it for part in PARTS for it in files_below(f"crates/{crate}/{part}") if it.endswith((".rt", ".antt"))]
        text = "\n".join(map(text_of, paths))
        for used in uses:
            if not re.search(rf"\b{used}::|\bRattle\.{used}\.", text):
                yield f"crates.txt: no file of {crate} cites {used}"


def faults_of_storeys():
    """Crates that use one of a storey above their own, and those that use one further down in crates.txt."""
    storey, storeys, above = 0, {}, []
    for line in text_of("crates.txt").splitlines():
        storey += line.startswith("# ----")
        head, _, uses = line.split("#")[0].partition(":")
        if head.strip():
            crate = head.split()[0]
            storeys[crate] = storey
            above += [(crate, it) for it in uses.split()]
    for crate, used in above:
        if storeys.get(used, 0) > storeys[crate]:
            yield f"crates.txt: {crate} uses {used} of a storey above its own"


def faults_of_roads(crates):
    """Items that a crate which is no door passes on from another: each has one path, and those of the doors."""
    for crate in crates:
        path = f"crates/{crate}/src/lib.rt"
        if crate in DOORS or not os.path.isfile(path):
            continue
        for passed in re.findall(r"(?m)^pub use (\w+)::", text_of(path)):
            if passed in crates:
                yield f"{path} passes on what stands in {passed}"


def faults_of_words(crates):
    """Public names of definitions that stand in two modules of a crate, so that a word would have two meanings there."""
    for crate in crates:
        places = {}
        for path in files_below(f"crates/{crate}/specs"):
            for name in re.findall(r"(?m)^ *(?:pub (?:record|data)|(?:abbrev|unfoldable) pub) (\S+)", text_of(path)):
                places.setdefault(name, []).append(path)
        for name, paths in sorted(places.items()):
            if len(paths) > 1:
                yield f"{name} is defined in {' and '.join(paths)}"


def parts_of(text, end):
    """The parts of a line: those before its arrows, or those in parentheses and braces, as `end` says."""
    depth, part = 0, ""
    for it in text:
        depth += (it in "({") - (it in ")}")
        is_end = not depth and it in (end if end == "→" else ")}")
        part += "" if is_end and end == "→" else it
        if is_end:
            yield part.strip()
            part = ""


def parameters_of(parts):
    """How many parameters the parts name, without those in braces; a part that names none is one."""
    count = 0
    for part in parts:
        names = re.match(r"\(([^():]+) : .*\)$", part)
        count += len(names[1].split()) if names else not part.startswith("{")
    return count


def faults_of_parameters(crates):
    """Definitions with more parameters than can be told apart by their places: what belongs together is a record."""
    for crate in crates:
        for path in files_below(f"crates/{crate}/specs"):
            text = text_of(path)
            found = [(name, parts_of(it, "→")) for name, it in re.findall(r"(?m)^(?:abbrev|unfoldable) pub (\S+) : (.*)$", text)]
            for block in re.findall(r"(?m)^(?:abbrev|unfoldable) mutual\n((?:(?: .*)?\n)*)", text):
                found += [(name, parts_of(it, "→")) for name, it in re.findall(r"(?m)^  pub (\S+) : (.*)$", block)]
            found += [(name, parts_of(it, ")")) for name, it in re.findall(r"(?m)^pub (?:record|data) (\S+) (.*) : Type", text)]
            for name, parts in found:
                if parameters_of(parts) > MOST_PARAMETERS:
                    yield f"{path}: {name} has more than {MOST_PARAMETERS} parameters"


def fault_of_edit(crate, path):
    """Why an edit can't be applied to its crate, or nothing."""
    file, old, pairs, texts = "", None, 0, {}
    for line in text_of(path).split("\n"):
        if line.startswith("file: "):
            file = f"crates/{crate}/{line[len('file: '):].strip()}"
        elif line.startswith("old: "):
            old = line[len("old: "):]
        elif line.startswith("new:"):
            if not file or old is None:
                return "a new text stands before any file or old text"
            if file not in texts:
                if not os.path.isfile(file):
                    return f"{file} is not there"
                texts[file] = text_of(file)
            count = texts[file].count(old)
            if count != 1:
                return f"its old text stands in {file} {count} times, and not once: {old.strip()[:60]}"
            texts[file] = texts[file].replace(old, line[len("new:"):].removeprefix(" "))
            old, pairs = None, pairs + 1
    return None if pairs else "it has no pair of an old and a new text"


def faults_of_edits(crates):
    """Edits that can't be applied, and crates that have too many."""
    count = 0
    for crate in crates:
        folder = f"crates/{crate}/must-fail"
        edits = sorted(os.listdir(folder)) if os.path.isdir(folder) else []
        count += len(edits)
        if len(edits) > MOST_EDITS_OF_A_CRATE:
            yield f"{folder} has {len(edits)} edits, and {MOST_EDITS_OF_A_CRATE} are the most"
        for name in edits:
            why = fault_of_edit(crate, f"{folder}/{name}")
            if why:
                yield f"{folder}/{name}: {why}"
    if count > MOST_EDITS:
        yield f"there are {count} edits, and {MOST_EDITS} are the most"


def anchors_of(page):
    """The anchors of a page's headings, as the hosts of repositories make them."""
    heads = re.findall(r"(?m)^#+ (.*)$", re.sub(r"(?s)```.*?```", "", text_of(page)))
    return {re.sub(r"[^\w\- ]", "", it.lower()).replace(" ", "-") for it in heads}


def faults_of_links():
    """Links of the pages to files or headings that are not there."""
    pages = subprocess.run(["git", "ls-files", "*.md"], capture_output=True, text=True, check=True).stdout.split()
    for page in pages:
        text = re.sub(r"(?s)```.*?```", "", text_of(page))
        for link in re.findall(r"\]\(([^)\s]+)\)", text):
            target, _, anchor = link.partition("#")
            path = os.path.join(os.path.dirname(page), target) if target else page
            if "://" in link:
                continue
            if not os.path.exists(path):
                yield f"{page}: there is no {target}"
            elif anchor and path.endswith(".md") and anchor not in anchors_of(path):
                yield f"{page}: {target or 'the page'} has no heading #{anchor}"


def faults_of_records():
    """Design records that the index doesn't list once, and numbers that two records have."""
    index, numbers = text_of("docs/design/README.md"), set()
    for name in sorted(os.listdir("docs/design")):
        if name == "README.md":
            continue
        if index.count(f"({name})") != 1:
            yield f"docs/design/README.md lists {name} {index.count(f'({name})')} times"
        if name[:4] in numbers:
            yield f"docs/design/{name}: another record has this number"
        numbers.add(name[:4])


def faults_of_samples():
    """Samples of the front page and the guide that stand in no program of the repository, line for line."""
    def lines(text):
        return [it.strip() for it in text.split("\n") if it.strip()]

    programs = ["\n".join(lines(text_of(it))) for it in glob.glob("crates/*/src/main.rt")]
    for page in ("README.md", "docs/library.md"):
        for sample in re.findall(r"(?s)```rust\n(.*?)```", text_of(page)):
            text = lines(sample)
            if not any("\n".join(text) in it for it in programs):
                yield f"{page}: a sample that begins with '{text[0]}' stands in no program"


def faults_of_named_tests():
    """Lines of docs/verification/tests.md that name a case or a wrong body which is not there."""
    for line in text_of("docs/verification/tests.md").splitlines():
        cells = [it.strip() for it in line.strip("| \n").split(" | ")]
        names = re.findall(r"`([^`]+)`", cells[-2] if len(cells) == 2 else cells[-1])
        if len(cells) == 3 and "/data/" in cells[1]:
            path = f"crates/{cells[1].strip('`')}"
            text = text_of(path) if os.path.isfile(path) else ""
            yield from (f"docs/verification/tests.md: {path} has no line {it}" for it in names if it not in text)
        elif len(cells) == 2 and os.path.isdir(f"crates/{cells[1].strip('`')}/must-fail"):
            edits = os.listdir(f"crates/{cells[1].strip('`')}/must-fail")
            yield from (f"docs/verification/tests.md: {cells[1]} has no edit {it}" for it in names if f"{it}.edit" not in edits)


def faults_of_counts(crates):
    """Files of JSON cases, one in a line, of which a program's stdout tells another number than they have lines."""
    for crate in crates:
        if not os.path.isfile(f"crates/{crate}/stdout"):
            continue
        for name, count in re.findall(r"^(\S+\.jsonl): (\d+) cases ", text_of(f"crates/{crate}/stdout"), re.M):
            lines = len(text_of(f"crates/{crate}/data/{name}").splitlines())
            if lines != int(count):
                yield f"crates/{crate}/stdout tells {count} cases of {name}, which has {lines}"


def faults_of_answers(crates):
    """Folders of proofs whose function the crate doesn't have. Those of a cycle, which begin with +, are named otherwise."""
    for crate in crates:
        text = "\n".join(text_of(it) for it in files_below(f"crates/{crate}/src") if it.endswith(".rt"))
        names = set(re.findall(r"\bfn (\w+)", text))
        for path in files_below(f"crates/{crate}/proofs"):
            name = os.path.basename(os.path.dirname(path))
            if os.path.basename(path) in ("Answers.antt", "Invariants.antt") and not name.startswith("+") and name not in names:
                yield f"{path}: {crate} has no function {name}"


def faults_of_lengths(crates):
    """Files of code that are too long."""
    for crate in crates:
        for path in files_below(f"crates/{crate}/src"):
            if path.endswith(".rt") and len(text_of(path).splitlines()) > MOST_LINES:
                yield f"{path} has more than {MOST_LINES} lines"


def faults_of_layout(crate, room):
    """The files of a crate that rt fmt changes, tried on a copy."""
    copy = f"{room}/crates/{crate}"
    for part in PARTS:
        if os.path.isdir(f"crates/{crate}/{part}"):
            shutil.copytree(f"crates/{crate}/{part}", f"{copy}/{part}")
    ran = subprocess.run(["rt", "fmt"], cwd=copy, capture_output=True, text=True)
    if ran.returncode:
        return [f"crates/{crate}: rt fmt can't lay it out: {(ran.stdout + ran.stderr).strip()[:200]}"]
    changed = []
    for path in files_below(copy):
        own = os.path.relpath(path, room)
        if os.path.isfile(own) and text_of(path) != text_of(own):
            changed.append(f"{own} isn't in rt fmt's layout")
    return changed


def main():
    crates = listed_crates()
    found = [*faults_of_crates(crates), *faults_of_uses(), *faults_of_edits(crates), *faults_of_links(), *faults_of_records(), *faults_of_samples()]
    found += [*faults_of_named_tests(), *faults_of_lengths(crates), *faults_of_counts(crates), *faults_of_answers(crates)]
    found += [*faults_of_storeys(), *faults_of_roads(crates), *faults_of_words(crates), *faults_of_parameters(crates)]
    found += style.faults()
    with tempfile.TemporaryDirectory() as room:
        shutil.copy("crates.txt", room)
        with concurrent.futures.ThreadPoolExecutor(os.cpu_count()) as pool:
            for lines in pool.map(lambda it: faults_of_layout(it, room), crates):
                found += lines
    for line in found:
        print(line)
    print(f"quick look: {len(crates)} crates, {len(found)} faults")
    return 1 if found or not crates else 0


if __name__ == "__main__":
    if sys.argv[1:] in (["-h"], ["--help"]):
        sys.exit(print(__doc__))
    sys.exit(main())
