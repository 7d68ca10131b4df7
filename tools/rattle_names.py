"""Finds what a name of a source stands for: an item of a crate, or a definition of its specs."""
import functools
import glob
import os
import re

import rattle_sources

DECLARED = ("fn", "struct", "enum", "trait", "type", "const", "static")


class Lost(Exception):
    """A path that leads to nothing."""


def module_path(crate, module):
    """The file of a module of a crate, or nothing."""
    base = f"{rattle_sources.TOP}/crates/{crate}/src"
    if not module:
        return f"{base}/lib.rt"
    places = (f"{base}/{'/'.join(module)}.rt", f"{base}/{'/'.join(module)}/mod.rt")
    return next((it for it in places if os.path.isfile(it)), None)


def module_file(crate, module):
    path = module_path(crate, module)
    return rattle_sources.file_of(path) if path and os.path.isfile(path) else None


def absolute(crate, module, path):
    """A path of code as the crate it begins in, and the rest; the crate is None for the standard library and others."""
    if path[0] == "crate":
        return crate, path[1:]
    if path[0] == "self":
        return crate, (*module, *path[1:])
    if path[0] == "super":
        return crate, (*module[:-1], *path[1:])
    if os.path.isdir(f"{rattle_sources.TOP}/crates/{path[0]}/src"):
        return path[0], path[1:]
    if module_path(crate, (*module, path[0])):
        return crate, (*module, *path)
    return None, path


def locate(crate, path, depth=0):
    """What a path in a crate leads to: ("module", crate, module) or ("item", crate, module, item)."""
    if depth > 8:
        raise Lost("::".join((crate, *path)))
    if module_path(crate, path) and os.path.isfile(module_path(crate, path)):
        return "module", crate, path
    module, name = path[:-1], path[-1] if path else ""
    file = module_file(crate, module)
    if file:
        for item in file.items:
            if item.name == name and item.kind in DECLARED:
                return "item", crate, module, item
        if name in file.passed:
            to, rest = absolute(crate, module, file.passed[name])
            if to:
                return locate(to, rest, depth + 1)
    elif module:
        kind, *found = locate(crate, module, depth + 1)
        if kind == "module":
            return locate(found[0], (*found[1], name), depth + 1)
    raise Lost("::".join((crate, *path)))


def key_of(crate, module, name):
    return crate, tuple(module), name


def item_named(crate, module, file, name):
    """The key of the item that a name means in a file, or nothing."""
    if any(it.name == name and it.kind in DECLARED for it in file.items):
        return key_of(crate, module, name)
    if name not in file.imports or file.imports[name][0] == "Rattle":
        return None
    to, rest = absolute(crate, module, file.imports[name])
    try:
        kind, *found = locate(to, rest) if to else ("none",)
    except Lost:
        return None
    return key_of(found[0], found[1], found[2].name) if kind == "item" else None


def definition_at(path, depth=0):
    """What a path of specs leads to: ("block", definition, name), ("item", crate, module, name, variant), or nothing."""
    if len(path) < 4 or path[0] != "Rattle" or not os.path.isdir(f"{rattle_sources.TOP}/crates/{path[1]}/specs") and path[3] != "declared":
        return None
    crate = path[1]
    if path[3] == "declared":
        names = [it for it in path[4:] if it not in ("TheVariants", "Ghosts")]
        for size in range(len(names), 0, -1):
            module = module_path(crate, names[:size])
            if module and os.path.isfile(module) and size < len(names):
                rest = names[size:]
                variant = rest[-1] if "TheVariants" in path[4:-1] and len(rest) > 1 else None
                return "item", crate, tuple(names[:size]), rest[0], variant
        return None
    module, name = path[3], path[4] if len(path) > 4 else None
    specs = rattle_sources.specs_of(crate, module)
    if not specs or not name or depth > 8:
        return None
    if name in specs.by_name:
        return "block", specs.by_name[name], name
    if name in specs.passed:
        return definition_at(specs.passed[name], depth + 1)
    return None


@functools.lru_cache(maxsize=None)
def operators_of(names):
    """The signs of operators among names, as `▸` of `◌▸◌`, each with its name."""
    found = {}
    for name in names:
        for sign in name.split("◌"):
            if sign and "◌" in name:
                found[sign] = name
    return found


def head_type(text):
    """The path of the type that a text begins with."""
    found = re.match(r"(?:&(?:'\w+ )?(?:mut )?)?([\w:]+)", text)
    return found[1] if found else ""


def without_parameters(text):
    """A text without the parameters in angles that it begins with."""
    depth = 0
    for at, sign in enumerate(text):
        depth += (sign == "<") - (sign == ">" and text[at - 1] != "-")
        if not depth:
            return text[at + 1:] if text.startswith("<") else text
    return text


def parts_of_impl(signature):
    """The trait, which may be empty, and the type of an implementation."""
    text = " ".join(signature.split())
    text = without_parameters(text.removeprefix("impl").strip()).strip()
    text = text.partition(" where ")[0].removesuffix(" where")
    depth = 0
    for at in range(len(text)):
        depth += (text[at] in "<(") - (text[at] in ">)" and text[at - 1] != "-")
        if not depth and text.startswith(" for ", at):
            return text[:at].strip(), text[at + 5:].strip()
    return "", text


@functools.lru_cache(maxsize=None)
def impls_of(crate):
    """The implementations of a crate: the key of the type and of the trait, as far as they are found, and the item."""
    found = []
    base = f"{rattle_sources.TOP}/crates/{crate}/src"
    for path in sorted(glob.glob(f"{base}/**/*.rt", recursive=True)):
        parts = os.path.relpath(path, base)[:-3].split("/")
        module = () if parts == ["lib"] else tuple(it for it in parts if it != "mod")
        file = rattle_sources.file_of(path)
        for item in file.items:
            if item.kind == "impl":
                trait, kind = parts_of_impl(item.signature)
                keys = [named_in_path(crate, module, file, head_type(it)) if it else None for it in (kind, trait)]
                found.append((*keys, trait, kind, item, file, module))
    return found


def named_in_path(crate, module, file, path):
    """The key of an item that a name or a path of code means in a file."""
    first, *rest = path.split("::")
    if not rest:
        return item_named(crate, module, file, first)
    before = file.imports.get(first)
    full = (*before, *rest) if before and before[0] != "Rattle" else (first, *rest)
    to, inner = absolute(crate, module, full)
    try:
        kind, *found = locate(to, inner) if to else ("none",)
    except Lost:
        return None
    return key_of(found[0], found[1], found[2].name) if kind == "item" else None
