#!/usr/bin/env python3
"""Checks or builds crates like `rt check` and `rt lib`, but sums each crate once.

usage: tools/check.py check NAME [FLAG..]     proves a crate; the flags are those of `rt check`, as --only or --jobs
       tools/check.py build [-j N] NAME..     builds libraries with those below them, N at a time (one for each processor); a static
                                              library is linked too
       tools/check.py program [-j N] NAME..   proves and builds programs, with those libraries below them that have changed
       tools/check.py link NAME..             links static libraries over the libraries that are there, as `rt ci` leaves them
       tools/check.py must-fail NAME          tries the wrong bodies of a crate

`rt` finds what has changed by a sum of each crate's files. In this toolchain the sum of a crate is made anew for each path that
leads to it, 33,959 times for `hagzimot`, which takes longer than the proof. This script keeps the sums. It runs the code of
the `rt` on the PATH, so what is proved, and what is kept in out/, are the same. `rt ci` needs no such help.

Run it at the top of the repository, and edit nothing meanwhile. Ends with status 0 if all is proved.
"""
import concurrent.futures
import importlib.machinery
import importlib.util
import os
import shutil
import sys

sys.dont_write_bytecode = True
TOP = os.path.dirname(os.path.dirname(os.path.realpath(__file__)))
PROVED, NOT_PROVED, WRONG_WORDS = 0, 1, 2
TARGET = "x86_64-unknown-linux-gnu"


def loaded(path, name):
    """Returns a Python file as a module."""
    loader = importlib.machinery.SourceFileLoader(name, path)
    module = importlib.util.module_from_spec(importlib.util.spec_from_loader(name, loader))
    sys.modules[name] = module
    loader.exec_module(module)
    return module


def toolchain():
    """Returns the code of `rt`, whose crates keep their sums."""
    found = shutil.which("rt")
    if not found:
        sys.exit("rt: it isn't on the PATH (install the toolchain, and put its folder bin on the PATH)")
    rt = loaded(os.path.realpath(found), "rt_of_path")
    made, sums = rt.rtlib.Crate.stamp, {}

    def stamp(crate):
        if crate.folder not in sums:
            sums[crate.folder] = made(crate)
        return sums[crate.folder]

    rt.rtlib.Crate.stamp = stamp
    # The first call sets a signal's handler, which only the main thread may.
    rt.rtlib.guarded()
    # A toolchain that shares work takes what another checkout on this machine has proved of the same text.
    if hasattr(rt, "share_work"):
        rt.share_work(True)
    return rt


def chains(crates):
    """Returns how many crates the longest chain above each crate has, the crate included."""
    longest = {it.name: 1 for it in crates}
    for crate in sorted(crates, key=lambda it: -len(it.below())):
        for below in crate.deps:
            if below.name in longest:
                longest[below.name] = max(longest[below.name], longest[crate.name] + 1)
    return longest


def in_order(crates, at_once, build):
    """Builds crates side by side, each after those below it and first those with the longest chain above. Returns those that fail."""
    longest, names = chains(crates), {it.name for it in crates}
    left, done, failed, running = sorted(crates, key=lambda it: -longest[it.name]), set(), [], {}
    with concurrent.futures.ThreadPoolExecutor(at_once) as pool:
        while left or running:
            ready = [it for it in left if {below.name for below in it.below()} & names <= done]
            for crate in ready[: at_once - len(running)]:
                left.remove(crate)
                running[pool.submit(build, crate)] = crate
            if not running:
                break
            for ended in concurrent.futures.wait(running, return_when=concurrent.futures.FIRST_COMPLETED).done:
                crate = running.pop(ended)
                if ended.result():
                    failed.append(crate.name)
                else:
                    done.add(crate.name)
    return failed + [it.name for it in left]


def build_libraries(crates, at_once):
    """Builds those libraries that have changed, each with one job. Their output is in out/build.log. Returns the status."""

    def build(crate):
        if crate.is_built():
            return 0
        os.makedirs(f"{crate.folder}/out", exist_ok=True)
        with open(f"{crate.folder}/out/build.log", "w", encoding="utf-8") as crate.out:
            status = crate.build_rlib(["--jobs", "1"], anew=False)
        print(f"{crate.name}: {'proved' if not status else f'NOT PROVED, see {crate.folder}/out/build.log'}", flush=True)
        return status

    failed = in_order([it for it in crates if it.makes_rlib()], at_once, build)
    if failed:
        print(f"not built: {' '.join(failed)}")
    return NOT_PROVED if failed else PROVED


def link(crates):
    """Proves static libraries over the libraries below them, links them, and returns the status."""
    for crate in crates:
        missing = [it.name for it in crate.below() if not os.path.isdir(it.rlib)]
        if missing:
            print(f"{crate.name}: {missing[0]} isn't built (tools/check.py build {crate.name} builds it)")
            return NOT_PROVED
        os.makedirs(f"{crate.folder}/out", exist_ok=True)
        if crate.build_static(["--jobs", "1"]):
            return NOT_PROVED
        print(f"{crate.name}: proved and linked", flush=True)
    return PROVED


def build_programs(rt, crates, at_once):
    """Proves and links programs over the libraries below them, N jobs for each. Their output is in out/build.log."""
    for crate in crates:
        os.makedirs(f"{crate.folder}/out", exist_ok=True)
        with open(f"{crate.folder}/out/build.log", "w", encoding="utf-8") as crate.out:
            status = built_program(rt, crate, at_once)
        print(f"{crate.name}: {'proved' if not status else f'NOT PROVED, see {crate.folder}/out/build.log'}", flush=True)
        if status:
            return NOT_PROVED
    return PROVED


def built_program(rt, crate, at_once):
    """Proves and links a program as `rt run` does, and runs nothing. Returns the status."""
    kit, made = rt.rtlib.KIT, f"out/{crate.name}.o"
    status = crate.compile(["--jobs", str(at_once)], made)
    if status or not os.path.getsize(f"{crate.folder}/{made}"):
        return status or NOT_PROVED
    words = ["--target", TARGET, "--toolchain", f"{kit}/toolchain", "-o", f"out/{crate.name}", made]
    return crate.call(f"{kit}/bin/rattle-link", *words, f"{kit}/c/libos_c.a", f"{kit}/c/liblibc_c.a")


def try_edits(rt, crate):
    """Tries the wrong bodies of a crate, and returns the status."""
    rt.Crate.allowed = rt.handles_of(TOP)
    return rt.edits_alone([crate.name])


def main(words):
    if len(words) < 2 or words[0] not in ("check", "build", "program", "link", "must-fail"):
        print(__doc__)
        return PROVED if words in (["-h"], ["--help"]) else WRONG_WORDS
    verb, words = words[0], words[1:]
    at_once = len(os.sched_getaffinity(0))
    if words[0] == "-j" and len(words) > 2 and words[1].isdigit():
        at_once, words = max(1, int(words[1])), words[2:]
    rt = toolchain()
    known = {it.name: it for it in rt.rtlib.crates_below(TOP)}
    names, flags = (words, []) if verb in ("build", "program", "link") else (words[:1], words[1:])
    unknown = [it for it in names if it not in known]
    if unknown:
        print(f"{unknown[0]}: crates.txt lists no such crate")
        return WRONG_WORDS
    asked = [known[it] for it in names]
    static = [it for it in asked if it.is_static]
    if verb == "link":
        return link(static)
    below = {it.name: it for crate in asked for it in crate.below()}
    status = build_libraries([*below.values(), *(asked if verb == "build" else [])], at_once)
    if status or verb == "build":
        return status or link(static)
    if verb == "program":
        return build_programs(rt, asked, at_once)
    return asked[0].check(flags) if verb == "check" else try_edits(rt, asked[0])


if __name__ == "__main__":
    os.chdir(TOP)
    sys.exit(main(sys.argv[1:]))
