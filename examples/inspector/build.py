#!/usr/bin/env python3
"""Builds the inspector: one page that shows and edits messages in a browser, with the library in it for WebAssembly.

usage: build.py OUT [--module FILE]     (OUT gets hagzimot.wasm and inspector.html; FILE: an earlier hagzimot.wasm)

The toolchain doesn't build the library for WebAssembly, because the library takes memory. So this script takes the module of
LLVM that the toolchain makes for x86-64, without proof, and compiles it for WebAssembly of 64 bits, with memory.c and wide.c
in place of the C library. Nothing is proved of what is built so. Both targets have pointers of 64 bits, the same order of
bytes, and the same layout of structs. It takes some five minutes.
"""
import base64
import os
import re
import subprocess
import sys
import tempfile

HERE = os.path.dirname(os.path.realpath(__file__))
TOP = os.path.dirname(os.path.dirname(HERE))
sys.dont_write_bytecode = True
sys.path.insert(0, f"{TOP}/tools")
import c_library
import unproved

TARGET = "wasm64-unknown-unknown"
CLANG = "toolchain/bin/clang"
# The stack is the first memory, so that a stack that is full ends the program and writes over nothing.
LINK = ("-mwasm64", "--no-entry", "--gc-sections", "--strip-all", "--stack-first", "-z", "stack-size=4194304")
C_WORDS = ("-std=c99", "-ffreestanding", "-nostdinc", "-fno-builtin", "-Wall", "-Wextra", "-Werror")
WORDS = (f"--target={TARGET}", "-O2", "-mbulk-memory", "-ffunction-sections", "-fdata-sections", "-c")
# What hagzimot.h and hagzimot.c need of the C library's headers.
HEADERS = {
    "stddef.h": "#define NULL ((void *)0)\ntypedef __SIZE_TYPE__ size_t;\n",
    "stdint.h": "typedef __UINT8_TYPE__ uint8_t;\ntypedef __UINT32_TYPE__ uint32_t;\ntypedef __UINTPTR_TYPE__ uintptr_t;\n"
    "#define UINTPTR_MAX __UINTPTR_MAX__\n#define SIZE_MAX __SIZE_MAX__\n",
}
SCRIPTS = ("hagzimot.js", "words.js", "inspector.js")


def run(*words, **how):
    """Runs a command, and returns what it writes."""
    done = subprocess.run(words, capture_output=True, text=True, check=False, **how)
    if done.returncode:
        raise unproved.Failed(f"{' '.join(words)}: status {done.returncode}\n{done.stderr[-3000:]}")
    return done.stdout


def text_of(path):
    with open(path, encoding="utf-8") as file:
        return file.read()


def write(path, text):
    with open(path, "w", encoding="utf-8") as file:
        file.write(text)


def layout(clang):
    """The layout of data that the compiler has for the target."""
    said = run(clang, f"--target={TARGET}", "-S", "-emit-llvm", "-x", "c", "/dev/null", "-o", "-")
    return re.search(r"(?m)^target datalayout = .*$", said)[0]


def retargeted(lines, data_layout):
    """The lines of a module for x86-64 as those of one for WebAssembly."""
    for line in lines:
        if line.startswith("target datalayout"):
            line = f"{data_layout}\n"
        elif line.startswith("target triple"):
            line = f'target triple = "{TARGET}"\n'
        elif line.startswith("attributes #"):
            # These name the processor of the other target, and a check of its stack.
            line = re.sub(r'"[\w-]+"="[\w-]*"', "", line.replace("sanitize_address", "nounwind"))
        yield line


def make_object(clang, room):
    """Compiles the library's module for the target."""
    data_layout = layout(clang)
    c_library.write_module(room, f"{room}/wasm.ll", lambda lines: retargeted(lines, data_layout))
    run(clang, *WORDS, "-x", "ir", "wasm.ll", "-o", "library.o", cwd=room)


def make_others(clang, room):
    """Compiles the functions in C."""
    os.mkdir(f"{room}/headers")
    for name, text in HEADERS.items():
        write(f"{room}/headers/{name}", text)
    sources = {"pointers": f"{TOP}/bindings/c/hagzimot.c", "memory": f"{HERE}/memory.c", "wide": f"{HERE}/wide.c"}
    for name, source in sources.items():
        run(clang, *C_WORDS, *WORDS, f"-I{room}/headers", f"-I{TOP}/include", source, "-o", f"{room}/{name}.o")
    return [f"{room}/{name}.o" for name in sources]


def make_module(out, note):
    """Makes OUT/hagzimot.wasm."""
    kit = unproved.toolchain()
    clang = f"{kit}/{CLANG}"
    with tempfile.TemporaryDirectory(prefix="inspector-") as room:
        c_library.unproved_module(room, note)
        note("compiling for WebAssembly")
        make_object(clang, room)
        objects = [f"{room}/library.o", *make_others(clang, room)]
        exports = [f"--export={it}" for it in ("malloc", "free", *c_library.functions())]
        os.symlink(f"{kit}/toolchain/bin/ld.lld", f"{room}/wasm-ld")
        run(f"{room}/wasm-ld", *LINK, *exports, *objects, "-o", f"{out}/hagzimot.wasm")
    return f"{out}/hagzimot.wasm"


def make_page(out, module):
    """Makes OUT/inspector.html, which has all that it needs."""
    with open(module, "rb") as file:
        data = base64.b64encode(file.read()).decode()
    script = "\n".join(text_of(f"{HERE}/{it}") for it in SCRIPTS).replace('"use strict";\n', "")
    page = text_of(f"{HERE}/page.html").replace("@MODULE@", data).replace("@SCRIPT@", f'"use strict";\n{script}')
    write(f"{out}/inspector.html", page)
    return f"{out}/inspector.html"


def build(out, module, note):
    """Makes the page, and the module if none is given. Returns the page's path."""
    os.makedirs(out, exist_ok=True)
    return make_page(out, module or make_module(out, note))


def main(words):
    module = words.pop(words.index("--module") + 1) if "--module" in words[:-1] else None
    names = [it for it in words if it != "--module"]
    if len(names) != 1 or names[0].startswith("-"):
        print(__doc__)
        return 0 if words in (["-h"], ["--help"]) else 2
    try:
        page = build(names[0], module, lambda text: print(text, file=sys.stderr, flush=True))
    except (unproved.Failed, OSError) as failed:
        print(f"build: {failed}", file=sys.stderr)
        return 1
    print(f"{page}: {os.path.getsize(page)} bytes")
    return 0


if __name__ == "__main__":
    sys.exit(main(sys.argv[1:]))
