#!/usr/bin/env python3
"""Makes a wheel of the Python module and the shared library, without any other tool.

usage: build_wheel.py FOLDER OUT     FOLDER: libhagzimot.so.1 and hagzimot.py, as tools/c_library.py makes them

The wheel's tag names the oldest glibc that has the library's symbols. The same files give the same bytes. Prints the path.
"""
import base64
import hashlib
import os
import re
import sys
import zipfile

TOP = os.path.dirname(os.path.dirname(os.path.dirname(os.path.realpath(__file__))))
METADATA = """Metadata-Version: 2.1
Name: hagzimot
Version: @VERSION@
Summary: Relays, shows and compares Cap'n Proto messages in the process
License: MIT
Requires-Python: >=3.8
Description-Content-Type: text/markdown

"""
WHEEL = "Wheel-Version: 1.0\nGenerator: hagzimot\nRoot-Is-Purelib: false\nTag: @TAG@\n"
# The wheels of manylinux2014 are for this glibc or a newer one.
OLDEST = (2, 17)
TIME = (1980, 1, 1, 0, 0, 0)


def content(path):
    with open(path, "rb") as file:
        return file.read()


def version(folder):
    """The version of the library: pkg-config's file names it."""
    return re.search(r"(?m)^Version: (.+)$", content(f"{folder}/hagzimot.pc").decode())[1]


def tag(library):
    """The tag of a wheel with the library."""
    found = {tuple(map(int, it.split(b"."))) for it in re.findall(rb"GLIBC_(\d+\.\d+)\b", library)}
    major, minor = max(found | {OLDEST})
    return f"py3-none-manylinux_{major}_{minor}_x86_64"


def record_line(name, data):
    """The line of a file in the wheel's record."""
    digest = base64.urlsafe_b64encode(hashlib.sha256(data).digest()).rstrip(b"=").decode()
    return f"{name},sha256={digest},{len(data)}\n"


def files(folder):
    """The name of the wheel, and the name and contents of each file in it."""
    library, number = content(f"{folder}/libhagzimot.so.1"), version(folder)
    info, platform = f"hagzimot-{number}.dist-info", tag(library)
    found = {
        "hagzimot/__init__.py": content(f"{folder}/hagzimot.py"),
        "hagzimot/libhagzimot.so.1": library,
        "hagzimot/py.typed": b"",
        f"{info}/METADATA": METADATA.replace("@VERSION@", number).encode() + content(f"{TOP}/bindings/python/README.md"),
        f"{info}/WHEEL": WHEEL.replace("@TAG@", platform).encode(),
        f"{info}/LICENSE": content(f"{TOP}/LICENSE"),
    }
    lines = "".join(record_line(name, data) for name, data in found.items())
    found[f"{info}/RECORD"] = f"{lines}{info}/RECORD,,\n".encode()
    return f"hagzimot-{number}-{platform}.whl", found


def build(folder, out):
    """Makes the wheel, and returns its path."""
    name, found = files(folder)
    os.makedirs(out, exist_ok=True)
    with zipfile.ZipFile(f"{out}/{name}", "w", zipfile.ZIP_DEFLATED) as wheel:
        for path, data in found.items():
            entry = zipfile.ZipInfo(path, TIME)
            entry.external_attr = 0o644 << 16
            wheel.writestr(entry, data, zipfile.ZIP_DEFLATED)
    return f"{out}/{name}"


def main(words):
    if len(words) != 2:
        print(__doc__)
        return 0 if words in (["-h"], ["--help"]) else 2
    try:
        print(build(*words))
    except OSError as error:
        print(f"build_wheel: {error.filename}: {error.strerror}", file=sys.stderr)
        return 1
    return 0


if __name__ == "__main__":
    sys.exit(main(sys.argv[1:]))
