"""Makes packages of built programs, looks at them, and installs, uses and purges the package of Debian in a scratch root.

usage: tools/tests/test_packages.py PROGRAM RELAY

The packages of the library are tried with a small library in place of the real one. Without dpkg-deb the status is 77. The root is a plain `dpkg --root`; without lintian, or if dpkg can't have a root of its
own, a line says so.
"""
import hashlib
import json
import os
import shutil
import subprocess
import sys
import tempfile

from test_install import FAULTS, TOP, expect, files_below, make_built, ran

sys.path.insert(0, f"{TOP}/tools")
import statement

CANT_RUN = 77
# The packages of the library, and what stands in for it.
LIBRARY_PACKAGES = ("libhagzimot1", "libhagzimot-dev", "python3-hagzimot")
STAND_IN = "#include <stdlib.h>\nint hagzimot_one(void) { return getenv(\"\") == NULL ? 1 : 0; }\n"
SOURCES = ("share/hagzimot/bindings/go/go.mod", "share/hagzimot/bindings/rust/hagzimot/src/lib.rs")
CALLER = "#include <hagzimot.h>\nint main(void) { return hagzimot_one() - 1; }\n"
PKG_CONFIG = "prefix=@PREFIX@\nlibdir=${prefix}/lib\nincludedir=${prefix}/include\n\nName: hagzimot\nDescription: stand-in\nVersion: 0\nLibs: -L${libdir} -lhagzimot\nCflags: -I${includedir}\n"


def build(built, out):
    ran(sys.executable, f"{TOP}/packaging/build_packages", built, out)
    return sorted(os.listdir(out)) if os.path.isdir(out) else []


def sums_are_right(out):
    """Whether SHA256SUMS names each other file with its sum."""
    with open(f"{out}/SHA256SUMS", encoding="utf-8") as file:
        said = {name: wanted for wanted, name in (it.split() for it in file)}
    for name, wanted in said.items():
        with open(f"{out}/{name}", "rb") as file:
            expect(hashlib.sha256(file.read()).hexdigest() == wanted, f"SHA256SUMS has another sum of {name}")
    expect(sorted([*said, "SHA256SUMS"]) == sorted(os.listdir(out)), "SHA256SUMS doesn't name each file")


def try_bill(path, crates):
    """The bill is JSON of CycloneDX, and names the toolchain and each crate of crates.txt that the command lists."""
    with open(path, encoding="utf-8") as file:
        bill = json.load(file)
    expect((bill.get("bomFormat"), bill.get("specVersion")) == ("CycloneDX", "1.5"), "the bill isn't of CycloneDX 1.5")
    names = {it["name"] for it in bill["components"]}
    expect({"rattle-kit", "glibc", *crates} <= names, f"the bill lacks {sorted({'rattle-kit', 'glibc', *crates} - names)}")
    references = [it["bom-ref"] for it in bill["components"]]
    expect(len(references) == len(set(references)), "two components of the bill have one reference")
    return len(names)


def try_tarball(path, room):
    """The tarball runs wherever it is unpacked."""
    ran("tar", "-xzf", path, "-C", room)
    folder = f"{room}/{os.path.basename(path).removesuffix('.tar.gz')}"
    expect(ran(f"{folder}/bin/hagzimot", "--version").startswith("hagzimot "), "the program of the tarball doesn't run")
    expect('"proved"' in ran(f"{folder}/bin/hagzimot", "version", "--proof"), "the tarball has no statement")


def try_deb(path, room):
    """The package is installed below a root of its own, used, and purged; then nothing is left."""
    root = f"{room}/root"
    os.makedirs(f"{root}/var/lib/dpkg/info")
    os.makedirs(f"{root}/var/lib/dpkg/updates")
    for name in ("status", "available"):
        with open(f"{root}/var/lib/dpkg/{name}", "w", encoding="utf-8"):
            pass
    if os.geteuid():
        return "not installed: dpkg needs to run as root"
    dpkg = ("dpkg", f"--root={root}", "--force-not-root", "--force-depends", "--log=/dev/null")
    ran(*dpkg, "--install", path)
    expect(ran(f"{root}/usr/bin/hagzimot", "--version") == f"hagzimot {statement.version()}\n", "the program of the package doesn't run")
    expect('"proved"' in ran(f"{root}/usr/bin/hagzimot", "version", "--proof"), "the package has no statement")
    expect(os.path.isfile(f"{root}/usr/share/man/man1/hagzimot.1.gz"), "the package has no manual")
    ran(*dpkg, "--purge", "hagzimot")
    left = [it for it in files_below(root) if not it.startswith("var/lib/dpkg/")]
    expect(not left, f"purging leaves {left}")
    return "installed, used and purged"


def put(path, text):
    os.makedirs(os.path.dirname(path), exist_ok=True)
    with open(path, "w", encoding="utf-8") as file:
        file.write(text)


def make_library(folder, room):
    """Makes a small library where the real one would be, as packaging/build_library lays it out."""
    put(f"{room}/stand_in.c", STAND_IN)
    put(f"{folder}/include/hagzimot.h", "int hagzimot_one(void);\n")
    put(f"{folder}/lib/pkgconfig/hagzimot.pc", PKG_CONFIG)
    put(f"{folder}/lib/python3/dist-packages/hagzimot.py", '"""A stand-in."""\n')
    for name in SOURCES:
        put(f"{folder}/{name}", "A stand-in.\n")
    shared = ("-shared", "-Wl,-soname,libhagzimot.so.1", "-Wl,-z,relro,-z,now")
    ran("cc", "-O2", "-fPIC", "-c", f"{room}/stand_in.c", "-o", f"{room}/stand_in.o")
    ran("cc", *shared, f"{room}/stand_in.o", "-o", f"{folder}/lib/libhagzimot.so.1")
    ran("ar", "rcsD", f"{folder}/lib/libhagzimot.a", f"{room}/stand_in.o")
    os.symlink("libhagzimot.so.1", f"{folder}/lib/libhagzimot.so")


def try_library(paths, room):
    """A program is compiled by what the packages of the library unpack, and runs."""
    root = f"{room}/library_root"
    for path in paths:
        ran("dpkg-deb", "-x", path, root)
    libraries = f"{root}/usr/lib/x86_64-linux-gnu"
    with open(f"{libraries}/pkgconfig/hagzimot.pc", encoding="utf-8") as file:
        expect("prefix=/usr\nlibdir=${prefix}/lib/x86_64-linux-gnu\n" in file.read(), "hagzimot.pc names other folders")
    put(f"{room}/caller.c", CALLER)
    ran("cc", f"-I{root}/usr/include", f"{room}/caller.c", "-o", f"{room}/caller", f"-L{libraries}", "-lhagzimot")
    ran(f"{room}/caller", env={**os.environ, "LD_LIBRARY_PATH": libraries})
    expect(all(os.path.isfile(f"{root}/usr/{it}") for it in SOURCES), "the packages have no sources of the bindings")
    expect(os.path.isfile(f"{root}/usr/lib/python3/dist-packages/hagzimot.py"), "the package of the Python module has no module")


def lint(path):
    if shutil.which("lintian") is None:
        return "lintian isn't installed"
    run = subprocess.run(["lintian", "--allow-root", "--fail-on", "error,warning", path], capture_output=True, text=True, check=False)
    expect(run.returncode == 0, f"lintian: {run.stdout.strip()} {run.stderr.strip()}")
    return "lintian says nothing"


def main(program, relay):
    if shutil.which("dpkg-deb") is None:
        print("dpkg-deb isn't installed")
        return CANT_RUN
    with tempfile.TemporaryDirectory() as room:
        built, out = make_built(program, relay, room), f"{room}/out"
        has_library = shutil.which("cc") is not None
        if has_library:
            make_library(f"{built}/library", room)
        made, version = build(built, out), statement.version()
        libraries = [f"{out}/{it}_{version}_amd64.deb" for it in LIBRARY_PACKAGES] if has_library else []
        deb, tar = f"{out}/hagzimot_{version}_amd64.deb", f"{out}/hagzimot-{version}-linux-x86_64.tar.gz"
        expect({os.path.basename(deb), os.path.basename(tar), f"hagzimot-{version}.cdx.json", "SHA256SUMS"} <= set(made), f"these are made: {made}")
        expect({os.path.basename(it) for it in libraries} <= set(made), f"the packages of the library aren't made: {made}")
        if not FAULTS:
            sums_are_right(out)
            parts = try_bill(f"{out}/hagzimot-{version}.cdx.json", ("hagzimot", "hagzimot_show", "capnp_units"))
            try_tarball(tar, room)
            if has_library:
                try_library(libraries, room)
            said = [try_deb(deb, room), *{lint(it) for it in (deb, *libraries)}]
    print("\n".join(FAULTS), end="\n" if FAULTS else "")
    if FAULTS:
        return 1
    print(f"packages: {len(made)} files, {parts} components in the bill; the package: {', '.join(said)}")
    return 0


if __name__ == "__main__":
    sys.exit(main(*sys.argv[1:]) if len(sys.argv) == 3 else __doc__)
