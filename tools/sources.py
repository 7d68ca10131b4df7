"""Says whether a program that was built without proof still is what its sources would give."""
import hashlib
import os

import unproved

TOP = unproved.TOP


def digest(crate):
    """A digest of the toolchain and of all code that a program is made of."""
    listed = unproved.crates_listed()
    found = hashlib.sha256(unproved.toolchain_id().encode())
    for name in [*unproved.crates_below(crate, listed), crate]:
        for at, folders, names in os.walk(f"{TOP}/crates/{name}/src"):
            folders.sort()
            for file in sorted(names):
                with open(f"{at}/{file}", "rb") as it:
                    found.update(f"{name}/{file}\n".encode() + it.read())
    return found.hexdigest()


def built(crate, level, note, parts=1):
    """The path of a program below out/unproved, which is built unless nothing has changed since it was; and the seconds that took.

    The compiler works on so many parts side by side.
    """
    path, wanted = f"{TOP}/out/unproved/{crate}", f"{digest(crate)} {level}"
    try:
        with open(f"{path}.digest", encoding="utf-8") as file:
            if file.read() == wanted and os.path.isfile(path):
                return path, 0.0
    except OSError:
        pass
    seconds = unproved.build(crate, path, level, note=note, parts=parts)
    with open(f"{path}.digest", "w", encoding="utf-8") as file:
        file.write(wanted)
    return path, seconds
