"""The library for other languages: what bin/library made, where that is of the sources as they stand."""

import os

from release.shell import LIBRARY, TOP, builder

FOLDER = os.path.join(TOP, "out", "library")

# Its files, and where they lie in a package.
PLACES = {"libbevelrose.a": "lib/", "libbevelrose.so": "lib/", "bevelrose.h": "include/"}

# Prints what has changed since this file: of the crates all that is built and proved, the header, and how the library is linked.
CHANGED = """
cd -- "$top"
for name in $(names_of_crates); do
    for part in src specs proofs; do
        [ ! -d "crates/$name/$part" ] || find "crates/$name/$part" -type f -newer "out/library/$file"
    done
done
find crates.txt bin/library "crates/$crate/bevelrose.h" -newer "out/library/$file"
"""


def what_lacks():
    """Why what lies in out/library is not the library, or None where it is."""
    if not all(os.path.isfile(os.path.join(FOLDER, name)) for name in PLACES):
        return "there is no library in out/library"
    script = "".join(f"file={name}\n{CHANGED}" for name in PLACES)
    return "the library in out/library is older than its sources" if builder(LIBRARY, script) else None


def files():
    """The files of the library, by their paths in a package."""
    found = {}
    for name, place in PLACES.items():
        with open(os.path.join(FOLDER, name), "rb") as file:
            found[place + name] = file.read()
    return found
