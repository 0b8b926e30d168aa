"""The pages of a package: README.md, docs/ and the examples, which are networks with their records, and programs."""

import glob
import os
import re

FOLDERS = ["docs", "examples", "examples/orders", "examples/rows", "examples/tpl"]

# Scripts that run parts of records.
SCRIPTS = ["examples/slurm/*.sh"]

# The examples that call the library, with what each consists of.
CALLING = ["examples/c/*.c", "examples/c/Makefile", "examples/dotnet/*.cs", "examples/dotnet/Makefile", "examples/python/*.py"]
CALLING += ["examples/rust/Cargo.toml", "examples/rust/build.rs", "examples/rust/src/*.rs", "examples/rust/src/bin/*.rs"]

LINK = re.compile(r"\[([^\]\n]+)\]\(([^)\s]+)\)")


def names(top, has_library):
    """The files of a package that stand in the repository as they are, but for links; with the library also what calls it."""
    found = ["README.md"]
    for folder in FOLDERS:
        found += [f"{folder}/{name}" for name in sorted(os.listdir(os.path.join(top, folder)))]
    for pattern in [*SCRIPTS, *(CALLING if has_library else [])]:
        found += [os.path.relpath(path, top) for path in sorted(glob.glob(os.path.join(glob.escape(top), pattern)))]
    return [name for name in found if os.path.isfile(os.path.join(top, name))]


def without_dead_links(page, text, known):
    """The text of a page, in which a link to what the package doesn't have is its words alone."""

    def keep(link):
        words, target = link.groups()
        path = os.path.normpath(os.path.join(os.path.dirname(page), target.split("#")[0])) if not target.startswith("#") else page
        return link.group() if "://" in target or path in known else words

    return LINK.sub(keep, text)


def pages(top, has_library):
    """The texts of all of these files, by their paths."""
    found = names(top, has_library)
    texts, known = {}, {*found, *(os.path.dirname(name) for name in found)}
    for name in found:
        with open(os.path.join(top, name), encoding="utf-8", newline="") as file:
            text = file.read()
        texts[name] = without_dead_links(name, text, known) if name.endswith(".md") else text
    return texts
