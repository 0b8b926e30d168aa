"""How what a package has was built, and the licences of what it is built of."""

import hashlib
import os

from release.shell import LIBRARY, Stop, ask, builder

CUT = "=" * 78

# What is said of the library where it is not in the package.
LEFT_OUT = "left out"


def how_built(is_proved):
    return "proved" if is_proved else "compiled without proof"


def sum_of(folder):
    """The sum of the sums of all files below src/ in this folder, as BUILD says how to find it."""
    lines = []
    for place, _, found in os.walk(os.path.join(folder, "src")):
        for name in found:
            path = os.path.join(place, name)
            with open(path, "rb") as file:
                lines.append((os.path.relpath(path, folder), hashlib.sha256(file.read()).hexdigest()))
    listed = "".join(f"{told}  {path}\n" for path, told in sorted(lines, key=lambda line: line[0].encode()))
    return hashlib.sha256(listed.encode()).hexdigest()


def commit(top):
    """The commit that the sources are of, as far as git tells."""
    told = ask(["git", "rev-parse", "HEAD"], top)
    changes = ask(["git", "status", "--porcelain"], top)
    return f"{told}{', with changes' if changes else ''}" if told else "not known"


def build(top, name, version, programs, library):
    """The text that says how the programs and the library were built; of both the bytes are given."""
    lines = [f"{name} {version} for x86-64 Linux", ""]
    for tool, (program, is_proved) in programs.items():
        lines += [f"{tool}: {how_built(is_proved)}", f"    sha256 {hashlib.sha256(program).hexdigest()}"]
    if library:
        lines += [f"{LIBRARY}: {how_built(True)}"]
        lines += [f"    sha256 {hashlib.sha256(library[path]).hexdigest()}  {path}" for path in sorted(library)]
    else:
        lines += [f"{LIBRARY}: {LEFT_OUT}"]
    lines += ["", f"kit: {ask(['rt', 'version'], top)}", f"commit: {commit(top)}", ""]
    lines += ["Sums of the sources, each of one crate: in crates/NAME of a checkout that is what this prints:", ""]
    lines += ["    find src -type f | LC_ALL=C sort | xargs sha256sum | sha256sum", ""]
    crates = sorted({crate for tool in built(programs, library) for crate in builder(tool, "names_of_crates").split()})
    lines += [f"{sum_of(os.path.join(top, 'crates', crate))}  {crate}" for crate in crates]
    return "\n".join([*lines, ""])


def built(programs, library):
    """What a package has that was built of crates."""
    return [*programs, LIBRARY] if library else [*programs]


def kit_crates(tools):
    """The crates of the kit that these are built of, with their folders."""
    script = 'kit=$(rt doc) && kit=${kit%/*} && cd -- "$crates/$crate" && list_libraries'
    found = {}
    for tool in tools:
        for line in builder(tool, script).splitlines():
            name, _, path = line.partition(":")
            _, _, root = path.partition("=")
            if root.startswith("/"):
                found[name] = os.path.dirname(os.path.dirname(root))
    return found


def licence_files(folder):
    return sorted(name for name in os.listdir(folder) if name.upper().startswith(("LICENSE", "LICENCE", "NOTICE")))


def licences(top, programs, library):
    """The text with the licences: whose they are, and then each text once."""
    crates = kit_crates(built(programs, library))
    if not crates:
        raise Stop("the kit names no crates")
    bearers, without = {}, []
    for crate, folder in sorted(crates.items()):
        files = licence_files(folder)
        without += [] if files else [crate]
        for name in files:
            with open(os.path.join(folder, name), encoding="utf-8") as file:
                bearers.setdefault(file.read().strip("\n"), []).append(f"{crate} ({name})")
    own = licence_files(top)
    has = "The programs and the library are" if library else "The programs are"
    linked = "The programs and the shared library are" if library else "The programs are"
    lines = [
        "Bevelrose: " + (", ".join(own) if own else "its repository has no licence file."),
        "",
        f"{has} built of the crates of the Rattle kit that are named here,",
        "with the licences that stand in the kit beside them. Most are made after a crate of Rust, and have its name and its licence.",
        "",
        f"Without a licence file in the kit: {', '.join(without)}.",
        "",
        f"The GNU C library is not in the package. {linked} linked with its start-up objects",
        "and those of GCC, whose licences (LGPL 2.1 or later, and GPL 3 with the runtime exception) have exceptions for that.",
    ]
    for name in own:
        with open(os.path.join(top, name), encoding="utf-8") as file:
            lines += ["", CUT, f"Bevelrose ({name})", CUT, "", file.read().strip("\n")]
    for text, named in bearers.items():
        lines += ["", CUT, ", ".join(named), CUT, "", text]
    return "\n".join([*lines, ""])
