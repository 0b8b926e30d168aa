"""Programs that call the library of a package: where it is installed, and where it is unpacked."""

import os
import re
import shlex
import shutil

from accept.examples import text_of
from accept.library import PROGRAMS, SECONDS, set_library, what_lacks_for
from accept.shell import run

PAGE = "examples/README.md"

# Where an installed package has it, with its header and the programs that call it.
LIBRARY = "usr/lib/x86_64-linux-gnu"
HEADER = "usr/include"
EXAMPLES = "usr/share/doc/bevelrose/examples"

# How a program in C is linked with it, and what it prints.
LINKED = {"shared library": f"-L {LIBRARY} -lbevelrose", "archive": f"{LIBRARY}/libbevelrose.a"}
PRINTED = "status 0, a report of 10291 bytes: as it is stored\n"

# The programs in examples/, in the folder of each, with the library where an installed package has it.
CALLS = {
    "c": "make LIBRARY=$LIBRARY run",
    "rust": "BEVELROSE=$LIBRARY cargo run --offline --quiet",
    "dotnet": "make LIBRARY=$LIBRARY run",
    "python": "LD_LIBRARY_PATH=$LIBRARY python3 bevelrose.py",
}

# A row of the page's table: the folder of a program, how it is run, and whether it is run there.
ROW = re.compile(r"^\| \[(examples/(\w+))\][^|]*\|[^|]*\| `([^`]+)`(, there)?", re.M)

NEEDED = {name: needed for name, needed, _, _ in PROGRAMS}


def link(part, root, way):
    """Links the program in C with the library that is installed in a root, and answers its path there."""
    program = f"calls_the_{way.replace(' ', '_')}"
    words = f"-O2 -Wall -Wextra -Werror -std=c11 -I {HEADER} -o {program} {EXAMPLES}/c/batches.c {LINKED[way]}"
    ended = run(f"cc {words}", root)
    part.compare(f"cc {words}", ("status", 0, ended.status), ("standard error", "", ended.err))
    return f"/{program}" if ended.status == 0 else None


def call_installed(part, root, begin, put):
    """Runs the program in C in a root where the package is installed, once with each library. It is linked outside; what the call `put`
    finds that it needs besides is put into the root."""
    lacks = what_lacks_for(["cc"])
    for way in LINKED:
        if lacks:
            part.skip(f"the {way} in C", lacks)
            continue
        program = link(part, root, way)
        if program:
            put(root + program)
            ended = run(f"{begin}{program} /{EXAMPLES}", root)
            part.compare(f"the {way} in C, installed", ("status", 0, ended.status), ("output", PRINTED, ended.out))
            os.remove(root + program)


def call_classes(part, root, room):
    """Runs each program of the installed examples, in a copy of them, by the library in its installed place."""
    folder, place = os.path.join(room, "calling"), os.path.join(root, LIBRARY)
    shutil.copytree(os.path.join(root, EXAMPLES), folder)
    # What a compiler and a loader of that root look through by themselves.
    begin = f"export C_INCLUDE_PATH={shlex.quote(os.path.join(root, HEADER))} PYTHONDONTWRITEBYTECODE=1; "
    for name, command in CALLS.items():
        call(part, f"{command}, installed", NEEDED[name], begin + set_library(command, place), os.path.join(folder, name))
    shutil.rmtree(folder)


def call_unpacked(part, root):
    """Runs each program as the page says, where the package is unpacked."""
    rows = ROW.findall(text_of(root, PAGE))
    part.compare(f"the programs of {PAGE}", ("folders", sorted(CALLS), sorted(row[1] for row in rows)))
    for folder, name, command, is_there in rows:
        place = os.path.join(root, folder) if is_there else root
        call(part, f"{command}, unpacked", NEEDED[name], f"export PYTHONDONTWRITEBYTECODE=1; {command}", place)


def call(part, test, needed, command, folder):
    lacks = what_lacks_for(needed)
    if lacks:
        part.skip(test, lacks)
        return
    ended = run(command, folder, SECONDS)
    why = [f"status {ended.status}", *ended.out.split("\n")[:3], *ended.err.split("\n")[:3]]
    part.count(ended.status == 0 and "as it is stored" in ended.out, test, why)
