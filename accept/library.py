"""The library for programs in other languages: what `bin/library` made, called by the programs in examples/ and by library.c, with
valgrind over each."""

import os
import re
import shutil
import sys

from accept.shell import run
from release import library

# Where valgrind reports on the library itself. Python and Mono have reports of their own.
OURS = re.compile(r"\bbevelrose_|libbevelrose\.so")

SECONDS = 600

# The programs of examples/: what each takes, how it is built, and how it is run, in its folder.
PROGRAMS = [
    ("c", ["cc", "make"], "make LIBRARY=$LIBRARY", "./batches .."),
    ("rust", ["cargo"], "BEVELROSE=$LIBRARY cargo build --offline --release --quiet", "target/release/batches .."),
    ("dotnet", ["mcs", "mono"], "make LIBRARY=$LIBRARY", "LD_LIBRARY_PATH=$LIBRARY mono batches.exe .."),
    ("python", [], "true", f"BEVELROSE=$LIBRARY PYTHONMALLOC=malloc PYTHONDONTWRITEBYTECODE=1 '{sys.executable}' bevelrose.py .."),
]

# Of what runs in a virtual machine, only what valgrind says of the library counts.
HOSTED = {"dotnet", "python"}


def what_lacks():
    """What is missing for this part, or None."""
    return library.what_lacks() or (None if shutil.which("cc") else "cc is not on PATH")


def what_lacks_for(needed):
    """Which of these programs are missing, or None."""
    missing = [tool for tool in needed if not shutil.which(tool)]
    return f"{' and '.join(missing)} {'is' if len(missing) == 1 else 'are'} not on PATH" if missing else None


def set_library(command, folder):
    return command.replace("$LIBRARY", f"'{folder}'")


def under_valgrind(command, log):
    """The command with valgrind before its program, and its words for the environment first."""
    words = command.split(" ")
    first = next(number for number, word in enumerate(words) if "=" not in word)
    valgrind = f"valgrind --quiet --leak-check=full --show-leak-kinds=definite,indirect,possible --log-file='{log}'"
    return " ".join([*words[:first], valgrind, *words[first:]])


def reports_of(log, is_hosted):
    """What valgrind says, a report each; of what is hosted, of the library alone."""
    with open(log, encoding="utf-8", errors="replace") as lines:
        text = re.sub(r"^==\d+== ?", "", lines.read(), flags=re.M)
    reports = [report.strip() for report in re.split(r"\n\s*\n", text) if report.strip()]
    return [report for report in reports if not is_hosted or OURS.search(report)]


def run_checked(part, test, command, folder, is_hosted, room):
    """Runs a command, and once more under valgrind where that is there."""
    ended = run(command, folder, SECONDS)
    why = [*ended.out.split("\n")[:3], *ended.err.split("\n")[:3]]
    part.count(ended.status == 0 and not ended.err, test, [f"status {ended.status}", *why])
    if not shutil.which("valgrind"):
        part.skip(f"{test} under valgrind", "valgrind is not on PATH")
        return
    log = os.path.join(room, f"{os.path.basename(test)}.log")
    ended = run(under_valgrind(command, log), folder, SECONDS)
    reports = reports_of(log, is_hosted) if os.path.exists(log) else ["there is no log"]
    lines = [line for report in reports[:2] for line in report.split("\n")[:6]]
    part.count(ended.status == 0 and not reports, f"{test} under valgrind", [f"status {ended.status}", *lines])


def build(part, test, command, folder):
    """Whether a program could be built."""
    ended = run(command, folder, SECONDS)
    part.count(ended.status == 0, f"{test} is built", [f"status {ended.status}", *ended.err.split("\n")[:5]])
    return ended.status == 0


def run_all(part, copy, room):
    made = library.FOLDER
    words = f"-O2 -Wall -Wextra -Werror -std=c11 -I '{made}' -o '{room}/library' accept/library.c '{made}/libbevelrose.a'"
    if build(part, "accept/library.c", f"cc {words}", copy):
        run_checked(part, "accept/library.c", f"'{room}/library' examples", copy, False, room)
    for name, needed, building, command in PROGRAMS:
        test, lacks = f"examples/{name}", what_lacks_for(needed)
        if lacks:
            part.skip(test, lacks)
            continue
        folder = os.path.join(copy, "examples", name)
        if build(part, test, set_library(building, made), folder):
            run_checked(part, test, set_library(command, made), folder, name in HOSTED, room)
