"""Records of which some parts take long, and runs of them that are stopped."""

import os
import re
import signal
import time

from accept.examples import text_of
from accept.shell import run

PAGE = "docs/past-one-machine.md"

# How many parts there are, how many records, and in which parts, counted from 1, are those that are worked on for long.
PARTS = 8
COUNT = 4000
LONG = (3, 5, 7)
LONG_RECORDS = 80

# How long a test waits, and how long it is until it looks again.
SECONDS = 120
PAUSE = 0.02

NETWORK = """\
format = 1

[[block]]
name = "names"
kind = "buffer"
input = true

[[block]]
name = "kept"
kind = "action"
work = []

[[link]]
from = "names"
to = "kept"
propagate = true

[[block]]
name = "long"
kind = "transform_many"
input = true
work = ["int", "repeat 1000", "repeat 400", "mul 0", "upto"]

[[block]]
name = "none"
kind = "action"
work = []

[[link]]
from = "long"
to = "none"
propagate = true
"""


def write_texts(folder):
    """Writes network.toml and records.csv. A quarter of the records have a line end in quotes."""
    records = []
    for number in range(COUNT):
        name = f'"name\n{number}"' if number % 4 == 0 else f"name {number}"
        records.append(f"names,{name}\n")
    for part in LONG:
        middle = COUNT * (2 * part - 1) // (2 * PARTS)
        records[middle] += "long,1\n" * LONG_RECORDS
    for path, text in (("network.toml", NETWORK), ("records.csv", "".join(records))):
        with open(os.path.join(folder, path), "w", encoding="utf-8") as file:
            file.write(text)


def write_whole(part, folder):
    """Writes the report of one run over all records to one.report."""
    ended = run("bin/flow_run network.toml 1 18446744073709551615 < records.csv > one.report", folder)
    part.compare("one run over all records", ("status", 0, ended.status))


def compare_whole(part, test, folder, path):
    """The merged report is that of one run, byte for byte: so each record went through once."""
    ended = run(f"cmp one.report {path}", folder)
    part.compare(test, ("status of cmp", 0, ended.status), ("differences", "", ended.out + ended.err))


def shown_calls(copy, heading):
    """The calls that the page shows below a heading, a text for sh each."""
    section = text_of(copy, PAGE).partition(f"\n## {heading}\n")[2].partition("\n## ")[0]
    return [re.sub(r"^    ", "", block, flags=re.M) for block in re.findall(r"(?:^    .*\n)+", section, re.M)]


def folder_with(room, name, copy):
    """A folder of this name in which the commands and the examples of the copy stand, as where a package is unpacked."""
    folder = os.path.join(room, name)
    os.mkdir(folder)
    for each in ("bin", "examples"):
        os.symlink(os.path.join(copy, each), os.path.join(folder, each))
    return folder


def runs_of(name):
    """The processes that have a file of this path as their standard input, and are runs of a network."""
    found = []
    for process in filter(str.isdigit, os.listdir("/proc")):
        try:
            program, given = os.readlink(f"/proc/{process}/exe"), os.readlink(f"/proc/{process}/fd/0")
        except OSError:
            continue
        if given == name and os.path.basename(program).startswith("flow_run"):
            found.append(int(process))
    return found


def await_run(name):
    """The first run that reads this file, or None where none is seen."""
    return await_that(lambda: next(iter(runs_of(name)), None))


def await_that(look, pause=PAUSE):
    """What a look finds at last, or None where it finds nothing in time."""
    end = time.monotonic() + SECONDS
    while time.monotonic() < end:
        found = look()
        if found is not None:
            return found
        time.sleep(pause)
    return None


def stop_run(part, test, name, number=signal.SIGKILL, above=0):
    """Sends a signal to the first run that reads this file, and to so many processes above it, the highest first."""
    process = await_run(os.path.realpath(name))
    part.count(process is not None, test, [f"no run that reads {name} was seen"])
    line = [process] if process is not None else []
    for _ in range(above if line else 0):
        line.append(parent_of(line[-1]))
    for each in reversed(line):
        os.kill(each, number)


def parent_of(process):
    with open(f"/proc/{process}/status", encoding="utf-8", errors="replace") as file:
        return int(re.search(r"^PPid:\s*(\d+)$", file.read(), re.M).group(1))
