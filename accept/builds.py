"""The first command of README.md, which builds a program, and the build of the other."""

import os
import re
import threading

from accept.examples import COMMAND, compare_report, text_of, wanted_of
from accept.shell import run

# What a first call says on a stream that is no terminal.
FIRST = "flow_run: compiling the program without proof, which takes three or four minutes\n"

# How long a build may take.
SECONDS = 1800

# How a program is built of which only what it prints is looked at, and one that has little to do: clang takes three quarters and one
# quarter of the time.
SHORT = "FLOW_OPTIMIZED=-O1"
SHORTEST = "FLOW_OPTIMIZED=-O0"


def first_command(copy):
    """The first command that README.md shows."""
    found = map(COMMAND.match, text_of(copy, "README.md").split("\n"))
    return next((command.group(1) for command in found if command), "")


def keep_log(logs, name, ended):
    with open(os.path.join(logs, name), "w", encoding="utf-8") as log:
        log.write(ended.err)


def build_flow(part, copy, logs):
    ended = run(f"{SHORT} bin/flow --build", copy, SECONDS)
    keep_log(logs, "flow", ended)
    part.compare("bin/flow --build", ("status", 0, ended.status))


def start(part, copy, logs):
    """Makes the first call, with the other build beside it."""
    other = threading.Thread(target=build_flow, args=(part, copy, logs))
    other.start()
    command = first_command(copy)
    try:
        ended = run(command, copy, SECONDS)
    finally:
        other.join()
    keep_log(logs, "flow_run", ended)
    name = re.match(r"bin/flow_run examples/(\w+)\.toml 1 < examples/\1\.csv$", command)
    if name is None:
        part.count(False, "README.md", [f"its first command runs no example: {command}"])
    else:
        compare_report(part, command, wanted_of(copy, name.group(1)), ended)
        part.compare(f"{command}, which builds", ("standard error", FIRST, ended.err))


def what_is_not_built(copy):
    """The program that is not there, or None."""
    names = [name for name in ("flow_run", "flow") if not os.path.exists(os.path.join(copy, "out", f"{name}.unproved"))]
    return f"{' and '.join(names)} could not be built" if names else None
