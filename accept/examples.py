"""The examples, as examples/README.md shows them: reports, and what `bin/flow` says of them."""

import json
import os
import re

from accept.shell import run
from accept.tally import first_difference

PAGE = "examples/README.md"

# The pages that show calls of `bin/flow`.
PAGES = [PAGE, "examples/orders/README.md"]

# How many workers each example is run with. With one a report is the page's, line by line.
ALONE = "1"
SEVERAL = "4"

# The examples of which the page says that with several workers the order, or who takes what, is open. Of these only the status
# and what was recorded, in any order, is compared then.
OPEN = {"fault", "tours"}

COMMAND = re.compile(r"^    (?:\$ )?(bin/.*)$")
STATUS = re.compile(r"\b[Tt]he status is (\d)")


def text_of(copy, path):
    with open(os.path.join(copy, path), encoding="utf-8") as file:
        return file.read()


def command_of(name, workers):
    return f"bin/flow_run examples/{name}.toml {workers} < examples/{name}.csv"


def behind(page, command):
    """What the page says behind the line of this command, or None where it has no such line."""
    _, found, rest = page.partition(f"\n    {command}\n")
    return rest if found else None


def shown_block(text):
    """The block that a text begins with, if it does."""
    block = re.match(r"\n*```\n(.*?)^```$", text, re.M | re.S)
    return block.group(1) if block else None


def wanted_of(copy, name):
    """The report and the status that an example is to have; each is None where neither a file nor the page has it."""
    rest = behind(text_of(copy, PAGE), command_of(name, ALONE))
    if rest is None:
        return None, None
    stored = os.path.join(copy, "examples", f"{name}.report")
    report = text_of(copy, f"examples/{name}.report") if os.path.exists(stored) else shown_block(rest)
    status = STATUS.search(rest)
    return report, int(status.group(1)) if status else None


def names_of(copy):
    names = sorted(os.listdir(os.path.join(copy, "examples")))
    return [name[: -len(".toml")] for name in names if name.endswith(".toml")]


def compare_report(part, command, wanted, ended):
    report, status = wanted
    if report is None or status is None:
        part.count(False, command, [f"{PAGE} does not show its report, or does not say its status"])
        return
    pairs = [("status", status, ended.status)]
    if report != ended.out:
        pairs.append(("report", *first_difference(report, ended.out)))
    part.compare(command, *pairs)


def recorded(report):
    """What no schedule changes: all that was recorded, in some order, and the last line."""
    values = []
    for line in re.findall(r"^record (.*)$", report, re.M):
        try:
            values += [json.dumps(value) for value in json.loads(line)]
        except ValueError:
            values.append(line)
    return sorted(values), report.split("\n")[-2:]


def run_all(part, copy):
    for name in names_of(copy):
        wanted = wanted_of(copy, name)
        for workers in (ALONE, SEVERAL):
            command = command_of(name, workers)
            ended = run(command, copy)
            if workers == SEVERAL and name in OPEN and wanted[0] and ended.out:
                pairs = ("status", wanted[1], ended.status), ("recorded", recorded(wanted[0]), recorded(ended.out))
                part.compare(command, *pairs)
            else:
                compare_report(part, command, wanted, ended)


def shown_commands(page):
    """The commands of `bin/flow` that the page shows with what they print, and those that write what they read: of each the line,
    and the output or None."""
    lines = page.split("\n")
    for number, line in enumerate(lines):
        found = COMMAND.match(line)
        if found is None:
            continue
        command = found.group(1)
        block = shown_block("\n".join(lines[number + 1 :]))
        if re.search(r" > \S+$", command):
            yield command, None
        elif command.startswith("bin/flow ") and block is not None:
            yield command, block


def calls_shown(copy):
    """The same of all pages, one after another."""
    for page in PAGES:
        yield from shown_commands(text_of(copy, page))


def run_shown(part, copy):
    """What `bin/flow` prints is what the pages show."""
    for command, wanted in calls_shown(copy):
        ended = run(command, copy)
        if wanted is not None:
            pairs = [] if ended.out == wanted else [("output", *first_difference(wanted, ended.out))]
            part.compare(command, *pairs)
