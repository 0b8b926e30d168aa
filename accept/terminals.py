"""What the wrappers say where standard error is a terminal, and only there."""

import os
import re
import shutil
from typing import NamedTuple

from accept.shell import run, run_on_terminal

NETWORK = "examples/import.toml"
GREATEST = "18446744073709551615"
HELP = "`bin/flow_run --help` explains the arguments"

READ = "flow_run: 12 Read\n"
WRITE = "flow_run: 13 Write\n"
USAGE = "usage: flow_run [NET WORKERS [LIMIT]]\n"


class Advice(NamedTuple):
    """How a program ends, and which line `bin/flow_run` adds on a terminal."""

    status: int
    # What the program says on standard error.
    said: str
    arguments: str
    # The line that is added, without the name of the program; none where it is empty.
    line: str


ADVICE = [
    Advice(0, "", f"{NETWORK} 1", ""),
    Advice(
        1,
        "",
        f"{NETWORK} 1",
        f"something is left, open or faulted; `bin/flow why {NETWORK} REPORT` says what, with the report in a file REPORT",
    ),
    Advice(
        1,
        "",
        "\"an it's\" 1",
        "something is left, open or faulted; `bin/flow why 'an it'\\''s' REPORT` says what, with the report in a file REPORT",
    ),
    Advice(
        2,
        "flow_run: 1 Syntax\n",
        f"{NETWORK} 1",
        f"`bin/flow check {NETWORK} RECORDS` says where, and what may have been meant",
    ),
    Advice(2, "flow_run: 9 Csv record 1\n", "", "`bin/flow check NET RECORDS` says where, and what may have been meant"),
    Advice(2, USAGE, f"{NETWORK} 65", HELP),
    Advice(2, USAGE, "--quick", HELP),
    Advice(2, USAGE, NETWORK, f"WORKERS is missing, as in `bin/flow_run {NETWORK} 1 < RECORDS`; {HELP}"),
    Advice(2, USAGE, "nowhere.toml", f"there is no file nowhere.toml; {HELP}"),
    Advice(3, "", f"{NETWORK} 1", f"it stopped at the default LIMIT; `bin/flow_run {NETWORK} 1 {GREATEST}` has none"),
    Advice(3, "", "", f"it stopped at the default LIMIT; `bin/flow_run NET 1 {GREATEST}` has none"),
    Advice(3, "", f"{NETWORK} 1 100", ""),
    Advice(3, "flow_run: ids\n", f"{NETWORK} 1", ""),
    Advice(4, "flow_run: memory\n", f"{NETWORK} 1", ""),
    Advice(5, READ, "nowhere.toml 1", "there is no file nowhere.toml"),
    Advice(5, READ, "examples 1", "examples is a folder, and no network"),
    Advice(5, READ, f"{NETWORK} 1", "standard input can't be read"),
    Advice(5, READ, "", "standard input can't be read"),
    Advice(5, WRITE, f"{NETWORK} 1 > /dev/null", "standard output can't be written, so the report is not whole"),
    Advice(5, WRITE, f"{NETWORK} 1 >&-", "standard output can't be written, so the report is not whole"),
]

# A program that goes on writing, and says as it ends that it can't.
GOES_ON = """#!/bin/sh
trap '' PIPE
printf '{before}' >&2
yes 2>/dev/null
printf '{said}' >&2
exit 5
"""

# Of each program a call behind which a reader ends, what it may say before it writes, and what it says where it can't.
CUT_SHORT = {
    "flow_run": (f"bin/flow_run {NETWORK} 1", "", WRITE),
    "flow": (f"bin/flow sift {NETWORK}", "record 3, line 3: faulted\n", "flow: standard output failed\n"),
}

# Calls of the programs, with what each prints: the reader ends before they do.
READ_NO_FURTHER = [
    (f"yes orders,1 | head -n 100000 | bin/flow_run {NETWORK} 1 | head -n 1", "block orders done\n"),
    ("bin/flow results large.results.report | head -n 1", "order_numbers,1\n"),
    ("yes prices,1 | head -n 100000 | bin/flow sift examples/fault.toml | head -n 1", "prices,1\n"),
    ("yes prices,1 | bin/flow stream 10 examples/fault.toml | head -n 1", "cents,100\n"),
    ("bin/flow help | head -n 1", "What is beside a run of flow_run, before it and after it.\n"),
    ("bin/flow_run --help | head -n 1", USAGE),
]

# A call that waits for a record for two seconds, and what is told meanwhile, at most once a second.
WATCHED = "{ echo prices,1; sleep 2; echo prices,2; } | bin/flow stream 1 examples/fault.toml"
TOLD = re.compile(r"(\rflow: \d+ records, \d+ a second  ){1,2}\n")


def stand_in(bare, name, text):
    """Puts a script in the place of a program."""
    path = os.path.join(bare, "out", name)
    os.makedirs(os.path.dirname(path), exist_ok=True)
    with open(path, "w", encoding="utf-8") as script:
        script.write(text)
    os.chmod(path, 0o755)


def advise(part, bare):
    """What is added to what the program says. A script stands in the place of the program meanwhile."""
    for status, said, arguments, line in ADVICE:
        stand_in(bare, "flow_run", f"#!/bin/sh\nprintf '{said}' >&2\nexit {status}\n")
        command = f"bin/flow_run {arguments}"
        more = f"{said}flow_run: {line}\n" if line else said
        for ended, wanted, place in ((run_on_terminal(command, bare), more, "on a terminal"), (run(command, bare), said, "elsewhere")):
            part.compare(f"{command}, with {status}, {place}", ("status", status, ended.status), ("standard error", wanted, ended.err))
    shutil.rmtree(os.path.join(bare, "out"))


def cut_short(part, bare):
    """That nobody reads on is told in a file alone. What else the program says is told everywhere."""
    for name, (command, before, said) in CUT_SHORT.items():
        stand_in(bare, name, GOES_ON.format(before=before, said=said))
        command = f"{{ {command}; echo $? > status; }} | head -n 1; cat status"
        for ended, wanted, place in (
            (run_on_terminal(command, bare), before, "on a terminal"),
            (run(command, bare), before + said, "elsewhere"),
        ):
            part.compare(f"{command}, {place}", ("output", "y\n5\n", ended.out), ("standard error", wanted, ended.err))
    shutil.rmtree(os.path.join(bare, "out"))
    for words in ("bin/flow_run --help", "bin/flow --help", "bin/flow_run --version"):
        ended = run(f"{words} | true", bare)
        part.compare(f"{words} | true", ("standard error", "", ended.err))


def call_unbuilt(part, bare):
    advise(part, bare)
    cut_short(part, bare)


def call_built(part, copy):
    """The programs end quietly on a terminal where nobody reads on, and `flow stream` tells there how far it is."""
    run("yes orders,1 | head -n 100000 | bin/flow_run examples/import.toml 1 > large.results.report", copy)
    for command, wanted in READ_NO_FURTHER:
        ended = run_on_terminal(command, copy)
        part.compare(f"{command}, on a terminal", ("output", wanted, ended.out), ("standard error", "", ended.err))
    ended = run_on_terminal(WATCHED, copy)
    part.compare(f"{WATCHED}, on a terminal", ("output", "cents,100\ncents,200\n", ended.out))
    part.count(TOLD.fullmatch(ended.err) is not None, f"{WATCHED}, on a terminal: how far it is", [ended.err])
    ended = run(WATCHED, copy)
    part.compare(f"{WATCHED}, elsewhere", ("output", "cents,100\ncents,200\n", ended.out), ("standard error", "", ended.err))
