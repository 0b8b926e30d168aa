"""Several workers where addresses are few: malloc maps no more of them for each thread, unless the user has said how it is to."""

import os
import resource
import shutil

from accept.shell import run, run_on_terminal
from accept.terminals import stand_in

# What the commands hand on of a variable of the environment, by how they are called.
HANDED_ON = {
    "bin/flow_run examples/import.toml 1": "1",
    "MALLOC_ARENA_MAX=3 bin/flow_run examples/import.toml 1": "3",
    "MALLOC_ARENA_MAX= bin/flow_run examples/import.toml 1": "",
    "bin/flow stream 2 examples/import.toml 4": "1",
    "MALLOC_ARENA_MAX=3 bin/flow stream 2 examples/import.toml 4": "3",
}

# Texts that are copied, and read as numbers, so that each work grows and shrinks.
NETWORK = """\
format = 1

[[block]]
name = "in"
kind = "buffer"
input = true

[[block]]
name = "work"
kind = "transform_many"
lanes = 16
work = ["int", "repeat 100", "text", "repeat 10", "int", "text", "len", "mul 0", "upto"]

[[block]]
name = "out"
kind = "action"
work = []

[[link]]
from = "in"
to = "work"
propagate = true

[[link]]
from = "work"
to = "out"
propagate = true
"""
RECORDS = 3000

# Kilobytes of addresses; and by how much the time in the kernel may pass the rest.
LIMITS = (40000, 100000)
PART_OF_KERNEL = 0.25


def hand_on(part, bare):
    for name in ("flow_run", "flow"):
        stand_in(bare, name, '#!/bin/sh\nprintf %s "${MALLOC_ARENA_MAX-unset}"\n')
    for command, wanted in HANDED_ON.items():
        for ended in (run(f"unset MALLOC_ARENA_MAX; {command}", bare), run_on_terminal(f"unset MALLOC_ARENA_MAX; {command}", bare)):
            part.compare(f"{command}: MALLOC_ARENA_MAX", ("status", 0, ended.status), ("handed on", wanted, ended.out))
    shutil.rmtree(os.path.join(bare, "out"))


def run_workers(part, copy):
    """A run of many workers is not kept up by what the kernel refuses: most of its time goes into its works."""
    with open(os.path.join(copy, "texts.toml"), "w", encoding="utf-8") as file:
        file.write(NETWORK)
    with open(os.path.join(copy, "texts.csv"), "w", encoding="utf-8") as file:
        file.writelines(f"in,{9 * 10**18 + number}\n" for number in range(RECORDS))
    for limit in LIMITS:
        command = f"unset MALLOC_ARENA_MAX; ulimit -v {limit}; bin/flow_run texts.toml 64 18446744073709551615 < texts.csv | tail -n 1"
        before = resource.getrusage(resource.RUSAGE_CHILDREN)
        ended = run(command, copy)
        after = resource.getrusage(resource.RUSAGE_CHILDREN)
        kernel, works = after.ru_stime - before.ru_stime, after.ru_utime - before.ru_utime
        part.compare(command, ("output", "quiet\n", ended.out), ("standard error", "", ended.err))
        why = [f"{kernel:.2f} s of the kernel, {works:.2f} s of works"]
        part.count(kernel < PART_OF_KERNEL * works, f"{command}: the kernel's part", why)
