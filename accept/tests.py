"""The tests in the crates of tests, built without proof and run."""

import os
import re
import time
from concurrent.futures import ThreadPoolExecutor, as_completed

from accept.shell import run

# How long a crate may take. `rt try` gives each of its tests a minute, as the gate does. But here they are not optimized, and
# have checks: so a test that is not through by then has not failed. It is named, and counts as neither.
SECONDS = 3600
TOO_SLOW = "no-answer: the program did not end within the time limit"

# How much memory one build may take.
MEMORY = 4_000_000_000


def crates_of(copy):
    """The crates of tests, the longest first."""
    with open(os.path.join(copy, "crates.txt"), encoding="utf-8") as lines:
        names = re.findall(r"^(\w+_rows)\b", lines.read(), re.M)
    return sorted(names, key=lambda name: -size_of(os.path.join(copy, "crates", name, "src")))


def size_of(folder):
    return sum(os.path.getsize(os.path.join(place, name)) for place, _, names in os.walk(folder) for name in names)


def free_memory():
    """The bytes of memory that are free; where that can't be told, as many as one build takes."""
    try:
        with open("/proc/meminfo", encoding="ascii") as lines:
            return int(re.search(r"^MemAvailable:\s+(\d+) kB", lines.read(), re.M).group(1)) * 1000
    except (OSError, AttributeError):
        return MEMORY


def at_once():
    """How many builds go on at a time: two, where cores and memory allow."""
    cores = len(os.sched_getaffinity(0))
    return max(1, min(2, cores, free_memory() // MEMORY))


def try_crate(copy, logs, name):
    """Builds and runs the tests of a crate, and answers its name, how that ended, and after how many seconds."""
    began = time.monotonic()
    ended = run(["rt", "try", "--test"], os.path.join(copy, "crates", name), SECONDS)
    with open(os.path.join(logs, name), "w", encoding="utf-8") as log:
        log.write(ended.out + ended.err)
    return name, ended, time.monotonic() - began


def count_tests(part, name, ended):
    """Counts each test of a crate. A crate whose tests did not all run counts as one that failed."""
    told, failed = ended.out + ended.err, part.failed
    tests = re.findall(r"^test (\S+) \.\.\. (.*\n(?: .*\n)*)", told, re.M)
    slow = [test for test, how in tests if TOO_SLOW in how]
    for test, how in tests:
        if test in slow:
            part.skip(f"{name}: {test}", "it is too slow without optimization")
        else:
            part.count(how.startswith("ok"), f"{name}: {test}", how.rstrip("\n").split("\n"))
    if not tests or ended.status != 0 and not slow and part.failed == failed:
        lines = told.rstrip("\n").split("\n")
        errors = [line for line in lines if "error" in line]
        part.count(False, name, [f"status {ended.status}", *(errors or lines[-3:])[:5]])
    return len(tests) - len(slow)


def run_all(part, copy, logs):
    with ThreadPoolExecutor(at_once()) as pool:
        waited = [pool.submit(try_crate, copy, logs, name) for name in crates_of(copy)]
        for done in as_completed(waited):
            name, ended, seconds = done.result()
            count = count_tests(part, name, ended)
            print(f"  {name}: {count} run, {seconds:.0f} s", flush=True)
