"""What passed and what failed, and what is printed of it."""

import time

# How much of a text is shown.
SHOWN = 200


def shortened(text):
    text = text.rstrip("\n").replace("\n", "\\n")
    return text if len(text) <= SHOWN else f"{text[:SHOWN]} .."


class Part:
    """One part of the tests, which prints a line for each test that fails, and one in the end."""

    def __init__(self, name):
        self.name = name
        self.passed = 0
        self.failed = 0
        self.began = time.monotonic()

    def count(self, is_good, test, why=()):
        """Counts a test. Of one that fails each line that says why is shown."""
        if is_good:
            self.passed += 1
            return
        self.failed += 1
        print(f"failed: {self.name}: {test}", flush=True)
        for line in why:
            print(f"    {shortened(line)}", flush=True)

    def compare(self, test, *pairs):
        """Counts a test by what was wanted and what came: of each thing its name, and the two."""
        why = []
        for thing, wanted, came in pairs:
            if wanted != came:
                why += [f"{thing}: wanted {wanted}", f"{' ' * len(thing)}  came   {came}"]
        self.count(not why, test, why)

    def skip(self, test, why):
        print(f"skipped: {self.name}: {test}: {why}", flush=True)

    def end(self):
        seconds = time.monotonic() - self.began
        print(f"{self.name}: {self.passed} passed, {self.failed} failed, {seconds:.0f} s", flush=True)


def first_difference(wanted, came):
    """The first lines in which two texts differ, with their number, as a pair; the texts differ."""
    ours, theirs = wanted.split("\n"), came.split("\n")
    for number, (one, other) in enumerate(zip(ours, theirs), 1):
        if one != other:
            return f"line {number}: {one}", f"line {number}: {other}"
    return f"{len(ours) - 1} lines", f"{len(theirs) - 1} lines"
