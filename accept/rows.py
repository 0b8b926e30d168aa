"""The rows of examples/rows: networks, with their records and reports."""

import os
import re

from accept.examples import ALONE, SEVERAL, text_of
from accept.shell import run
from accept.tally import first_difference

FOLDER = "examples/rows"
PAGE = f"{FOLDER}/README.md"

# Where the page says which rows end with a status.
ROWS = re.compile(r"^Status (\d): ([^.]*)\.$", re.M)

# A run that is stopped before its first event: the network and records, the report, the limit and the status.
STOPPED = "parse_three", "limit_zero", "0", 3

# The rows that are run while their streams fail, and of whose bytes each is cut or changed; and where both texts of one are written as one.
SMALL = ("two_records", "parse_three")
BOTH = "out"


def path_of(name, suffix):
    return f"{FOLDER}/{name}.{suffix}"


def report_of(copy, name):
    """The report of a row, or None where the order or the way of messages is open."""
    path = path_of(name, "report")
    return text_of(copy, path) if os.path.exists(os.path.join(copy, path)) else None


def compare_row(part, copy, name, report, words, status):
    command = f"bin/flow_run {path_of(name, 'toml')} {words} < {path_of(name, 'csv')}"
    ended = run(command, copy)
    pairs = [("status", status, ended.status)]
    if report not in (None, ended.out):
        pairs.append(("report", *first_difference(report, ended.out)))
    part.compare(command, *pairs)


def run_all(part, copy):
    """Runs each row, with one worker and with several, and sees that the page names all of them."""
    told = ROWS.findall(text_of(copy, PAGE))
    rows = [(name, status) for status, names in told for name in re.findall(r"`(\w+)`", names)]
    files = {name[: -len(".toml")] for name in os.listdir(os.path.join(copy, FOLDER)) if name.endswith(".toml")}
    part.compare(f"the rows of {PAGE}", ("names", sorted(files), sorted(name for name, _ in rows)))
    for name, status in rows:
        for workers in (ALONE, SEVERAL):
            compare_row(part, copy, name, report_of(copy, name), workers, int(status))
    name, report, limit, status = STOPPED
    compare_row(part, copy, name, report_of(copy, report), f"{ALONE} {limit}", status)


def write_rows(copy):
    """Writes the two texts of each small row as one, and answers the paths of its files by what they are."""
    rows = []
    for name in SMALL:
        paths = {suffix: path_of(name, suffix) for suffix in ("toml", "csv", "report")}
        paths["both"] = f"{BOTH}/{name}.both"
        with open(os.path.join(copy, paths["both"]), "w", encoding="utf-8") as file:
            file.write(text_of(copy, paths["toml"]) + "%%\n" + text_of(copy, paths["csv"]))
        rows.append(paths)
    return rows
