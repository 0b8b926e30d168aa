"""A program of one's own: the folder that bin/new_program makes, and the samples of examples/tpl/README.md: functions, which stand in such a
folder as one program, and networks. Nothing is proved."""

import os
import re

from accept.examples import STATUS, compare_report, text_of
from accept.shell import path_without, run
from accept.tally import first_difference

NETWORKS = "examples/tpl"
PAGE = f"{NETWORKS}/README.md"

# How long a build without proof may take.
SECONDS = 1800

USAGE = "new_program: usage: new_program FOLDER\n"
NO_KIT = "new_program: rt is not found: install the Rattle kit (README.md says which), and put its command rt on PATH\n"
INSIDE = "new_program: inside: it would lie in Bevelrose's own folder, where only Bevelrose's sources may stand\n"

# Calls that make nothing, in the copy, each with its status and what it says.
REFUSED = [
    ("bin/new_program", 2, USAGE),
    ("bin/new_program one two", 2, USAGE),
    ("bin/new_program --proved", 2, USAGE),
    ("bin/new_program ''", 2, USAGE),
    ("bin/new_program docs", 2, "new_program: docs: it is there already\n"),
    ("ln -s nowhere ../link; bin/new_program ../link", 2, "new_program: ../link: it is there already\n"),
    ("bin/new_program ../nowhere/folder", 1, "new_program: ../nowhere: there is no such folder\n"),
    ("bin/new_program inside", 2, INSIDE),
]

SECTION = re.compile(r"^## (.*?)$", re.M)
FENCE = re.compile(r"^```(\w+)\n(.*?)^```$", re.M | re.S)

# A function of the page, which is given the runtime of `main`, or borrows it.
FUNCTION = re.compile(r"^fn (\w+)(?:<[^>]*>)?\(\s*rt: (&?)\w+,?\s*\)", re.M)

# The network of a section.
NETWORK = re.compile(r"\((\w+)\.toml\)")

# Where the page says so, a network is run with so many workers too.
SEVERAL = "with 4 workers as with 1"


def compare_call(part, command, folder, status, out, err="", seconds=SECONDS):
    ended = run(command, folder, seconds)
    pairs = [("status", status, ended.status)]
    if ended.out != out:
        pairs.append(("output", *first_difference(out, ended.out)))
    if err is not None and ended.err != err:
        pairs.append(("told", *first_difference(err, ended.err)))
    part.compare(command, *pairs)
    return ended


def refuse_all(part, copy, room):
    for command, status, told in REFUSED:
        compare_call(part, command, copy, status, "", told)
    ended = run("bin/new_program ../without", copy, path=path_without("rt", os.path.join(room, "path_of_programs")))
    part.compare("bin/new_program without a kit", ("status", 127, ended.status), ("told", NO_KIT, ended.err))
    left = [name for name in os.listdir(room) if name.startswith(".new_program") or name == "without"]
    part.count(not left, "nothing stays of what was refused", left)


def keep_log(logs, name, ended):
    with open(os.path.join(logs, name), "w", encoding="utf-8") as log:
        log.write(ended.out + ended.err)


def run_all(part, copy, room, logs):
    """Makes the folder of a new program, and runs that without proof, compiled and by `rt try`."""
    refuse_all(part, copy, room)
    made = "../program is made; its README.md says how to run and to prove it\n"
    compare_call(part, "bin/new_program ../program", copy, 0, made)
    folder = os.path.join(room, "program")
    if not os.path.isdir(folder):
        return
    printed = text_of(folder, "crates/program/stdout")
    keep_log(logs, "program", compare_call(part, "bin/program", folder, 0, printed, None))
    compare_call(part, "bin/program 2>&1", folder, 0, printed)
    keep_log(logs, "program_tried", compare_call(part, "rt try", os.path.join(folder, "crates", "program"), 0, printed, None))
    compare_call(part, "sha256sum --quiet -c bevelrose.sums", folder, 0, "")
    holes = text_of(folder, "crates/program/src/least.rt").count("{ ? }")
    part.compare("the holes of the meaning", ("count", 3, holes))
    shown = f"`{printed.rstrip()}`" in text_of(folder, "README.md")
    part.count(shown, "its README.md shows what it prints")


def sections_of(page):
    """Of each section that has blocks of code its heading, its text, and the blocks by their languages."""
    parts = SECTION.split(page)
    for heading, text in zip(parts[1::2], parts[2::2]):
        blocks = {}
        for language, code in FENCE.findall(text):
            blocks.setdefault(language, []).append(code)
        if blocks:
            yield heading, text, blocks


def run_networks(part, copy):
    """Runs the network of each section over its records, and sees that the page names all networks."""
    seen = []
    for _, text, _ in sections_of(text_of(copy, PAGE)):
        said = " ".join(text.split())
        for name in NETWORK.findall(said):
            seen.append(name)
            path, status = f"{NETWORKS}/{name}", STATUS.search(said)
            wanted = text_of(copy, f"{path}.report"), int(status.group(1)) if status else None
            for workers in (1, 4) if SEVERAL in said else (1,):
                command = f"bin/flow_run {path}.toml {workers} < {path}.csv"
                compare_report(part, command, wanted, run(command, copy))
    files = {name[: -len(".toml")] for name in os.listdir(os.path.join(copy, NETWORKS)) if name.endswith(".toml")}
    part.compare(f"the networks of {PAGE}", ("names", sorted(files), sorted(seen)))


def program_of(page):
    """The functions of the page as one program, which prints the name of each before what that prints, and what it is to print."""
    code, calls, printed = [], [], []
    for _, _, blocks in sections_of(page):
        code += blocks.get("rust", [])
        for name, borrows in FUNCTION.findall("".join(blocks.get("rust", []))):
            calls.append(f'    println!(rt; "== {name}")?;\n    {name}({borrows}rt)?;\n')
            printed += [f"== {name}\n", *blocks.get("output", [])]
    body = f"\nfn main(rt: HostRuntime) -> Result<()> {{\n{''.join(calls)}    Ok(())\n}}\n"
    return "\n".join(code) + body, "".join(printed)


def run_program(part, copy, room, logs):
    """Tries the functions of the page in a folder that bin/new_program makes."""
    ended = run("bin/new_program ../samples_program", copy)
    crate = os.path.join(room, "samples_program", "crates", "program")
    if not os.path.isdir(crate):
        part.count(False, "bin/new_program ../samples_program", [ended.err])
        return
    code, printed = program_of(text_of(copy, PAGE))
    os.remove(os.path.join(crate, "src", "least.rt"))
    with open(os.path.join(crate, "src", "main.rt"), "w", encoding="utf-8") as file:
        file.write(code)
    keep_log(logs, "samples", try_program(part, crate, printed))


def try_program(part, crate, printed):
    """Tries the program, and compares what each function prints."""
    ended = run("rt try", crate, SECONDS)
    part.compare(f"the functions of {PAGE}: rt try", ("status", 0, ended.status))
    came = pieces_of(ended.out)
    for name, wanted in pieces_of(printed).items():
        part.compare(f"{PAGE}: {name}", ("output", wanted, came.get(name)))
    return ended


def pieces_of(printed):
    """What is printed behind each name."""
    parts = re.split(r"^== (\w+)\n", printed, flags=re.M)
    return dict(zip(parts[1::2], parts[2::2]))


def run_samples(part, copy, room, logs):
    run_networks(part, copy)
    run_program(part, copy, room, logs)
