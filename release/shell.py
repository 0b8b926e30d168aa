"""What the parts of bin/package ask of other programs."""

import os
import subprocess

TOP = os.path.dirname(os.path.dirname(os.path.realpath(__file__)))

# The programs, and the library for other languages.
PROGRAMS = ["flow_run", "flow"]
LIBRARY = "library"

# The crate that each is built of.
CRATES = {"flow_run": "flow_cli", "flow": "flow_tool", LIBRARY: "bevelrose_c"}


class Stop(Exception):
    """Why no package is made."""


def ask(words, folder):
    """The line that a command prints, or nothing where it fails or is not there."""
    try:
        asked = subprocess.run(words, cwd=folder, stdin=subprocess.DEVNULL, stdout=subprocess.PIPE, stderr=subprocess.DEVNULL)
    except OSError:
        return ""
    return asked.stdout.decode().strip() if asked.returncode == 0 else ""


def builder(tool, script):
    """What a script prints that has the functions of bin/program.sh, for this program or the library."""
    begin = '. "$1"; use_program "$2" "$3"; '
    words = ["sh", "-euc", begin + script, os.path.join(TOP, "bin", "package"), os.path.join(TOP, "bin", "program.sh"), tool, CRATES[tool]]
    done = subprocess.run(words, stdin=subprocess.DEVNULL, stdout=subprocess.PIPE)
    if done.returncode != 0:
        raise Stop(f"{tool} could not be built")
    return os.fsdecode(done.stdout)


def told_by(path, *words):
    """What a program prints."""
    told = subprocess.run([path, *words], env={}, stdin=subprocess.DEVNULL, stdout=subprocess.PIPE)
    if told.returncode != 0 or not told.stdout:
        raise Stop(f"{' '.join([path, *words])} prints nothing")
    return told.stdout.decode()
