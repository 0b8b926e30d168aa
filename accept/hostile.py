"""Programs under hostile conditions: memory that is refused, streams that fail, and broken texts."""

import os
import re
import shutil
import tempfile

from accept.builds import SECONDS, SHORTEST, keep_log
from accept.examples import ALONE, OPEN, SEVERAL, names_of, text_of, wanted_of
from accept.rows import write_rows
from accept.shell import Ended, run

# How failing.c is loaded before a program.
PRELOADED = "LD_PRELOAD=./out/failing.so"

# What failing.c says on standard error where it has a call fail.
FAILED = "one call fails\n"

# A program with more calls of a kind counts as one that does not end.
MOST = 20_000

# What the program says where a call of a kind fails that it can't go on without.
TOLD = {"growth": (4, "flow_run: memory\n"), "read": (5, "flow_run: 12 Read\n"), "write": (5, "flow_run: 13 Write\n")}

# Calls of flow that print something, and what it says where that fails.
FLOW = (
    "check examples/import.toml",
    "draw examples/import.toml",
    "results examples/batches.report",
    "page examples/batches.toml examples/batches.report",
    "why examples/batches.toml examples/batches.report",
)
UNPRINTED = (5, "flow: standard output failed\n")

# More calls of it, and what it says where memory is out: its help, and words and files that it refuses.
MORE_OF_FLOW = ("--help", "fly", "split 0 records.csv", "check nowhere.toml", "draw \"$(printf 'a\\377')\"")
STARVED = (4, "", "flow: memory\n")

# The lines of the example that say in which way memory was refused to its crew.
WAYS = {"refused: the network came back", "refused: its parts came back"}

# The examples of whose bytes each is cut or changed: a small one with a join, and one with texts, steps and predicates.
BROKEN = ("matches", "routes")

# The table of the calls that may be refused memory, what the program says of each that is, and what it says where it gives up.
TABLE = "crates/refusals/CALLS.md"
AS_BEFORE = re.compile(r"(\S+): refused, as before")
GIVES_UP = r"memory is refused again and again|out of memory|allocation failed"

# The refusals of a text, by which text it is: the number and the name, and where it is. A network that lacks something may be a network
# without an input.
REFUSALS = {
    "toml": re.compile(r"flow_run: ([1-8] [A-Z]\w+( \d+ [A-Z]\w+)?( (top|(block|link) \d+))?|11 UnknownInput record \d+)\n"),
    "csv": re.compile(r"flow_run: (9 Csv|10 NotUtf8|11 UnknownInput) record \d+\n"),
}


def what_lacks():
    return None if shutil.which("cc") else "there is no C compiler"


def build_failing(part, copy):
    library = ["cc", "-O1", "-Wall", "-shared", "-fPIC", "-o", "out/failing.so", "accept/failing.c", "-ldl"]
    ended = run(library, copy)
    part.compare("accept/failing.c", ("status", 0, ended.status))
    return ended.status == 0


def each_copied(copy, words, command):
    """Runs a command once, which is copied as failing.c says by these words, and answers for each copy its number and how it ended."""
    with tempfile.TemporaryDirectory(dir=os.path.join(copy, "out")) as room:
        path = os.path.join(room, "ends")
        run(f"{words} ENDS={path} {PRELOADED} {command} 1<> {room}/output 2<> {room}/error", copy, SECONDS)
        if not os.path.exists(path):
            return
        with open(path, "rb") as ends:
            for line in ends:
                number, status, *sizes = map(int, line.split())
                yield number, Ended(status, *map(ends.read, sizes))


def each_failing(copy, kind, command):
    """How a command ends of which one call of this kind fails, for each such call that it makes: in a copy, or else in a run of its own."""
    copies = each_copied(copy, f"FAILS={kind}:each", command)
    copied = next(copies, None)
    for number in range(1, MOST):
        if copied and copied[0] == number:
            ended, copied = copied[1], next(copies, None)
        else:
            ended = run(f"FAILS={kind}:{number} {PRELOADED} {command}", copy)
        if FAILED not in ended.err:
            return
        ended.err = ended.err.replace(FAILED, "")
        yield number, ended
    raise RuntimeError(f"{command} makes more than {MOST} calls")


def each_of_texts(copy, path, texts, command):
    """How a command ends that finds each of these texts in the file of this path: in a copy, or else in a run of its own."""
    listed = f"{path}.texts"
    with open(listed, "wb") as file:
        file.writelines(b"%d,%s" % (len(text), text) for text in texts)
    copies = dict(each_copied(copy, f"FAILS=text:each TEXT={path} TEXTS={listed}", command))
    for number, text in enumerate(texts, 1):
        if number not in copies:
            with open(path, "wb") as file:
                file.write(text)
        yield copies[number] if number in copies else run(command, copy)


def shown(number, ended):
    return [f"call {number}: status {ended.status}", ended.out, ended.err]


def fail_each(part, copy, command, wanted, kind):
    """A run comes to its report, or says why not. Then nothing goes out after the call that failed."""
    command, (report, status) = f"out/flow_run.unproved {command}", wanted
    has_failed, wrong = False, []
    for number, ended in each_failing(copy, kind, command):
        is_told = (ended.status, ended.err) == TOLD.get(kind)
        is_cut = report.startswith(ended.out) and ended.out != report if kind == "write" else not ended.out
        is_whole = (ended.status, ended.out, ended.err) == (status, report, "")
        has_failed = has_failed or is_told
        wrong += [] if is_whole and kind != "write" or is_told and is_cut else shown(number, ended)
    part.count(not wrong and has_failed == (kind in TOLD), f"{command}, {kind}", wrong)


def fail_flow(part, copy, words):
    """Where a write of a command fails, that is told, and nothing goes out after it."""
    command = f"out/flow.unproved {words}"
    whole, has_failed, wrong = run(command, copy).out, False, []
    for number, ended in each_failing(copy, "write", command):
        is_cut = whole.startswith(ended.out) and ended.out != whole
        has_failed = True
        wrong += [] if is_cut and (ended.status, ended.err) == UNPRINTED else shown(number, ended)
    part.count(not wrong and has_failed, f"{command}, write", wrong)


def fail_all(part, copy):
    """Refuses memory to the examples, with one worker and with several, and has their streams fail, and writes of flow."""
    if not build_failing(part, copy):
        return
    for name in names_of(copy):
        example, wanted = f"examples/{name}.toml %s < examples/{name}.csv", wanted_of(copy, name)
        for kind in ("growth", "read", "write", "interrupt", "short"):
            fail_each(part, copy, example % ALONE, wanted, kind)
        if name not in OPEN:
            fail_each(part, copy, example % SEVERAL, wanted, "growth")
    for row in write_rows(copy):
        fail_row(part, copy, row)
    for words in FLOW:
        fail_flow(part, copy, words)
    for words in FLOW + MORE_OF_FLOW:
        starve_flow(part, copy, words)


def fail_row(part, copy, row):
    """The same for a small run with one worker and with two, also where its network and records come in one stream."""
    wanted = text_of(copy, row["report"]), 0
    for kind in ("read", "write"):
        for workers in (1, 2):
            fail_each(part, copy, f"{row['toml']} {workers} < {row['csv']}", wanted, kind)
        fail_each(part, copy, f"< {row['both']}", wanted, kind)


def starve_flow(part, copy, words):
    """Where a growth is refused to a command, it says so and prints nothing, or ends as it does with memory."""
    command = f"out/flow.unproved {words}"
    whole, is_starved, wrong = run(command, copy), False, []
    for number, ended in each_failing(copy, "growth", command):
        how = ended.status, ended.out, ended.err
        is_starved = is_starved or how == STARVED
        wrong += [] if how in (STARVED, (whole.status, whole.out, whole.err)) else shown(number, ended)
    part.count(not wrong and is_starved, f"{command}, growth", wrong)


def build(part, copy, logs, crate):
    script = f"export {SHORTEST}; . bin/program.sh; use_program {crate} {crate}; build_unproved"
    ended = run(["sh", "-c", script, "bin/flow_run"], copy, SECONDS)
    keep_log(logs, crate, ended)
    part.compare(f"build of {crate}", ("status", 0, ended.status))
    return ended.status == 0


def calls_that_grow(copy):
    """The calls that may be refused memory, by the last column of the table."""
    with open(os.path.join(copy, TABLE)) as file:
        rows = [line.split("|") for line in file if line.startswith("| `")]
    shown = {row[-2].strip() for row in rows}
    return {name.strip("`") for name in shown if name.startswith("`") and name.endswith("`")}


def refuse_calls(part, copy, logs):
    """The program that makes each call that takes memory. Where one growth is refused, it comes to its end; where all are from there on,
    it may say that it gives up. In both ways each line that it prints says that a call was refused and that all is as before. In the
    first the calls are those of the table."""
    if not build(part, copy, logs, "refusals") or not build_failing(part, copy):
        return
    command, end = "out/refusals.unproved", "all calls are made\n"
    part.compare(command, ("status, output", (0, end), ended_of(run(command, copy))))
    for kind in ("growth", "growths"):
        seen, wrong = set(), []
        for number, ended in each_failing(copy, kind, command):
            told = set(ended.out.removesuffix(end).splitlines())
            seen |= told
            good = ended.status == 0 and ended.out.endswith(end) and not ended.err
            good = good or kind == "growths" and ended.status not in (0, None) and re.search(GIVES_UP, ended.err)
            wrong += [] if good and all(AS_BEFORE.fullmatch(line) for line in told) else shown(number, ended)
        part.count(not wrong, f"{command}, {kind}", wrong)
        names = {AS_BEFORE.fullmatch(line).group(1) for line in seen if AS_BEFORE.fullmatch(line)}
        if kind == "growth":
            listed = calls_that_grow(copy)
            differ = [f"never refused: {name}" for name in sorted(listed - names)]
            differ += [f"refused, and not listed: {name}" for name in sorted(names - listed)]
            part.count(not differ, TABLE, differ)


def ended_of(ended):
    return ended.status, ended.out


def go_on(part, copy, logs):
    """The example whose crew goes on from what comes back. Until its network is made it may end for want of memory, and prints nothing.
    From then on it comes to its end, and each way of coming back is seen."""
    if not build(part, copy, logs, "examples") or not build_failing(part, copy):
        return
    command = "out/examples.unproved memory"
    wanted, seen, wrong = run(command, copy).out.splitlines(), set(), []
    for number, ended in each_failing(copy, "growth", command):
        lines = ended.out.splitlines()
        seen |= WAYS.intersection(lines)
        good = ended.status == 0 and [line for line in lines if line not in WAYS] == wanted
        if not good and not seen:
            good = not lines and re.search("out of memory|allocation failed", ended.err)
        wrong += [] if good else shown(number, ended)
    part.count(not wrong, command, wrong)
    part.compare(f"{command}: what came back", ("ways", sorted(WAYS), sorted(seen)))


def broken(whole):
    """Each beginning of a text, and the text with each of its bytes changed to one that no UTF-8 has."""
    for place in range(len(whole)):
        yield f"cut at {place}", whole[:place]
        yield f"ff at {place}", whole[:place] + b"\xff" + whole[place + 1 :]


def is_answered(ended, suffix):
    """Whether a run comes to a report, or is refused for this text with one line and writes nothing."""
    if ended.status in (0, 1):
        return not ended.err and ended.out.endswith("quiet\n")
    return ended.status == 2 and not ended.out and REFUSALS[suffix].fullmatch(ended.err)


def break_text(part, copy, room, paths, suffix):
    """Runs over these files of which one is broken in each way."""
    with open(os.path.join(copy, paths[suffix]), "rb") as file:
        whole = file.read()
    read = {**paths, suffix: os.path.join(room, f"broken.{suffix}")}
    shutil.copy(os.path.join(copy, paths[suffix]), read[suffix])
    ways, texts = zip(*broken(whole))
    ended = each_of_texts(copy, read[suffix], texts, f"out/flow_run.unproved {read['toml']} {ALONE} < {read['csv']}")
    wrong = [line for how, came in zip(ways, ended) if not is_answered(came, suffix) for line in [how, *shown(0, came)]]
    part.count(not wrong, paths[suffix], wrong)


def break_texts(part, copy):
    examples = [{suffix: f"examples/{name}.{suffix}" for suffix in REFUSALS} for name in BROKEN]
    with tempfile.TemporaryDirectory(dir=os.path.join(copy, "out")) as room:
        for paths in [*examples, *write_rows(copy)]:
            for suffix in REFUSALS:
                break_text(part, copy, room, paths, suffix)
