"""Man pages and completions, which are made of what the programs print as their help."""

import datetime
import os
import re
import textwrap
from typing import List, NamedTuple

from release.shell import TOP, Stop, told_by

# What the help of bin/flow_run says of a checkout alone.
OF_CHECKOUT = "in a checkout"

# The names of man pages for what help calls otherwise.
HEADS = {"status": "EXIT STATUS", "example": "EXAMPLES", "arguments": "ARGUMENTS", "options": "OPTIONS"}

# How long the lines of a man page are.
WIDTH = 72

TERM = re.compile(r"^ {2,6}(?=\S)(\S.*?)(?: {2,}(\S.*))?$")


class Section(NamedTuple):
    """A part of a help, with the head that it stands under; the first has none."""

    head: str
    lines: List[str]


def check_version(version, flow):
    """Stops where the program flow, at this path, says that it is of another version."""
    told = told_by(flow, "--version").split()[-1]
    if re.split("[+~]", version)[0] != told:
        raise Stop(f"the program flow says that it is {told}; crates/flow_tool/src/command.rt has its version")


def sections(text):
    """The parts of a help, without its line of usage, and that line."""
    usage, found = "", [Section("", [])]
    for line in text.rstrip("\n").split("\n"):
        if re.match(r"[Uu]sage: ", line):
            usage = line[len("usage: ") :]
        elif re.fullmatch(r"[A-Za-z ]+:", line):
            found.append(Section(line[:-1].lower(), []))
        elif line and not line.startswith(" ") and found[-1].head and found[-1].head != "status":
            # Plain lines behind a list stand for themselves.
            found.append(Section("", [line]))
        else:
            found[-1].lines.append(line)
    return usage, [Section(head, lines) for head, lines in found if any(lines)]


def listed(section):
    """What a list names, as pairs of a term and its text, whose lines that are indented further go on."""
    pairs = []
    for line in section.lines:
        term = TERM.match(line)
        if term:
            pairs.append((term.group(1), term.group(2) or ""))
        elif line.strip() and pairs:
            pairs[-1] = pairs[-1][0], f"{pairs[-1][1]} {line.strip()}"
    return pairs


def roff(text):
    """A line of text as man pages have it."""
    text = text.replace("\\", "\\e").replace("-", "\\-").replace("`", "")
    return "\\&" + text if text.startswith((".", "'")) else text


def verbatim(lines):
    body = "\n".join(lines).strip("\n").split("\n")
    return [".PP", ".nf", ".RS 4", *(roff(line.strip()) for line in body), ".RE", ".fi"]


def wrapped(text):
    """A text as lines of a man page."""
    return [roff(line) for line in textwrap.wrap(text, WIDTH, break_long_words=False, break_on_hyphens=False)]


def written(section):
    """A section's text as man pages have it."""
    if section.head == "example":
        return verbatim(section.lines)
    if section.head:
        return [line for term, text in listed(section) for line in (".TP", f".B {roff(term)}", *wrapped(text))]
    return [line for text in paragraphs(section.lines) for line in (".PP", *wrapped(text))]


def paragraphs(lines):
    return [" ".join(part.split()) for part in "\n".join(lines).split("\n\n") if part.strip()]


def manual(tool, release, about, body, other):
    """A man page of these lines, with what each begins and ends with. A release is its version and its time."""
    version, time = release
    day = datetime.datetime.fromtimestamp(time, datetime.timezone.utc).date()
    about = about.rstrip(".")
    head = [f'.TH {tool.upper()} 1 "{day}" "Bevelrose {version}" ""', ".SH NAME", f"{tool} \\- {roff(about[0].lower() + about[1:])}"]
    pages = "The pages named here, the examples and the file BUILD, which says how the program was built, lie in share/doc/bevelrose, or beside"
    foot = [".SH FILES", *wrapped(f"{pages} bin/ in an unpacked archive."), ".SH SEE ALSO", f".BR {other} (1)"]
    lines = [*head, *body, *foot, ""]
    # The first paragraph behind a head needs no word that begins it.
    return "\n".join(line for line, before in zip(lines, ["", *lines]) if line != ".PP" or before[:3] not in (".SH", ".SS"))


def program_help():
    """The help of bin/flow_run, as far as it holds for the program."""
    text = told_by(os.path.join(TOP, "bin", "flow_run"), "--help")
    return text.split(f"\n{OF_CHECKOUT}:\n")[0].replace("bin/flow", "flow")


def manual_of_run(release):
    usage, parts = sections(program_help())
    about = paragraphs(parts[0].lines)[0].split(". ")[0]
    lines = [".SH SYNOPSIS", f".B {roff(usage)}", ".SH DESCRIPTION"]
    for section in parts:
        lines += [f".SH {HEADS.get(section.head, section.head.upper())}"] if section.head else []
        lines += written(section)
    return manual("flow_run", release, about, lines, "flow")


def commands_of(text):
    """The commands of flow, with what each does."""
    return next(listed(section) for section in sections(text)[1] if section.head == "commands")


def flow_helps(path):
    """The help of flow, and of each of its commands."""
    first = told_by(path, "--help")
    return first, {name: told_by(path, name, "--help") for name, _ in commands_of(first)}


def manual_of_flow(release, path):
    first, helps = flow_helps(path)
    _, parts = sections(first)
    usages = [f".B {roff(sections(text)[0])}" for text in helps.values()]
    lines = [".SH SYNOPSIS", *"\n.br\n".join([*usages, f".B flow {roff(' | '.join(long_options(first)))}"]).split("\n"), ".SH COMMANDS"]
    for name, text in helps.items():
        lines += [f".SS {name}"]
        for section in sections(text)[1]:
            lines += written(section)
    lines += [".SH EXIT STATUS", *written(next(section for section in parts if section.head == "status"))]
    return manual("flow", release, paragraphs(parts[0].lines)[0], lines, "flow_run")


def manuals(version, time, flow):
    """The man pages, by their paths in a package; flow is the path of that program."""
    release = version, time
    return {"man/flow_run.1": manual_of_run(release), "man/flow.1": manual_of_flow(release, flow)}


def options_of(text):
    """The options of a command, each with its words and whether one more word is its value."""
    found = []
    for section in sections(text)[1]:
        if section.head == "options":
            for term, about in listed(section):
                names = re.findall(r"--?[A-Za-z-]+", term)
                found.append((names, "<" in term, about))
    return found


def long_options(text):
    """The options of a command that are words."""
    return [name for names, _, _ in options_of(text) for name in names if name.startswith("--")]


BASH_RUN = """\
# Completion of flow_run for bash.
_flow_run() {
    case $COMP_CWORD in
        1)
            compopt -o filenames 2>/dev/null
            mapfile -t COMPREPLY < <(compgen -f -- "$2")
            ;;
        2) mapfile -t COMPREPLY < <(compgen -W '1 2 4 8 16 32 64' -- "$2") ;;
        *) COMPREPLY=() ;;
    esac
}
complete -F _flow_run flow_run
"""

BASH_FLOW = """\
# Completion of flow for bash.
_flow() {
    local words=
    if [ "$COMP_CWORD" -eq 1 ]; then
        words='%s'
    else
        case $2 in
            -*)
                case ${COMP_WORDS[1]} in
%s
                esac
                ;;
            *)
                compopt -o filenames 2>/dev/null
                mapfile -t COMPREPLY < <(compgen -f -- "$2")
                return
                ;;
        esac
    fi
    mapfile -t COMPREPLY < <(compgen -W "$words" -- "$2")
}
complete -F _flow flow
"""

ZSH_RUN = """\
#compdef flow_run
_arguments '1:network:_files' '2:workers:(1 2 4 8 16 32 64)' '3:limit:'
"""

ZSH_FLOW = """\
#compdef flow
local -a commands options
commands=(
%s
)
options=(
%s
)
if (( CURRENT == 2 )); then
    local found=1
    _describe command commands && found=0
    _describe -o option options && found=0
    return found
fi
case $words[2] in
%s
esac
"""


def quoted(text):
    """A text in a word of zsh that stands in single quotes."""
    return text.replace("'", "'\\''").replace("[", "\\[").replace("]", "\\]").replace(":", "\\:")


def bash_of_flow(first, helps):
    cases = []
    for name, text in helps.items():
        words = " ".join(word for names, _, _ in options_of(text) for word in names)
        cases.append(f"                    {name}) words='{words}' ;;")
    return BASH_FLOW % (" ".join([*helps, *long_options(first)]), "\n".join(cases))


def zsh_of_flow(first, helps):
    commands = [f"    '{name}:{quoted(about)}'" for name, about in commands_of(first)]
    options = [f"    '{name}:{quoted(about)}'" for names, _, about in options_of(first) for name in names]
    cases = []
    for name, text in helps.items():
        specs = [spec_of_zsh(word, *more) for names, *more in options_of(text) for word in names]
        cases.append(f"    {name}) _arguments {' '.join(specs)} '*:file:_files' ;;")
    return ZSH_FLOW % ("\n".join(commands), "\n".join(options), "\n".join(cases))


def spec_of_zsh(word, has_value, about):
    return f"'{word}{'=' if has_value else ''}[{quoted(about)}]{':value:' if has_value else ''}'"


def completions(flow):
    """The completions, by their paths in a package; flow is the path of that program."""
    first, helps = flow_helps(flow)
    return {
        "completions/bash/flow_run": BASH_RUN,
        "completions/bash/flow": bash_of_flow(first, helps),
        "completions/zsh/_flow_run": ZSH_RUN,
        "completions/zsh/_flow": zsh_of_flow(first, helps),
    }
