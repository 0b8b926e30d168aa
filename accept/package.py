"""The package of bin/package: made twice, installed in a root that has the libraries of the programs and nothing else, and removed. It has
the library for other languages where `bin/library` made that, and else it is made without."""

import filecmp
import os
import re
import shlex
import shutil
import subprocess
import tarfile

from accept import callers
from accept.examples import ALONE, calls_shown, command_of, compare_report, names_of, text_of, wanted_of
from accept.pages import Tree, broken_links
from accept.shell import run
from accept.tally import first_difference
from release import library
from release.shell import TOP

DOCS = "usr/share/doc/bevelrose"

# Another place, in which names are sorted otherwise, new files are for nobody else, and the clock shows another hour.
ELSEWHERE = "umask 077; export TZ=Asia/Tokyo LC_ALL=C.UTF-8 LANG=C.UTF-8; "


def version_of(copy):
    """The version that the program flow tells."""
    return re.search(r'^const VERSION: &str = "(.*)";$', text_of(copy, "crates/flow_tool/src/command.rt"), re.M).group(1)


def archive_of(copy):
    return f"bevelrose-{version_of(copy)}-x86_64-linux.tar.gz"


def debian_of(copy):
    return f"bevelrose_{version_of(copy)}_amd64.deb"


def what_lacks():
    """What this machine lacks to try a package, or None."""
    for program in ("dpkg", "dpkg-deb", "chroot", "ldd"):
        if shutil.which(program) is None:
            return f"there is no {program}"
    return None if os.geteuid() == 0 else "only root may call chroot"


def libraries(program):
    """The files that `ldd` names of a program."""
    listed = subprocess.run(["ldd", program], stdin=subprocess.DEVNULL, stdout=subprocess.PIPE, stderr=subprocess.DEVNULL)
    return re.findall(r"(/\S+) \(0x", os.fsdecode(listed.stdout))


def put_libraries(root, *programs):
    """Puts into a root what these programs need, as far as they are there, and answers the paths in the root."""
    found = {path for program in programs if os.path.exists(program) for path in libraries(program)}
    for path in found:
        target = root + path
        os.makedirs(os.path.dirname(target), exist_ok=True)
        shutil.copy(os.path.realpath(path), target)
    return {os.path.normpath(path) for path in found}


def programs_of(copy):
    """The paths of the programs, proved and not."""
    return [os.path.join(copy, "out", name) for tool in ("flow_run", "flow") for name in (tool, f"{tool}.unproved")]


def files_below(root):
    """All that stands in a root but folders, and what dpkg keeps for itself."""
    found = set()
    for folder, _, names in os.walk(root):
        found.update("/" + os.path.relpath(os.path.join(folder, name), root) for name in names)
    return {path for path in found if not path.startswith("/var/lib/dpkg/")}


def in_root(root):
    """The beginning of a call in a root, without an environment."""
    return f"env -i {shutil.which('chroot')} {shlex.quote(root)} "


def bring_library(part, copy):
    """Puts what `bin/library` made to where bin/package looks for it, and answers whether it is there."""
    lacks = library.what_lacks()
    if lacks:
        part.skip("the library in the package", lacks)
        return False
    place = os.path.join(copy, "out", "library")
    if not os.path.exists(place):
        shutil.copytree(library.FOLDER, place)
    return True


def command_of_package(copy, has_library, more=""):
    return f"bin/package {'' if has_library else '--without-library '}{version_of(copy)}{more}"


def make(part, copy, room, has_library):
    """Makes the packages twice, and answers whether they are there."""
    command = command_of_package(copy, has_library)
    first = run(command, copy)
    part.compare(command, ("status", 0, first.status), ("standard error", "", first.err))
    command = command_of_package(copy, has_library, ".1")
    ended = run(command, copy)
    part.compare(command, ("status", 1, ended.status), ("output", "", ended.out))
    other = os.path.join(room, "another place", "for it")
    shutil.copytree(copy, other, symlinks=True)
    command = f"{ELSEWHERE}{command_of_package(copy, has_library)}"
    part.compare(f"{command}, elsewhere", ("output", first.out, run(command, other).out))
    made = [os.path.join("out", name) for name in (archive_of(copy), debian_of(copy))]
    are_there = all(os.path.exists(os.path.join(place, name)) for name in made for place in (copy, other))
    for name in made if are_there else []:
        same = filecmp.cmp(os.path.join(copy, name), os.path.join(other, name), shallow=False)
        part.count(same, f"{name} elsewhere", ["it has other bytes"])
    if has_library:
        leave_library_out(part, other)
    shutil.rmtree(os.path.dirname(other))
    return are_there


def leave_library_out(part, copy):
    """Of a library that is older than its header no package is made, but for one without it."""
    os.utime(os.path.join(copy, "crates", "bevelrose_c", "bevelrose.h"))
    ended, wanted = run(command_of_package(copy, True), copy), "package: the library in out/library is older than its sources: "
    told = ("standard error", wanted, ended.err[: len(wanted)])
    part.compare("bin/package with an old library", ("status", 1, ended.status), ("output", "", ended.out), told)
    command = command_of_package(copy, False)
    ended = run(command, copy)
    with tarfile.open(os.path.join(copy, "out", archive_of(copy))) as packed:
        has_any = any(os.path.basename(name) in library.PLACES or name.endswith(".py") for name in packed.getnames())
    part.compare(command, ("status", 0, ended.status), ("it has of the library", False, has_any))


def call_dpkg(root, words):
    """A call of dpkg that knows of this root alone."""
    os.makedirs(f"{root}/var/lib/dpkg/info", exist_ok=True)
    os.makedirs(f"{root}/var/lib/dpkg/updates", exist_ok=True)
    with open(f"{root}/var/lib/dpkg/status", "a", encoding="ascii"):
        pass
    log = shlex.quote(f"{root}/var/lib/dpkg/log")
    return f"dpkg --root={shlex.quote(root)} --log={log} --force-depends {words}"


def install(part, copy, room, has_library):
    """Installs the Debian package in a root, runs each example there, calls its library, and removes it."""
    root = os.path.join(room, "installed")
    os.makedirs(root)
    needed = put_libraries(root, *programs_of(copy))
    ended = run(call_dpkg(root, f"--install out/{debian_of(copy)}"), copy)
    part.compare("dpkg --install", ("status", 0, ended.status))
    for name in names_of(copy):
        run_example(part, copy, root, name)
    manuals(part, root)
    complete(part, root)
    if has_library:
        callers.call_installed(part, root, in_root(root), lambda program: needed.update(put_libraries(root, program)))
        callers.call_classes(part, root, room)
    ended = run(call_dpkg(root, "--remove bevelrose"), copy)
    part.compare("dpkg --remove", ("status", 0, ended.status), ("files left", set(), files_below(root) - needed))


def run_example(part, copy, root, name):
    """Runs an example in a root where the package is installed, and checks its texts there."""
    network, records = (f"/{DOCS}/examples/{name}.{kind}" for kind in ("toml", "csv"))
    command = f"/usr/bin/flow_run {network} {ALONE} < {shlex.quote(root)}{records}"
    compare_report(part, command, wanted_of(copy, name), run(in_root(root) + command, copy))
    command = f"/usr/bin/flow check {network} {records}"
    ended = run(in_root(root) + command, copy)
    accepted = re.findall(r"^(/.*): accepted\b", ended.out, re.M)
    part.compare(command, ("status", 0, ended.status), ("accepted", [network, records], accepted))


def unpack(part, copy, room, has_library):
    """Unpacks the archive, and makes each call of the pages of examples in its folder, which is the root; then those of its library."""
    name = archive_of(copy)
    with tarfile.open(os.path.join(copy, "out", name)) as archive:
        archive.extractall(room)
    root = os.path.join(room, name[: -len(".tar.gz")])
    links(part, root)
    put_libraries(root, *programs_of(copy))
    begin = in_root(".")
    for name in names_of(copy):
        command = command_of(name, ALONE)
        compare_report(part, f"{command}, unpacked", wanted_of(root, name), run(begin + command, root))
    for command, wanted in calls_shown(root):
        ended = run(re.sub(r"\bbin/flow", f"{begin}bin/flow", command), root)
        if wanted is not None:
            pairs = [] if ended.out == wanted else [("output", *first_difference(wanted, ended.out))]
            part.compare(f"{command}, unpacked", *pairs)
    if has_library:
        callers.call_unpacked(part, root)


def links(part, root):
    """The pages of the package lead nowhere else."""
    tree = Tree.__new__(Tree)
    tree.top = root
    for folder, _, names in os.walk(root):
        for page in (os.path.relpath(os.path.join(folder, name), root) for name in names if name.endswith(".md")):
            faults = list(broken_links(tree, page, tree.text(page)))
            part.count(not faults, f"{page}, packed", faults)


def manuals(part, root):
    """The man pages are read without a warning."""
    for page in ("flow_run.1.gz", "flow.1.gz"):
        path = f"{root}/usr/share/man/man1/{page}"
        if shutil.which("man") is None or shutil.which("groff") is None:
            part.skip(page, "there is no man, or no groff")
            continue
        ended = run(f"zcat {shlex.quote(path)} | LC_ALL=C.UTF-8 groff -man -ww -b -Tutf8 | head -n 3", root)
        name = page.split(".")[0]
        part.compare(page, ("warnings", "", ended.err), ("its first line", True, name.upper() in ended.out.split("\n")[0]))


# What bash and zsh are asked: the words of a line, and what the last is completed to.
COMPLETED = [("flow dr", "draw"), ("flow --v", "--version"), ("flow draw --d", "--dot"), ("flow_run net 6", "64")]


def complete(part, root):
    """Both shells complete by the completions."""
    if shutil.which("bash"):
        complete_by_bash(part, f"{root}/usr/share/bash-completion/completions")
    else:
        part.skip("bash", "there is no bash")
    if shutil.which("zsh"):
        complete_by_zsh(part, f"{root}/usr/share/zsh/vendor-completions")
    else:
        part.skip("zsh", "there is no zsh")


def complete_by_bash(part, folder):
    for line, wanted in COMPLETED:
        tool, *_, last = line.split()
        words = f"COMP_WORDS=({line}); COMP_CWORD={len(line.split()) - 1}; _{tool} {tool} {last} x"
        ended = run(["bash", "-c", f'. {shlex.quote(f"{folder}/{tool}")}; {words}; echo "${{COMPREPLY[*]}}"'], folder)
        part.compare(f"bash: {line}", ("completed to", wanted, ended.out.strip()), ("standard error", "", ended.err))


def complete_by_zsh(part, folder):
    """zsh completes in a terminal of its own."""
    ended = run(["zsh", "-f", os.path.join(TOP, "accept", "complete.zsh"), folder, *(line for line, _ in COMPLETED)], folder)
    wanted = [f"{line.rpartition(' ')[0]} {last}" for line, last in COMPLETED]
    came = [line.rstrip() for line in ended.out.splitlines()]
    part.compare("zsh", ("completed to", wanted, came), ("standard error", "", ended.err))


def try_package(part, copy, room):
    has_library = bring_library(part, copy)
    if make(part, copy, room, has_library):
        install(part, copy, room, has_library)
        unpack(part, copy, room, has_library)
