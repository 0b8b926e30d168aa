"""GNU parallel, on this machine and over ssh: two names of this machine, by a server that is started here with keys of its own and has
all its files in one folder, and a name that does not answer. One part is killed while it runs: the merged report is that of one run."""

import os
import shlex
import shutil
import threading

from accept import parts
from accept.shell import Daemons, run
from accept.slurm import PLACES, spare_ports

NEEDED = ("parallel", "rsync", "ssh", "ssh-keygen", "sshd")

# The folder on each machine that the page has, where the machine is another; and a place that the server wants to be there.
THERE = "/var/tmp/run"
EMPTY = "/run/sshd"

SERVER = """\
Port {port}
ListenAddress 127.0.0.1
HostKey {folder}/host_key
AuthorizedKeysFile {folder}/key.pub
PidFile {folder}/sshd.pid
StrictModes no
UsePAM no
PasswordAuthentication no
PermitRootLogin prohibit-password
SetEnv PATH={path}
"""

# Names of this machine, with one connection for all calls.
NAMES = """\
Host near far
HostName 127.0.0.1
Port {port}
IdentityFile {folder}/key
IdentitiesOnly yes
UserKnownHostsFile {folder}/known_hosts
StrictHostKeyChecking accept-new
LogLevel ERROR
ControlMaster auto
ControlPath {folder}/%n
ControlPersist 10

Host gone
HostName 127.0.0.1
Port {closed}
LogLevel ERROR
"""


def what_lacks():
    """What this machine lacks, or None."""
    for program in NEEDED:
        if shutil.which(program, path=PLACES) is None:
            return f"there is no {program}"
    told = run("parallel --version", "/")
    if not told.out.startswith("GNU parallel"):
        return "the program parallel is not that of GNU"
    return None if os.geteuid() == 0 else "only root may start the server"


class Server:
    """A server of ssh, with its keys, its port and all its files in a folder."""

    def __init__(self, room, copy):
        self.folder = os.path.join(room, "server")
        self.daemons = Daemons(self.folder)
        os.mkdir(self.folder)
        for key in ("host_key", "key"):
            run(["ssh-keygen", "-q", "-t", "ed25519", "-N", "", "-f", key], self.folder)
        port, closed = spare_ports(2)
        path = os.pathsep.join([os.path.join(copy, "bin"), os.environ.get("PATH", os.defpath)])
        for name, text in (("sshd_config", SERVER), ("names", NAMES)):
            with open(os.path.join(self.folder, name), "w", encoding="utf-8") as file:
                file.write(text.format(port=port, closed=closed, folder=self.folder, path=path))
        self.made_empty = not os.path.isdir(EMPTY)

    def begin(self):
        """Starts the server, and answers whether both names are there."""
        os.makedirs(EMPTY, 0o755, exist_ok=True)
        self.daemons.start([shutil.which("sshd", path=PLACES), "-D", "-e", "-f", os.path.join(self.folder, "sshd_config")], None)
        calls = " && ".join(f"{self.client()} {name} true" for name in ("near", "far"))
        return bool(parts.await_that(lambda: run(calls, self.folder).status == 0 or None))

    def client(self):
        return f"ssh -F {shlex.quote(os.path.join(self.folder, 'names'))}"

    def end(self):
        for name in ("near", "far"):
            run(f"{self.client()} -O exit {name}", self.folder)
        self.daemons.end()
        if self.made_empty and os.path.isdir(EMPTY):
            os.rmdir(EMPTY)


def settings(server):
    """What a user would have in files of the home folder."""
    return f"export HOME={shlex.quote(server.folder)} PARALLEL_SSH={shlex.quote(server.client())}\nset -e\n"


def run_here(part, server, folder, script):
    """The script of the page for one machine."""
    ended = run(settings(server) + script, folder, parts.SECONDS)
    part.compare(script, ("status", 0, ended.status), ("standard error", "", ended.err))
    parts.compare_whole(part, "the merged report", folder, "whole.report")
    run("rm whole.report records.csv.*", folder)


def run_there(part, server, folder, script):
    """The script of the page for several, in which a part is killed while it runs."""
    there = os.path.join(server.folder, "there")
    long = os.path.join(there, f"records.csv.{parts.LONG[0]}")
    killer = threading.Thread(target=parts.stop_run, args=(part, f"part {parts.LONG[0]} is killed", long))
    killer.start()
    ended = run(settings(server) + script.replace(THERE, there), folder, parts.SECONDS)
    killer.join()
    # what a shell of the user says as it begins comes to standard error too
    part.compare(script, ("status", 0, ended.status))
    parts.compare_whole(part, "the merged report, by two names", folder, "whole.report")
    left = [os.path.join(place, name) for place, _, names in os.walk(there) for name in names if ".csv" in name]
    part.compare("what is left on a machine", ("files", [], left))


def run_all(part, copy, room):
    server = Server(room, copy)
    folder = parts.folder_with(room, "parallel", copy)
    here, there = parts.shown_calls(copy, "GNU parallel")
    try:
        is_there = server.begin()
        part.count(is_there, "a server of ssh", ["near and far do not answer"])
        if is_there:
            with open(os.path.join(folder, "hosts"), "w", encoding="ascii") as hosts:
                hosts.write("near\nfar\ngone\n")
            parts.write_texts(folder)
            parts.write_whole(part, folder)
            run_here(part, server, folder, here)
            run_there(part, server, folder, there)
    finally:
        server.end()
