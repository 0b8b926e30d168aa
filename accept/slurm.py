"""The scripts of examples/slurm, run by a cluster of this machine alone, whose daemons are started here and have all their files in one
folder. While they run, one part is killed, one is queued again by the scheduler, and one goes with its node: the merged report is that of
one run."""

import os
import re
import shlex
import shutil
import signal
import socket

from accept import parts
from accept.shell import Daemons, run

# How long it is until the cluster is asked again.
PAUSE = 0.2

# The programs of Slurm and of munge, which some systems keep for root.
NEEDED = ("munged", "slurmctld", "slurmd", "sbatch", "scontrol", "sinfo")
PLACES = os.pathsep.join([os.environ.get("PATH", os.defpath), "/usr/sbin", "/sbin"])

CONFIGURATION = """\
ClusterName=accept
SlurmctldHost={host}(127.0.0.1)
SlurmctldPort={ports[0]}
SlurmdPort={ports[1]}
AuthType=auth/munge
AuthInfo=socket={folder}/munge.socket,cred_expire=5
SlurmUser=root
StateSaveLocation={folder}/state
SlurmdSpoolDir={folder}/spool
SlurmctldPidFile={folder}/slurmctld.pid
SlurmdPidFile={folder}/slurmd.pid
SlurmctldLogFile={folder}/slurmctld.log
SlurmdLogFile={folder}/slurmd.log
ProctrackType=proctrack/linuxproc
TaskPlugin=task/none
JobAcctGatherType=jobacct_gather/none
AccountingStorageType=accounting_storage/none
SelectType=select/cons_tres
SelectTypeParameters=CR_CPU
SwitchType=switch/none
MpiDefault=none
MailProg=/bin/true
SlurmdTimeout=15
ReturnToService=2
SchedulerParameters=sched_interval=1,bf_interval=1
NodeName=node NodeHostname={host} NodeAddr=127.0.0.1 CPUs=4 State=UNKNOWN
PartitionName=all Nodes=node Default=YES MaxTime=INFINITE State=UP
"""

MUNGED = "--foreground --force --key-file=munge.key --socket=munge.socket --pid-file=munge.pid --log-file=munge.log --seed-file=munge.seed"


def what_lacks():
    """What this machine lacks for a cluster, or None."""
    for program in NEEDED:
        if shutil.which(program, path=PLACES) is None:
            return f"there is no {program}"
    return None if os.geteuid() == 0 else "only root may start a cluster"


def spare_ports(count):
    """Ports that nobody listens at."""
    sockets = [socket.create_server(("127.0.0.1", 0)) for _ in range(count)]
    ports = [each.getsockname()[1] for each in sockets]
    for each in sockets:
        each.close()
    return ports


class Cluster:
    """A cluster of one node, with its files in a folder."""

    def __init__(self, folder):
        self.folder = folder
        self.daemons = Daemons(folder)
        os.makedirs(folder)
        for name in ("state", "spool"):
            os.mkdir(os.path.join(folder, name))
        with open(os.open(os.path.join(folder, "munge.key"), os.O_WRONLY | os.O_CREAT, 0o600), "wb") as key:
            key.write(os.urandom(128))
        with open(self.configuration(), "w", encoding="utf-8") as file:
            file.write(CONFIGURATION.format(host=socket.gethostname().split(".")[0], folder=folder, ports=spare_ports(2)))

    def configuration(self):
        return os.path.join(self.folder, "slurm.conf")

    def start(self, words):
        self.daemons.start(words.split(), {**os.environ, "PATH": PLACES, "SLURM_CONF": self.configuration()})

    def begin(self):
        """Starts the daemons, and answers whether the node is idle."""
        self.start(f"munged {MUNGED}")
        is_there = parts.await_that(lambda: os.path.exists(os.path.join(self.folder, "munge.socket")) or None)
        self.start("slurmctld -D -i -c")
        self.start("slurmd -D -N node")
        return bool(is_there and parts.await_that(lambda: self.call("sinfo --noheader --format=%T").out == "idle\n" or None, PAUSE))

    def lose_node(self, job):
        """Has the daemon of the node end at once, and starts it again when the scheduler has seen that by this job. Answers whether it has
        seen it."""
        self.daemons.kill_last()
        has_seen = parts.await_that(lambda: self.field(job, "JobState") != "RUNNING" or None, PAUSE)
        self.start("slurmd -D -N node")
        return has_seen is not None

    def call(self, command, folder=None):
        """Runs a text for sh of which the commands are those of this cluster."""
        return run(f"export SLURM_CONF={shlex.quote(self.configuration())}; {command}", folder or self.folder, path=PLACES)

    def field(self, job, name):
        """A field of what the cluster tells of a job."""
        told = re.search(rf"\b{name}=(\S+)", self.call(f"scontrol show job {job}").out)
        return told.group(1) if told else None

    def await_end(self, job):
        """The state in which a job ended."""
        going = ("PENDING", "RUNNING", "COMPLETING", "REQUEUED", "CONFIGURING")

        def look():
            state = self.field(job, "JobState")
            return None if state in going else state or "none"

        return parts.await_that(look, PAUSE)

    def end(self):
        self.call("scancel --user=root")
        self.daemons.end()


def tell(part, cluster):
    """Shows the last lines of the cluster's logs, where a test failed."""
    if part.failed:
        for name in ("slurmctld.log", "slurmd.log"):
            print(cluster.call(f"tail -n 5 {name}").out, end="", flush=True)


def submit(part, cluster, folder, command):
    """Submits what a call says, and answers the numbers of the array and of the job that merges."""
    ended = cluster.call(command, folder)
    part.compare(command, ("status", 0, ended.status), ("a number", True, re.fullmatch(r"\d+\n", ended.out) is not None))
    if not ended.out.strip().isdigit():
        return None, None
    merge = int(ended.out)
    depends = re.search(r"\d+", cluster.field(merge, "Dependency") or "")
    return depends.group(0) if depends else None, merge


def stop_parts(part, cluster, folder, array):
    """A part whose process is killed, one that the scheduler queues again while it runs, and one whose node is no more and comes back."""
    killed, queued, lost = parts.LONG
    path = os.path.join(folder, "run", "records.")
    parts.stop_run(part, f"part {killed} is killed", f"{path}{killed}")
    # it can't go on until the scheduler ends it
    parts.stop_run(part, f"part {queued} is held", f"{path}{queued}", signal.SIGSTOP)
    ended = cluster.call(f"scontrol requeue {array}_{queued}")
    part.compare(f"part {queued} is queued again while it runs", ("status", 0, ended.status), ("standard error", "", ended.err))
    has_ended = parts.await_that(lambda: not parts.runs_of(os.path.realpath(f"{path}{queued}")) or None)
    part.count(has_ended, f"part {queued} is ended", ["its run goes on"])
    # with the script of the part, and the daemon that watches over it
    parts.stop_run(part, f"part {lost} goes with its node", f"{path}{lost}", above=2)
    part.count(cluster.lose_node(f"{array}_{lost}"), f"part {lost} is queued again", ["it was said to run on"])


def check_tries(part, cluster, folder, array):
    """Each part has one report, and those that were stopped left a try without one and ran again. While a node is down and nobody knows it,
    a part may be given to it once more."""
    names = sorted(os.listdir(os.path.join(folder, "run")))
    reports = [f"records.{number}.report" for number in range(1, parts.PARTS + 1)]
    part.compare("reports of parts", ("files", reports, [name for name in names if re.fullmatch(r"records\.\d\.report", name)]))
    for number in parts.LONG:
        restarts = cluster.field(f"{array}_{number}", "Restarts")
        test = ("a try without a report", True, f"records.{number}.try.0" in names), ("ran again", True, restarts not in (None, "0"))
        part.compare(f"part {number}", *test)


def run_shown(part, cluster, folder, command):
    """The call of the page, with parts that are stopped."""
    array, merge = submit(part, cluster, folder, command)
    if array is None:
        return
    stop_parts(part, cluster, folder, array)
    part.compare("the job that merges", ("state", "COMPLETED", cluster.await_end(merge)))
    check_tries(part, cluster, folder, array)
    parts.compare_whole(part, "the merged report", folder, "run/whole.report")
    again = cluster.call(command, folder)
    part.compare(f"{command}, again", ("status", 1, again.status), ("output", "", again.out))


def run_faulting(part, cluster, folder):
    """A part that does not go through is told, and nothing is merged."""
    run("{ seq 20 | sed s/^/names,/; echo long,x; } > faulting.csv", folder)
    _, merge = submit(part, cluster, folder, "sh examples/slurm/submit.sh network.toml faulting.csv 2 faulting")
    part.compare("its job that merges", ("state", "FAILED", cluster.await_end(merge)))
    said = run("cat faulting/merge.log; test -e faulting/whole.report", folder)
    wanted = "flow: part 2 has status 1, and only parts with status 0 are merged\n"
    part.compare("faulting/merge.log", ("lines", wanted, said.out), ("a report is there", 1, said.status))


def run_cancelled(part, cluster, folder):
    """A part that the user cancels is not queued again."""
    run(f"yes long,1 | head -n {parts.LONG_RECORDS} > cancelled.csv", folder)
    array, merge = submit(part, cluster, folder, "sh examples/slurm/submit.sh network.toml cancelled.csv 1 cancelled")
    parts.stop_run(part, "a part that is to be cancelled is held", os.path.join(folder, "cancelled", "records.1"), signal.SIGSTOP)
    cluster.call(f"scancel {array}")
    part.compare("the job behind it", ("state", "FAILED", cluster.await_end(merge)))
    state, restarts = cluster.field(f"{array}_1", "JobState"), cluster.field(f"{array}_1", "Restarts")
    part.compare("a part that is cancelled", ("state", "CANCELLED", state), ("restarts", "0", restarts))
    said = run("cat cancelled/merge.log", folder)
    part.compare("cancelled/merge.log", ("lines", "flow: cancelled/records.1.report: No such file or directory (os error 2)\n", said.out))


def run_all(part, copy, room):
    cluster = Cluster(os.path.join(room, "cluster"))
    folder = parts.folder_with(room, "slurm", copy)
    try:
        is_idle = cluster.begin()
        part.count(is_idle, "a cluster of one node", ["its node is not idle"])
        if is_idle:
            parts.write_texts(folder)
            parts.write_whole(part, folder)
            run_shown(part, cluster, folder, parts.shown_calls(copy, "A batch scheduler")[0].rstrip("\n"))
            run_faulting(part, cluster, folder)
            run_cancelled(part, cluster, folder)
        tell(part, cluster)
    finally:
        cluster.end()
