"""Commands that are run in a copy of the repository."""

import os
import shutil
import signal
import subprocess
import sys
import threading

# How long a command may take that builds nothing, and how long one may that is told to end.
SECONDS = 120
ENDING = 10

running = set()
guard = threading.RLock()
stopping = threading.Event()


class Ended:
    """How a command ended; the status is None where it took too long, or did not begin."""

    def __init__(self, status, out, err):
        self.status = status
        self.out = out.decode("utf-8", "backslashreplace")
        self.err = err.decode("utf-8", "backslashreplace")


def end(process):
    """Ends a command with all that it started."""
    for number in (signal.SIGTERM, signal.SIGKILL):
        try:
            os.killpg(process.pid, number)
            process.wait(ENDING)
        except (ProcessLookupError, subprocess.TimeoutExpired):
            pass


class Daemons:
    """Programs that go on until they are ended, each in the foreground, with what they say in files of this folder."""

    def __init__(self, folder):
        self.folder = folder
        self.begun = []

    def start(self, words, environment):
        name = os.path.basename(words[0])
        with open(os.path.join(self.folder, f"{name}.said"), "wb") as said:
            self.begun.append(begin(words, self.folder, environment, said, said))

    def kill_last(self):
        """Kills the one that was begun last."""
        process = self.begun.pop()
        os.killpg(process.pid, signal.SIGKILL)
        process.wait(ENDING)
        with guard:
            running.discard(process)

    def end(self):
        while self.begun:
            process = self.begun.pop()
            end(process)
            with guard:
                running.discard(process)


def stop(number, _frame):
    """Ends all commands, and then this one, where a signal asks for it."""
    stopping.set()
    with guard:
        for process in list(running):
            end(process)
    sys.exit(128 + number)


def begin(words, folder, environment, error=subprocess.PIPE, output=subprocess.PIPE):
    """Begins a command in a session of its own, unless this one is to end."""
    pipes = {"stdin": subprocess.DEVNULL, "stdout": output, "stderr": error}
    with guard:
        if stopping.is_set():
            sys.exit(1)
        process = subprocess.Popen(words, cwd=folder, env=environment, start_new_session=True, **pipes)
        running.add(process)
        return process


def run(command, folder, seconds=SECONDS, path=None):
    """Runs a command, or a text for sh, and answers how it ended. Its standard input is empty where the text names none."""
    if not os.path.isdir(folder):
        return Ended(None, b"", f"there is no folder {folder}".encode())
    words = ["sh", "-c", command] if isinstance(command, str) else command
    process = begin(words, folder, {**os.environ, "PATH": path} if path else None)
    try:
        out, err = process.communicate(timeout=seconds)
        return Ended(process.returncode if process.returncode >= 0 else 128 - process.returncode, out, err)
    except subprocess.TimeoutExpired:
        end(process)
        return Ended(None, b"", f"it had not ended after {seconds} s".encode())
    finally:
        with guard:
            running.discard(process)


def run_on_terminal(command, folder):
    """Runs a text for sh that writes little to standard error, which is a terminal, and answers how it ended."""
    ours, theirs = os.openpty()
    process = begin(["sh", "-c", command], folder, None, theirs)
    os.close(theirs)
    try:
        out, _ = process.communicate(timeout=SECONDS)
        err = read_to_end(ours)
    except subprocess.TimeoutExpired:
        end(process)
        return Ended(None, b"", f"it had not ended after {SECONDS} s".encode())
    finally:
        os.close(ours)
        with guard:
            running.discard(process)
    return Ended(process.returncode, out, err.replace(b"\r\n", b"\n"))


def read_to_end(terminal):
    """What was written to a terminal of which nobody has the other end any more. It may come in pieces."""
    pieces = []
    try:
        while not pieces or pieces[-1]:
            pieces.append(os.read(terminal, 4096))
    except OSError:
        # that is how such a terminal ends
        pass
    return b"".join(pieces)


def path_without(program, folder):
    """A PATH on which all programs are but this one: a folder of links."""
    os.mkdir(folder)
    for place in os.environ.get("PATH", os.defpath).split(os.pathsep):
        names = os.listdir(place) if os.path.isdir(place) else []
        for name in names:
            if name != program and not os.path.lexists(os.path.join(folder, name)):
                os.symlink(os.path.join(os.path.abspath(place), name), os.path.join(folder, name))
    return folder


def tracked(top):
    """The files that git tracks, by their paths, or None where there is no git."""
    if not os.path.exists(os.path.join(top, ".git")) or not shutil.which("git"):
        return None
    pipes = {"stdin": subprocess.DEVNULL, "stdout": subprocess.PIPE, "stderr": subprocess.DEVNULL}
    listed = subprocess.run(["git", "ls-files", "-z"], cwd=top, **pipes)
    return [os.fsdecode(name) for name in listed.stdout.split(b"\0") if name] if listed.returncode == 0 else None


def copy_tree(top, to):
    """A copy of what git tracks, as it stands; or of all but what is built, where there is no git."""
    names = tracked(top)
    if names is None:
        shutil.copytree(top, to, symlinks=True, ignore=shutil.ignore_patterns("out", ".git", "__pycache__"))
        return
    for name in names:
        source, target = os.path.join(top, name), os.path.join(to, name)
        if os.path.lexists(source):
            os.makedirs(os.path.dirname(target), exist_ok=True)
            shutil.copy2(source, target, follow_symlinks=False)
