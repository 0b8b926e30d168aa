"""Bevelrose from Python: networks of blocks, run over records. It loads libbevelrose.so from the folder that BEVELROSE names, or else from
that of `bin/library` in a checkout, from lib/ of an unpacked package, or from where the system's loader finds it.

    with bevelrose.Network(text) as network:
        status, report = network.run(records)

Run as a program it runs examples/batches.toml, and compares the report with the one that is stored.
"""

import ctypes
import os
import sys

NO_LIMIT = 2**64 - 1

# The number of the calls that are made here.
VERSION = 1

# What tells of a refusal has at most so many bytes.
LINE = 128

HERE = os.path.dirname(os.path.realpath(__file__))
NAME = "libbevelrose.so"
BESIDE = [os.path.join(HERE, "..", "..", *folders, NAME) for folders in (("out", "library"), ("lib",))]


def path_of_library():
    """The path of the library, or its name alone, by which the system's loader looks for it."""
    named = os.environ.get("BEVELROSE")
    return os.path.join(named, NAME) if named else next(filter(os.path.exists, BESIDE), NAME)


library = ctypes.CDLL(path_of_library())

ANSWER = [ctypes.c_char_p, ctypes.c_size_t, ctypes.POINTER(ctypes.c_size_t)]
TEXT = [ctypes.c_char_p, ctypes.c_size_t]
HANDLE = [ctypes.POINTER(ctypes.c_void_p)]
for name, given, result in [
    ("check", TEXT + ANSWER, ctypes.c_uint8),
    ("open", HANDLE + TEXT + ANSWER, ctypes.c_uint8),
    ("run", HANDLE + TEXT + [ctypes.c_uint64] + ANSWER, ctypes.c_uint8),
    ("close", HANDLE, None),
]:
    function = getattr(library, f"bevelrose_{name}")
    function.argtypes, function.restype = given, result
if library.bevelrose_version() != VERSION:
    raise ImportError(f"{NAME} has other calls than are made here")


class Refusal(Exception):
    """Why a text was refused, or was not run: the line that tells of it, and the status, 2 to 5."""

    def __init__(self, status, line):
        super().__init__(line)
        self.status = status


def answer(function, *given, room=LINE):
    """Calls with this much room, and where the answer is longer once more with as much as it takes."""
    length = ctypes.c_size_t(room)
    text, is_whole = None, False
    while not is_whole:
        text = ctypes.create_string_buffer(length.value)
        status = function(*given, text, len(text), ctypes.byref(length))
        is_whole = length.value <= len(text)
    return status, text.raw[: length.value].decode()


def check(text):
    """Raises a refusal where this text, some bytes, is no network."""
    status, line = answer(library.bevelrose_check, text, len(text))
    if status:
        raise Refusal(status, line)


class Network:
    """A network that is ready to run. It is used on the thread that made it, and closed there."""

    def __init__(self, text):
        self.handle = ctypes.c_void_p()
        status, line = answer(library.bevelrose_open, ctypes.byref(self.handle), text, len(text))
        if status:
            raise Refusal(status, line)

    def run(self, records, limit=NO_LIMIT):
        """Runs the network over these records, some bytes. Answers the status, 0, 1 or 3, and the report."""
        status, text = answer(library.bevelrose_run, ctypes.byref(self.handle), records, len(records), limit, room=4096)
        if status not in (0, 1, 3) or text == "ids":
            raise Refusal(status, text)
        return status, text

    def close(self):
        library.bevelrose_close(ctypes.byref(self.handle))

    def __enter__(self):
        return self

    def __exit__(self, *_error):
        self.close()


def read(folder, name):
    with open(os.path.join(folder, name), "rb") as file:
        return file.read()


def main(folder):
    try:
        check(b"format = 2")
    except Refusal as refusal:
        print(f"format 2 is refused: {refusal}")
    with Network(read(folder, "batches.toml")) as network:
        status, report = network.run(read(folder, "batches.csv"))
    if status or report.encode() != read(folder, "batches.report"):
        sys.exit("the report is not the one that is stored")
    print(f"a report of {len(report)} bytes, as it is stored")


if __name__ == "__main__":
    main(sys.argv[1] if len(sys.argv) > 1 else os.path.join(HERE, ".."))
