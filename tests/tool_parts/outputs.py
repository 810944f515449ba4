"""Output that is full, closed, or read by nobody: told on standard error, and a status; what is closed is never a file's number."""
import os
import resource
import signal
import subprocess

from running import NATIVE, ROOT, command, filled, fresh, named, run, same, stored, told, with_height

NO_SPACE, NO_PIPE = "dted: standard output: No space left on device\n", "dted: standard output: Broken pipe\n"
CLOSED = "dted: standard output: Bad file descriptor\n"


def commands(cell):
    """One call of each command that prints."""
    return (("check", cell), ("check", cell, cell, cell), ("info", cell), ("post", cell, 1, 2), ("at", cell, "89.5", "0.5"),
            ("set", cell, 1, 2, 3), ("relief", cell, "-"), ("--help",), ("set", "-h"), ("--version",))


def full(cell):
    for words in (*commands(cell), ("set", "-", 1, 2, 3)):
        with open("/dev/full", "wb") as device, open(cell, "rb") as data:
            told(f"{words[0]} on a full device", words, errors=NO_SPACE, status=2, stdout=device, stdin=data)


def unread(cell):
    """A pipe that nobody reads: a signal, or where that is ignored a failure."""
    reader, writer = os.pipe()
    os.close(reader)
    for words in commands(cell):
        told(f"{words[0]}, its signal ignored", words, errors=NO_PIPE, status=2, stdout=writer, restore_signals=False)
        told(f"{words[0]}, a pipe that nobody reads", words, status=-signal.SIGPIPE, stdout=writer)
    os.close(writer)


def without(*descriptors):
    """A run with these closed."""
    def close():
        for descriptor in descriptors:
            os.close(descriptor)
    return {"preexec_fn": close}


def closed(folder):
    """Standard input, output and error closed at the start, alone and together."""
    cell = filled(folder / "cell.dt0", stored("north_89.dt0")[0])
    for words in commands(cell):
        told(f"{words[0]}, no standard output", words, errors=CLOSED, status=2, **without(1))
        told(f"{words[0]}, neither output nor input", words, errors=CLOSED, status=2, **without(0, 1))
        told(f"{words[0]}, nothing at all", words, status=2, **without(0, 1, 2))
    same("the cell", True, cell.read_bytes() == with_height(stored("north_89.dt0")[0], 1, 2, 3))
    told("no standard input", ("check", "-"), errors="dted: -: Bad file descriptor\n", status=2, **without(0))
    told("no standard input, and not needed", ("post", cell, 1, 2), "3\n", **without(0))
    told("no standard error", ("check", folder / "x", cell), f"{cell}: accepted, level 0, 21 columns of 121 posts\n", status=2,
         **without(2))


def not_in_files(folder):
    """What would be said on a closed standard error is in no file: neither in the cell, nor in the picture."""
    bad = filled(folder / "bad.dt0", stored("wrong_first_checksum.dt0")[0])
    for streams in ((2,), (1, 2), (0, 1, 2), (0, 2)):
        told("set of a refused cell", ("set", bad, 1, 2, 3), status=1, **without(*streams))
        same("the cell", True, bad.read_bytes() == stored("wrong_first_checksum.dt0")[0])
    good = ROOT / "cells/north_89.dt0"
    picture = run("relief", good, "-").stdout
    told("relief, no streams", ("relief", good, folder / "out.pgm"), **without(0, 1, 2))
    same("the picture", True, (folder / "out.pgm").read_bytes() == picture)
    same("names", ["bad.dt0", "out.pgm"], named(folder))


def memory(folder):
    """No room for the buffer is told; and a small file touches little of it."""
    cell = filled(folder / "cell.dt0", stored("north_89.dt0")[0])

    def little():
        resource.setrlimit(resource.RLIMIT_AS, (20 << 20, 20 << 20))

    told("no memory", ("check", cell), errors="dted: check: Cannot allocate memory\n", status=2, preexec_fn=little)
    process = subprocess.Popen(command("check", cell, "-"), stdin=subprocess.PIPE, stdout=subprocess.PIPE)
    process.stdout.readline()  # the small file is done, and it waits for the other
    with open(f"/proc/{process.pid}/status") as file:
        most = next(int(line.split()[1]) for line in file if line.startswith("VmHWM"))
    same("kilobytes touched, below 8,000", True, most < 8000)
    process.communicate()


def test(folder):
    cell = filled(folder / "cell.dt0", stored("north_89.dt0")[0])
    full(cell)
    unread(cell)
    if NATIVE:
        closed(fresh(folder, "closed"))
        not_in_files(fresh(folder, "not_in_files"))
        memory(fresh(folder, "memory"))
