"""dted set of one file by several at once: each waits for the lock of the file that is there, and all corrections are kept."""
import fcntl
import os
import subprocess
import time

from running import command, few_descriptors, filled, fresh, height, named, same, second_writer, stored, with_height


def at_once(folder):
    """Eight corrections of one file at once, by its name and by a link, six times: every one is kept."""
    data = second_writer.repeated(1, 60, 7)
    cell = filled(folder / "cell.dt1", data)
    (folder / "link").symlink_to("cell.dt1")
    lines, wanted = [], []
    for turn in range(6):
        runs = [subprocess.Popen(command("set", (cell, folder / "link")[n % 2], 8 * turn + n, n, 1000 + n), stdout=subprocess.PIPE)
                for n in range(8)]
        lines += [(run.communicate()[0].decode().split("now ")[-1], run.returncode) for run in runs]
        for n in range(8):
            data = with_height(data, 8 * turn + n, n, 1000 + n, 1201)
            wanted.append((f"{1000 + n}\n", 0))
    same("eight corrections at once", wanted, lines)
    same("all are kept", [], [n for n in range(48) if height(cell.read_bytes(), n, n % 8, 1201) != 1000 + n % 8])
    same("and nothing else is changed", (True, ["cell.dt1", "link"]), (cell.read_bytes() == data, named(folder)))


def locked(path, data):
    """A new file, locked until it is closed."""
    file = open(filled(path, data))
    fcntl.flock(file, fcntl.LOCK_EX)
    return file


def has_open(process, file):
    """Whether a process has this file open."""
    for descriptor in os.scandir(f"/proc/{process.pid}/fd"):
        try:
            if os.path.samestat(os.fstat(file.fileno()), descriptor.stat()):
                return True
        except FileNotFoundError:  # closed meanwhile
            pass
    return False


def await_open(process, file):
    """Waits until a process has this file open, or has ended."""
    until = time.monotonic() + 10
    while process.poll() is None and not has_open(process, file) and time.monotonic() < until:
        time.sleep(0.001)


def many_waits(folder):
    """The cell is replaced by a locked one thirty times, each time that the lock is waited for: no descriptor is left from before."""
    data, cell, new = stored("north_89.dt0")[0], folder / "cell.dt0", folder / "new"
    held = locked(cell, data)
    waiting = subprocess.Popen(command("set", cell, 1, 2, 3), stdout=subprocess.PIPE, stderr=subprocess.PIPE, preexec_fn=few_descriptors)
    for turn in range(30):
        await_open(waiting, held)
        with held:  # until the new one is in its place
            held = locked(new, with_height(data, 5, 5, turn))
            new.rename(cell)
    await_open(waiting, held)
    held.close()
    out, errors = waiting.communicate(timeout=60)
    line = f"{cell}: column 1, post 2: {height(data, 1, 2)}, now 3\n".encode()
    same("set after thirty waits", (line, b"", 0), (out, errors, waiting.returncode))
    same("the last of them is corrected", True, cell.read_bytes() == with_height(with_height(data, 5, 5, 29), 1, 2, 3))


def test(folder):
    for part in (at_once, many_waits):
        part(fresh(folder, part.__name__))
