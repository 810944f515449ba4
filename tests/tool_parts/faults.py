"""The tool's own calls, seen and changed by strace: one write to a line, short and broken calls, and a file replaced in its order."""
import os
import re
import signal
import subprocess
import time

from running import (GROUP, OWNER, ROOT, command, filled, fresh, height, named, powerless, same, second_writer, stored, told,
                     with_height)

LINE = "accepted, level 0, 21 columns of 121 posts\n"


def strace(folder, *more):
    return ["strace", "-qq", "-f", "-o", str(folder / "calls"), *more]


def calls(folder, names):
    """The calls of these names in a trace, in their order."""
    return re.findall(rf"^\d+ +((?:{names})\(.*)$", (folder / "calls").read_text(), re.M)


def lines(folder):
    """A line by one write; a write or a read that is short or broken off goes on."""
    cell, log = filled(folder / "cell.dt0", stored("north_89.dt0")[0]), fresh(folder, "log")
    told("check under strace", ("check", cell, cell), f"{cell}: {LINE}" * 2, under=strace(log, "-e", "trace=write"))
    same("one write to a line", 2, len(calls(log, "write")))
    told("a write that is broken off", ("check", cell), f"{cell}: {LINE}", under=strace(log, "-e", "inject=write:error=EINTR:when=1"))
    told("a read that is broken off", ("check", cell), f"{cell}: {LINE}",
         under=strace(log, "-P", str(cell), "-e", "inject=read:error=EINTR:when=1"))
    told("a short write", ("check", cell), f"{cell}: {LINE}"[5:], under=strace(log, "-e", "inject=write:retval=5:when=1"))
    told("a read that fails in the middle", ("check", cell), errors=f"dted: {cell}: Input/output error\n", status=2,
         under=strace(log, "-P", str(cell), "-e", "inject=read:error=EIO:when=2"))


def picture(folder):
    """A picture whose last bytes are refused when it is closed."""
    cell, out, log = ROOT / "cells/north_89.dt0", folder / "out.pgm", fresh(folder, "log")
    told("relief where closing fails", ("relief", cell, out), errors=f"dted: {out}: Input/output error\n", status=2,
         under=strace(log, "-P", str(out), "-e", "inject=close:error=EIO"))


def in_order(folder):
    """The new file is written and synced, then renamed, then the folder is synced: the disk never has a name without its bytes."""
    cell, log = filled(folder / "cell.dt0", second_writer.repeated(1, 89, 7)), fresh(folder, "log")
    told("set under strace", ("set", cell, 1, 2, 3), f"{cell}: column 1, post 2: -326, now 3\n",
         under=strace(log, "-y", "-e", "trace=openat,flock,fchown,fchmod,write,fsync,rename,unlink"))
    opened = [call for call in calls(log, "openat") if f'"{cell}"' in call]
    same("opened for writing, so that a cell which may not be written is told", ["O_RDWR"], re.findall("O_RD[A-Z]*", "".join(opened)))
    made = calls(log, "flock|fchown|fchmod|write|fsync|rename|unlink")
    same("its calls", ["flock", "fchown", "fchmod", "write", "fsync", "rename", "fsync", "write"], [c.partition("(")[0] for c in made])
    same("what is synced", [True, True], [".cell.dt0.dted-" in made[4], f"<{folder}>" in made[6]] if len(made) == 8 else made)


def failures(folder):
    """Each call that can fail, failing: told, and the old cell is alone and as it was."""
    data, log = stored("north_89.dt0")[0], fresh(folder, "log")
    cell = filled(folder / "cell.dt0", data)
    for inject, why in (("flock:error=ENOLCK", "No locks available"), ("fchmod:error=EROFS", "Read-only file system"),
                        ("fchown:error=EIO:when=1", "Input/output error"), ("fsync:error=EIO:when=1", "Input/output error"),
                        ("write:error=ENOSPC:when=1", "No space left on device"), ("rename:error=EACCES", "Permission denied")):
        told(f"set where {inject}", ("set", cell, 1, 2, 3), errors=f"dted: {cell}: {why}\n", status=2,
             under=strace(log, "-e", f"inject={inject}"))
        same("the old cell alone", (True, ["cell.dt0", "log"]), (cell.read_bytes() == data, named(folder)))
    told("set where the folder cannot be synced", ("set", cell, 1, 2, 3), errors=f"dted: {cell}: Input/output error\n", status=2,
         under=strace(log, "-e", "inject=fsync:error=EIO:when=2"))
    same("the new cell", True, cell.read_bytes() == with_height(data, 1, 2, 3))
    for inject, before in (("fchown:error=EPERM", 3), ("fsync:error=EINVAL:when=2", 4)):
        told(f"set where {inject}", ("set", cell, 1, 2, before + 1), f"{cell}: column 1, post 2: {before}, now {before + 1}\n",
             under=strace(log, "-e", f"inject={inject}"))
    same("names", ["cell.dt0", "log"], named(folder))


def not_given_away(folder):
    """Where the owner is not allowed the group alone is asked for, and where that fails for another reason it is told."""
    data, log = stored("north_89.dt0")[0], fresh(folder, "log")
    cell = filled(folder / "cell.dt0", data)
    told("set where the owner is not allowed", ("set", cell, 1, 2, 3), f"{cell}: column 1, post 2: {height(data, 1, 2)}, now 3\n",
         under=strace(log, "-e", "trace=fchown", "-e", "inject=fchown:error=EPERM:when=1"))
    allowed = re.findall(r"fchown\(\d+, (.*)\) += 0", "\n".join(calls(log, "fchown")))
    same("what is asked for then", [f"-1, {os.stat(cell).st_gid}"], allowed)
    if os.geteuid() == 0:
        os.chown(cell, OWNER, GROUP)
        os.chmod(cell, 0o666)
        told("set where the group fails", ("set", cell, 1, 2, 4), errors=f"dted: {cell}: Input/output error\n", status=2,
             under=(*powerless(GROUP), *strace(log, "-e", "inject=fchown:error=EIO:when=2")))
        same("the old cell alone", (True, ["cell.dt0", "log"]), (cell.read_bytes() == with_height(data, 1, 2, 3), named(folder)))


def killed(folder):
    """Killed before any call: the old cell is whole, or after the rename the new one; what is left over looks like no cell."""
    old, log = stored("north_89.dt0")[0], fresh(folder, "log")
    new, cell = with_height(old, 1, 2, 3), folder / "cell.dt0"
    for call, due in (("fchmod", old), ("write:when=1", old), ("fsync:when=1", old), ("rename", old), ("fsync:when=2", new)):
        filled(cell, old)
        name, _, when = call.partition(":")
        told(f"killed before {call}", ("set", cell, 1, 2, 3), status=-signal.SIGKILL,
             under=strace(log, "-e", f"inject={name}:signal=KILL{':' + when if when else ''}"))
        same("the cell", True, cell.read_bytes() == due)
        left = [path for path in folder.iterdir() if path not in (cell, log)]
        same("left over", [True] if due == old else [], [path.name.startswith(".cell.dt0.dted-") for path in left])
        for path in left:
            path.unlink()


def replaced(folder):
    """Who waits for the lock of a cell that is replaced meanwhile corrects the new one."""
    data, log = stored("north_89.dt0")[0], fresh(folder, "log")
    cell = filled(folder / "cell.dt0", data)
    other = filled(folder / "other", with_height(data, 5, 5, 55))
    slow = subprocess.Popen(command("set", cell, 1, 2, 3, under=strace(log, "-e", "inject=flock:delay_enter=1000000:when=1")),
                            stdout=subprocess.PIPE)
    time.sleep(0.3)
    other.rename(cell)
    same("its line", f"{cell}: column 1, post 2: {height(data, 1, 2)}, now 3\n".encode(), slow.communicate()[0])
    same("both are kept", True, cell.read_bytes() == with_height(with_height(data, 5, 5, 55), 1, 2, 3))


def test(folder):
    for part in (lines, picture, in_order, failures, not_given_away, killed, replaced):
        part(fresh(folder, f"faults_{part.__name__}"))
