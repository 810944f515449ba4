"""dted check over many files: by one program, by eight on one pipe, by xargs, and with its progress on a terminal."""
import collections
import os
import pty
import re
import subprocess
import threading
import time

from running import ROOT, command, few_descriptors, filled, fresh, run, same, stored, told

GOOD, BAD = "accepted, level 0, 21 columns of 121 posts", "refused 3: a column is not there whole (offset 8508), column 20"


def spread(folder):
    """400 files, of which every seventh is refused; the line of each."""
    good, bad = stored("north_89.dt0")[0], stored("one_short.dt0")[0]
    lines = {}
    for n in range(400):
        path = filled(folder / f"cell {n}.dt0", good if n % 7 else bad)
        lines[path] = f"{path}: {GOOD if n % 7 else BAD}\n"
    return lines


def one_by_one(lines):
    told("400 files, twenty descriptors", ("check", *lines), "".join(lines.values()), status=1, preexec_fn=few_descriptors)


def at_once(lines):
    """Eight programs with fifty files each, on one pipe: every line is whole, and every status right."""
    files = list(lines)
    parts = [files[50 * n:50 * n + 50] for n in range(8)]
    parts[3] = [f for f in parts[3] if GOOD in lines[f]]
    reader, writer = os.pipe()
    runs = [subprocess.Popen(command("check", *part), stdout=writer) for part in parts]
    os.close(writer)
    with open(reader) as pipe:
        got = pipe.read().splitlines(keepends=True)
    same("lines on one pipe", collections.Counter(lines[f] for part in parts for f in part), collections.Counter(got))
    same("statuses", [1, 1, 1, 0, 1, 1, 1, 1], [run.wait() for run in runs])


def by_xargs(lines):
    names = b"".join(bytes(f) + b"\0" for f in lines)
    done = subprocess.run(["xargs", "-0", "-r", "-P", "8", "-n", "50", *command("check", "--")], input=names, stdout=subprocess.PIPE)
    same("lines by xargs", sorted(lines.values()), sorted(done.stdout.decode().splitlines(keepends=True)))
    same("its status", 123, done.returncode)


def on_terminal(words, lines_too):
    """What a run writes to a terminal on standard error, and where told on standard output too, and the seconds that it took."""
    ours, theirs = pty.openpty()
    began = time.monotonic()
    process = subprocess.Popen(command(*words), stdin=subprocess.DEVNULL, stdout=theirs if lines_too else subprocess.PIPE, stderr=theirs)
    os.close(theirs)
    printed = b""
    try:
        while piece := os.read(ours, 65536):
            printed += piece
    except OSError:  # the other side is closed
        pass
    os.close(ours)
    process.wait()
    return printed.decode(), time.monotonic() - began


def screen(text):
    """What is to be seen on a terminal in the end, row by row."""
    rows, at = [[]], 0
    for char in text:
        if char == "\n":
            rows.append([])
        elif char == "\r":
            at = 0
        else:
            rows[-1][at:at + 1] = char
            at += 1
    return ["".join(row).rstrip() for row in rows]


def slowly(pipes, seconds):
    """Makes named pipes, and opens each so many seconds after the one before, with nothing in it."""
    for pipe in pipes:
        os.mkfifo(pipe)

    def feed():
        for pipe in pipes:
            time.sleep(seconds)
            open(pipe, "wb").close()
    threading.Thread(target=feed, daemon=True).start()


def progress(folder, lines):
    bad, good, missing = ROOT / "cells/one_short.dt0", ROOT / "cells/north_89.dt0", folder / "missing"
    pipe, empty = folder / "pipe", "refused 1: fewer bytes than the headers have (length 0)"
    rows = [f"{bad}: {BAD}", f"dted: {missing}: No such file or directory", f"{pipe}: {empty}", f"{good}: {GOOD}", ""]
    for lines_too in (True, False):
        slowly([pipe], 0.3)
        text, _ = on_terminal(("check", bad, missing, pipe, good), lines_too)
        pipe.unlink()
        seen = re.findall(r"\r( \d[^\r]*refused)\r(?:\r( *)\r)?", text)
        same("how far it has come", [" 0 of 4, 0 refused", " 3 of 4, 2 refused"], [shown for shown, _ in seen[:1] + seen[-1:]])
        before_lines = seen if lines_too else seen[-1:]
        same("it is wiped", [" " * len(shown) for shown, _ in before_lines], [blanks for _, blanks in before_lines])
        same("what is seen in the end", rows if lines_too else [rows[1], ""], screen(text))
    text, _ = on_terminal(("check", *lines), True)
    same("what is seen of 400 files", [line.rstrip() for line in lines.values()] + [""], screen(text))
    same("no progress of one file", f"{good}: {GOOD}\r\n", on_terminal(("check", good), True)[0])
    same("progress of two", ["\r 0 of 2, 0 refused\r"], re.findall("\r .*refused\r", on_terminal(("check", good, good), False)[0]))
    same("no progress of another command", True, "\r " not in on_terminal(("info", good), True)[0])
    same("no progress but on a terminal", b"", run("check", good, good).stderr)


def for_a_while(folder):
    """Files that come in for more than a second, their lines elsewhere: the count is shown ten times a second, and wiped for a reason
    alone."""
    pipes, missing = [folder / f"pipe {n}" for n in range(40)], folder / "missing"
    slowly(pipes, 0.03)
    text, seconds = on_terminal(("check", *pipes, missing), False)
    shown = text.count(" of 41, ")
    same(f"shown ten times a second ({shown} in {seconds} s)", True, 8 <= shown <= 10 * seconds + 1)
    same("what follows where it is wiped", [f"dted: {missing}: No such file or directory\r\n"], re.split("\r +\r", text)[1:])


def test(folder):
    lines = spread(fresh(folder, "many"))
    one_by_one(lines)
    at_once(lines)
    by_xargs(lines)
    progress(fresh(folder, "progress"), lines)
    for_a_while(fresh(folder, "for_a_while"))
