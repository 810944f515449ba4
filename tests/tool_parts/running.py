"""What the parts of tests/tool share: the tool run on words, tests counted, and cells."""
import pathlib
import platform
import resource
import subprocess
import sys

ROOT = pathlib.Path(__file__).resolve().parent.parent.parent
sys.path.insert(0, str(ROOT / "tools"))
import second_writer

NATIVE = platform.machine() == "x86_64"  # else an emulator stands between: it has files, memory and calls of its own
UNDER = () if NATIVE else (str(ROOT / "tools/x86-64"),)
OWNER, GROUP = 12345, 54321  # of files that root gives away: nobody's
program = None  # tests/tool names it
results = []


def same(what, expected, got):
    """Counts one test."""
    results.append(expected == got)
    if not results[-1]:
        print(f"{what}: expected {expected}, got {got}")


def command(*words, under=UNDER, tool=None):
    """The tool, or another build of it, on words, under another program."""
    return [*under, tool or program, *(w if isinstance(w, bytes) else str(w) for w in words)]


def run(*words, under=UNDER, tool=None, **how):
    """A run of the tool; its input is empty where none is given."""
    streams = {"stdout": subprocess.PIPE, "stderr": subprocess.PIPE, "timeout": 60}
    if "input" not in how:
        streams["stdin"] = subprocess.DEVNULL
    return subprocess.run(command(*words, under=under, tool=tool), **{**streams, **how})


def powerless(group):
    """For a run by root without its rights, and in this group: as any user who owns no such file."""
    return "setpriv", f"--groups={group}", "--bounding-set=-all"


def few_descriptors():
    """For a run that may have no more than twenty open: one that closes none does not come far."""
    resource.setrlimit(resource.RLIMIT_NOFILE, (20, 20))


def told(what, words, out="", errors="", status=0, **how):
    """What a run prints on standard output and standard error, and its status."""
    done = run(*words, **how)
    same(what, (encoded(out), encoded(errors), status), (done.stdout or b"", done.stderr or b"", done.returncode))


def encoded(text):
    return text if isinstance(text, bytes) else text.encode()


def stored(name):
    """A shipped cell, and the line that the intake program prints of it."""
    path = ROOT / "cells" / name
    return path.read_bytes(), path.with_suffix(".line").read_text()


def filled(path, data):
    path.write_bytes(data)
    return path


def named(folder):
    """The names in a folder."""
    return sorted(p.name for p in folder.iterdir())


def fresh(folder, name):
    """A new folder in this one."""
    made = folder / name
    made.mkdir()
    return made


def with_height(cell, column, post, height, posts=121):
    """A cell with one height replaced, as the second writer has it; None is void."""
    word = 0xFFFF if height is None else height if height >= 0 else 0x8000 - height
    return second_writer.with_word(cell, 12 + 2 * posts, column, post, word)


def height(cell, column, post, posts=121):
    """The height of a post as tests read it; None is void."""
    at = 3428 + column * (12 + 2 * posts) + 8 + 2 * post
    word = int.from_bytes(cell[at:at + 2], "big")
    return None if word == 0xFFFF else word if word < 0x8000 else 0x8000 - word
