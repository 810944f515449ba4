"""The tool built once more, with its addresses, its arithmetic and its use of answers checked as it runs: it does the same."""
import os
import subprocess

from running import ROOT, filled, fresh, named, run, same, second_writer, stored

FLAGS = ("-std=c99", "-O1", "-fsanitize=address,undefined", "-fno-sanitize-recover=all", "-DDTED_CHECK", f"-I{ROOT}/include")
LONG = "../long.dt2"  # goes on behind the longest cell, so that it fills the buffer
RUNS = (("check", *sorted((ROOT / "cells").glob("*.dt?")), LONG, "/dev/zero", "not there", "n" * 5000),
        ("check", "--year", 1, *sorted((ROOT / "cells").glob("*.dt?"))),
        ("check", ROOT / "cells/north_89.dt0", "--year", 1, "--", ROOT / "cells/void_in_partial.dt0"),
        ("check", "--year"),
        ("info", ROOT / "cells/void_in_partial.dt0"),
        ("info", "--year", 1, ROOT / "cells/void_in_partial.dt0"),
        ("info", LONG),
        ("post", "cell.dt0", 120, 120),
        ("post", "cell.dt0", 121, 0),
        ("at", "cell.dt0", f"46:59:59.{'9' * 5000}", "7.5E"),
        ("at", "cell.dt0", "9" * 5000, "7.5E"),
        ("set", "cell.dt0", 120, 120, -12000),
        ("set", "cell.dt0", 120, 120, "void"),
        ("set", LONG, 0, 0, 0),
        ("relief", "cell.dt0", "out.pgm", "1e308"),
        ("relief", "--year", 1, ROOT / "cells/void_in_partial.dt0", "-"),
        ("relief", "--", "cell.dt0"),
        ("post", "-h"))


def build(program):
    """With the archive that the Makefile links programs with."""
    sources = sorted(str(source) for source in (ROOT / "tool").glob("*.c"))
    done = subprocess.run([os.environ.get("CC", "cc"), *FLAGS, *sources, str(ROOT / "target/link/libdted.a"), "-lm", "-o", str(program)],
                          stdout=subprocess.PIPE, stderr=subprocess.STDOUT)
    same("the checked tool is built", (b"", 0), (done.stdout, done.returncode))


def outcomes(folder, **how):
    """What each run prints and its status, and the files that they leave."""
    filled(folder / "cell.dt0", stored("terrain.dt0")[0])
    for words in RUNS:
        done = run(*words, cwd=folder, **how)
        yield f"{words[:2]}", (done.stdout, done.stderr, done.returncode)
    yield "the files", [(name, (folder / name).read_bytes()) for name in named(folder)]


def test(folder):
    checked = folder / "dted"
    build(checked)
    filled(folder / "long.dt2", second_writer.repeated(2, 0, 7) + bytes(2))
    both = zip(outcomes(fresh(folder, "plain")), outcomes(fresh(folder, "checked"), tool=checked))
    for (what, plain), (_, found) in both:
        same(f"the checked tool: {what}", plain, found)
