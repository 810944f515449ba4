"""Counts the checks of a run, and keeps the names of what was checked and measured."""
import re
import sys
import traceback

passed = failed = 0
names, broken = set(), set()


def check(name, what, due, got):
    """One check: a line is printed only where it fails."""
    global passed, failed
    names.add(name)
    if due == got:
        passed += 1
    else:
        failed += 1
        broken.add(name)
        print(f"FAILED {name}: {what}: due {due!r}, got {got!r}")


def fact(name, text, holds=None):
    """Something measured: always printed; docs/GDAL.md states it, so it fails where it does not hold.

    Without a condition of its own it sums up the checks of that name.
    """
    global passed, failed
    names.add(name)
    holds = name not in broken if holds is None else holds
    passed, failed = passed + bool(holds), failed + (not holds)
    print(f"fact {name}: {text}" + ("" if holds else "   FAILED: docs/GDAL.md says otherwise"))


def guarded(part):
    """Runs a part of the tests; where it breaks off, that is one failure."""
    global failed
    try:
        part()
    except Exception:
        failed += 1
        traceback.print_exc(file=sys.stdout)


def cited(path, commands):
    """A page cites each test that was run and no other, and gives the commands that were run."""
    with open(path, encoding="utf-8") as file:
        page = re.sub(r"\s*\\\n\s*", " ", file.read())
    run, told = set(names), set(re.findall(r"`((?:ours|theirs|ties|damage|edit|zero|tk)\.[a-z_]+)`", page))
    for name in sorted(run | told):
        check("page.cited", f"{name}: run, cited", (True, True), (name in run, name in told))
    for command in commands:
        check("page.commands", command, True, command in page)


def end():
    print(f"{passed} passed, {failed} failed")
    return failed != 0
