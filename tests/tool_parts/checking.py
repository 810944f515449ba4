"""dted check: its lines against the intake program's, every header field by name, and files of all kinds."""
import os
import re
import subprocess
import threading

from running import ROOT, filled, fresh, run, same, second_writer, stored, told

RECORDS = {"UHL": 0, "DSI": 80, "ACC": 728}
GOOD = "accepted, level 0, 21 columns of 121 posts"
IMPOSSIBLE = "refused 21: a header field has bytes that are never accepted there"
OFF_TABLE = "refused 23: an interval or a count is not that of level and zone"
# the words of every number that a file can cause, the first cell that causes it, and where it is
LINES = (("empty.dt0", "refused 1: fewer bytes than the headers have (length 0)"),
         ("edition_00.dt0", f"{IMPOSSIBLE} (offset 167: DSI 88-89, edition)"),
         ("wrong_interval.dt0", f"{IMPOSSIBLE} (offset 21: UHL 21-24, longitude interval)"),
         ("other_latitude.dt0", "refused 22: a header field contradicts another field (offset 266: DSI 186-194, origin latitude)"),
         ("columns_of_zone_i.dt0", f"{OFF_TABLE} (offset 48: UHL 48-51, columns)"),
         ("one_short.dt0", "refused 3: a column is not there whole (offset 8508), column 20"),
         ("renumbered_column.dt0", "refused 4: a preamble field is wrong (offset 3683), column 1"),
         ("wrong_first_checksum.dt0", "refused 5: a checksum differs (offset 3678), column 0"),
         ("too_high.dt0", "refused 6: a post word is not allowed (offset 3954), column 2, post 5"),
         ("void_in_complete.dt0", "refused 6: a post word is not allowed (offset 8756), column 20, post 120"),
         ("void_in_partial.dt0", "refused 6: a post word is not allowed (offset 8756), column 20, post 120; --year 1 takes it"),
         ("one_long.dt0", "refused 7: bytes stand after the last column (length due 8762)"),
         ("north_89.dt0", GOOD),
         ("negative_zero.dt0", GOOD))
# north_89.dt0 with another text in a field
TEXTS = ((47, "0031", f"{OFF_TABLE} (offset 49: UHL 48-51, columns)"),
         (357, "1200", f"{OFF_TABLE} (offset 358: DSI 278-281, longitude interval)"),
         (361, "1201", f"{OFF_TABLE} (offset 361: DSI 282-285, posts to a column)"),
         (361, "0061", f"{IMPOSSIBLE} (offset 362: DSI 282-285, posts to a column)"),
         (139, "DTED1", "refused 22: a header field contradicts another field (offset 143: DSI 60-64, series and level)"))


def bare(line):
    """A line of check as the intake program has it."""
    good = re.fullmatch(r"accepted, level (\d+), (\d+) columns of (\d+) posts", line)
    bad = re.fullmatch(r"refused (\d+): .*\((?:offset|length|length due) (\d+)(?:: .*)?\)(?:, column .*)?", line)
    return " ".join(("accepted", *good.groups())) if good else " ".join(("refused", *bad.groups())) if bad else line


def stored_cells(intake):
    """One line to each stored cell, which says what the intake program says."""
    cells = sorted((ROOT / "cells").glob("*.dt?"))
    done = run("check", *cells)
    lines = done.stdout.decode().splitlines()
    same("lines and cells", len(cells), len(lines))
    for cell, line in zip(cells, lines):
        with open(cell, "rb") as file:
            theirs = subprocess.run(intake, stdin=file, stdout=subprocess.PIPE).stdout.decode().strip()
        name, _, verdict = line.partition(": ")
        same(cell.name, (str(cell), theirs), (name, bare(verdict)))
    same("status of all", (b"", 1), (done.stderr, done.returncode))


def stored_under_1():
    """Under year 1 each stored cell has the line beside it: NAME.year1, or where there is none NAME.line."""
    cells = sorted((ROOT / "cells").glob("*.dt?"))
    lines = run("check", "--year", 1, *cells).stdout.decode().splitlines()
    same("lines and cells, year 1", len(cells), len(lines))
    for cell, line in zip(cells, lines):
        told_of = next(path for path in (cell.with_suffix(".year1"), cell.with_suffix(".line")) if path.exists())
        same(f"{cell.name}, year 1", (str(cell), told_of.read_text().strip()), (line.partition(": ")[0], bare(line.partition(": ")[2])))


def scope_fields():
    """The header fields of docs/SCOPE.md: offsets of the first and the last byte, and record with positions."""
    rows = re.findall(r"^\| H\d.*? \| (UHL|DSI|ACC) \| ([^|]*) \|", (ROOT / "docs/SCOPE.md").read_text(), re.M)
    for record, spans in rows:
        for positions in spans.split(", "):
            first, last = (RECORDS[record] + int(positions.split("-")[end]) - 1 for end in (0, -1))
            yield first, last, f"{record} {positions}"


def fields(folder):
    """Each header field broken by itself is named, by its first byte or its last; so are texts that stand there in other cells."""
    good = stored("north_89.dt0")[0]
    same("fields of the scope", 40, len(list(scope_fields())))
    for first, last, name in scope_fields():
        cell = filled(folder / "field", second_writer.with_byte(good, first, ord("?")))
        line = run("check", cell).stdout.decode()
        same(name, f"{cell}: {IMPOSSIBLE} (offset {first}: {name}", line.split(",")[0])
        cell = filled(folder / "field", second_writer.with_byte(good, last, ord("?")))
        line = run("check", cell).stdout.decode().split(",")[0]
        same(f"{name}, its last byte", True, line in [f"{cell}: {IMPOSSIBLE} (offset {place}: {name}" for place in (first, last)])
    for at, text, line in TEXTS:
        cell = filled(folder / "field", second_writer.with_texts(good, text, at))
        told(f"{text} at {at}", ("check", cell), f"{cell}: {line}\n", status=1)


def columns_of_levels(folder):
    """The column is told by the grid of the file's own level and zone."""
    for level, size in ((0, 254), (1, 2414), (2, 7214)):
        good = second_writer.repeated(level, 89, 7)
        for column in (0, 1, 20):
            at = 3428 + column * size
            cell = filled(folder / "cell", second_writer.with_byte(good, at + 8, 0x70))
            told(f"level {level}, a byte of column {column}", ("check", cell),
                 f"{cell}: refused 5: a checksum differs (offset {at + size - 4}), column {column}\n", status=1)
            wrong = filled(folder / "cell", second_writer.with_word(good, size, column, 100, 0x2329))
            told(f"level {level}, a word of column {column}", ("check", wrong),
                 f"{cell}: refused 6: a post word is not allowed (offset {at + 208}), column {column}, post 100\n", status=1)


def names(folder):
    """A line stays a line, whatever the name."""
    data = stored("north_89.dt0")[0]
    odd = fresh(folder, "odd")
    for name, shown in (("two words", "two words"), ("a\nb: accepted", "a?b: accepted"), ("\x1b[2Jx\x7f\t", "?[2Jx??"), ("höhe", "höhe"),
                        ("%s%n", "%s%n"), ("x" * 255, "x" * 255)):
        filled(odd / name, data)
        told(f"the name {name!r}", ("check", odd / name), f"{odd}/{shown}: {GOOD}\n")
    filled(odd / "--year", data)
    told("a name with a dash", ("check", "--", "--year"), f"--year: {GOOD}\n", cwd=odd)
    told("a name behind --", ("check", "two words", "--", "--year"), f"two words: {GOOD}\n--year: {GOOD}\n", cwd=odd)
    told("-- behind --", ("check", "--", "--"), errors="dted: --: No such file or directory\n", status=2, cwd=odd)
    told("an empty name", ("check", ""), errors="dted: : No such file or directory\n", status=2)
    told("a name of bytes", ("check", b"\xff\n"), errors=b"dted: \xff?: No such file or directory\n", status=2, cwd=odd)
    told("a name too long", ("check", "n" * 100000), errors=f"dted: {'n' * 4095}: File name too long\n", status=2)


def unreadable(folder):
    """What cannot be read is told on standard error, and the next file follows; of several statuses the highest counts."""
    good, bad = ROOT / "cells/north_89.dt0", ROOT / "cells/empty.dt0"
    (folder / "loop").symlink_to("loop")
    (folder / "nowhere").symlink_to("not there")
    for name, why in ((folder / "not there", "No such file or directory"), (folder, "Is a directory"), (f"{good}/x", "Not a directory"),
                      (folder / "loop", "Too many levels of symbolic links"), (folder / "nowhere", "No such file or directory"),
                      ("/proc/self/mem", "Input/output error")):
        told(why, ("check", name), errors=f"dted: {name}: {why}\n", status=2)
        told(f"{why}, and more", ("check", good, name, bad), f"{good}: {GOOD}\n{bad}: {LINES[0][1]}\n", f"dted: {name}: {why}\n", 2)
    told("a refused file first", ("check", bad, good), f"{bad}: {LINES[0][1]}\n{good}: {GOOD}\n", status=1)
    told("a good file twice", ("check", good, good), f"{good}: {GOOD}\n" * 2)


def in_pieces(folder, data):
    """A named pipe that gets its bytes in two pieces."""
    pipe = folder / "pipe"
    os.mkfifo(pipe)

    def feed():
        with open(pipe, "wb", buffering=0) as end:
            end.write(data[:97])
            threading.Event().wait(0.05)
            end.write(data[97:])

    feeder = threading.Thread(target=feed, daemon=True)
    feeder.start()
    told("a named pipe", ("check", pipe), f"{pipe}: {GOOD}\n")
    feeder.join(10)


def all_kinds(folder):
    """Files that are no plain ones, and files that never end."""
    data = stored("north_89.dt0")[0]
    told("/dev/null", ("check", "/dev/null"), "/dev/null: refused 1: fewer bytes than the headers have (length 0)\n", status=1)
    told("/dev/zero", ("check", "/dev/zero"), f"/dev/zero: {IMPOSSIBLE} (offset 0: UHL 1-4, record name)\n", status=1)
    told("standard input", ("check", "-"), f"-: {GOOD}\n", input=data)
    told("standard input twice", ("check", "-", "-"), f"-: {GOOD}\n-: {LINES[0][1]}\n", status=1, input=data)
    told("standard input behind --", ("check", "--", "-"), f"-: {GOOD}\n", input=data)
    (folder / "link").symlink_to(ROOT / "cells/north_89.dt0")
    told("a link", ("check", folder / "link"), f"{folder}/link: {GOOD}\n")
    in_pieces(folder, data)
    huge = filled(folder / "huge", data)
    os.truncate(huge, 1 << 40)
    told("a cell and a terabyte", ("check", huge), f"{huge}: refused 7: bytes stand after the last column (length due 8762)\n", status=1)
    with open(huge, "rb") as file:
        run("check", "-", stdin=file)
        same("bytes read of it", 25981043, os.lseek(file.fileno(), 0, os.SEEK_CUR))
    huge.unlink()


def longest(folder):
    """The longest cell, and a byte more; then a small one in the same buffer."""
    cell, small = filled(folder / "cell", second_writer.repeated(2, 0, 7)), ROOT / "cells/north_89.dt0"
    told("the longest cell", ("check", cell, small), f"{cell}: accepted, level 2, 3601 columns of 3601 posts\n{small}: {GOOD}\n")
    with open(cell, "ab") as file:
        file.write(b"\0")
    told("a byte more", ("check", cell, small),
         f"{cell}: refused 7: bytes stand after the last column (length due 25981042)\n{small}: {GOOD}\n", status=1)


def test(folder, intake):
    for name, line in LINES:
        cell = ROOT / "cells" / name
        told(name, ("check", cell), f"{cell}: {line}\n", status=int(line != GOOD))
    numbers = {int(line.split()[1].strip(":")) for *_, line in (*LINES, *TEXTS) if line != GOOD}
    same("numbers that a file can cause", {1, 3, 4, 5, 6, 7, 21, 22, 23}, numbers)
    stored_cells(intake)
    stored_under_1()
    fields(folder)
    columns_of_levels(folder)
    names(folder)
    unreadable(folder)
    all_kinds(folder)
    longest(folder)
