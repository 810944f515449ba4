"""Every command under both rule years: cells that the two tell apart, cells that they do not, and words that are no year."""
from running import ROOT, filled, fresh, height, named, run, same, second_writer, stored, told, with_height
from usage import ROWS

# what is said of the year, and which one it is then
YEARS = (((), 2), (("--year", 2), 2), (("--year", 1), 1))
HINT = "; --year 1 takes it"
HEIGHT = "refused 11: a height or void is not allowed (index 0)"
GOOD = "accepted, level 0, 21 columns of 121 posts"
OLD, NEW = ROOT / "cells/void_in_partial.dt0", ROOT / "cells/north_89.dt0"
POSTS = (121, 1201, 3601)
NO_YEARS = ("0", "3", "01", "1x", "01x", "x1", "", "-1", "+1", "-2", " 1", "1 ", "2.0", "12", "21", "257", "4294967297", "4294967298",
            "18446744073709551617", "one", "--", "-h", "--year")


def cell_of(level, partial="42"):
    """A cell of the fewest columns without voids, with this partial indicator."""
    return second_writer.with_texts(second_writer.repeated(level, 89, 7), partial, 369)


def with_void(cell, level):
    return with_height(cell, 5, 7, None, POSTS[level])


def accepted(level):
    _, _, columns, posts = second_writer.grid(level, 89)
    return f"accepted, level {level}, {columns} columns of {posts} posts"


def word_refused(level, column, post):
    at = 3428 + column * (12 + 2 * POSTS[level]) + 8 + 2 * post
    return f"refused 6: a post word is not allowed (offset {at}), column {column}, post {post}"


def verdicts():
    """Cells, each with its line under year 2 and under year 1."""
    for level in range(3):
        good, bad = accepted(level), word_refused(level, 5, 7)
        yield f"level {level}, partial", cell_of(level), good, good
        yield f"level {level}, partial, a void", with_void(cell_of(level), level), good if level == 2 else bad + HINT, good
        yield f"level {level}, complete, a void", with_void(cell_of(level, "00"), level), bad, bad
    for partial in ("01", "99"):
        yield f"partial {partial}, a void", with_void(cell_of(0, partial), 0), word_refused(0, 5, 7) + HINT, accepted(0)
    void = with_void(cell_of(0), 0)  # where year 1 refuses it as well, there is no word of that year
    yield "a void, then a height", with_height(void, 9, 3, 9001), word_refused(0, 5, 7), word_refused(0, 9, 3)
    yield "a height, then a void", with_height(void, 2, 3, 9001), word_refused(0, 2, 3), word_refused(0, 2, 3)
    yield ("a void, then a checksum", second_writer.with_byte(void, 3428 + 9 * 254 + 20, 0x77), word_refused(0, 5, 7),
           f"refused 5: a checksum differs (offset {3428 + 10 * 254 - 4}), column 9")


def checks(folder):
    for name, cell, under_2, under_1 in verdicts():
        path = filled(folder / "cell", cell)
        for words, year in YEARS:
            line = under_2 if year == 2 else under_1
            told(f"check {words}: {name}", ("check", *words, path), f"{path}: {line}\n", status=int("refused" in line))


def places(folder):
    """Among the files the option is for all of them, and the last one counts; behind -- it is a file, and behind the files a word."""
    for words in (("--year", 1, NEW, OLD), (NEW, "--year", 1, OLD), (NEW, OLD, "--year", 1), ("--year", 1, "--", NEW, OLD),
                  (NEW, "--year", 1, "--", OLD), ("--year", 2, NEW, "--year", 1, OLD)):
        told(f"check {words}", ("check", *words), f"{NEW}: {GOOD}\n{OLD}: {GOOD}\n")
    told("the last one counts", ("check", "--year", 1, OLD, "--year", 2), f"{OLD}: {word_refused(0, 20, 120)}{HINT}\n", status=1)
    told("behind --", ("check", "--", "--year", 1, NEW), f"{NEW}: {GOOD}\n", status=2, cwd=folder,
         errors="dted: --year: No such file or directory\ndted: 1: No such file or directory\n")
    same("between both files of relief", True, run("relief", "--year", 1, OLD, "-").stdout == run("relief", OLD, "--year", 1, "-").stdout)
    told("standard input", ("post", "--year", 1, "-", 20, 120), "void\n", input=OLD.read_bytes())
    for command, given in (("info", ()), ("post", (20, 120)), ("at", (90, 1)), ("set", (20, 120, 5))):
        told(f"{command}, behind the file", (command, OLD, "--year", 1, *given), errors=f"usage: dted {command} {ROWS[command]}\n", status=2)


def commands(folder):
    """Each command on a cell that year 1 alone takes."""
    data = stored("void_in_partial.dt0")[0]
    cell = filled(folder / "cell.dt0", data)
    given = {"info": (cell,), "post": (cell, 20, 120), "at": (cell, "90", "1"), "set": (cell, 20, 119, 7), "relief": (cell, folder / "out.pgm")}
    for words, year in YEARS[:2]:
        for command, others in given.items():
            told(f"{command} {words}", (command, *words, *others), status=1, errors=f"dted: {cell}: {word_refused(0, 20, 120)}{HINT}\n")
        same(f"what {words} changes", (True, ["cell.dt0"]), (cell.read_bytes() == data, named(folder)))
    rows = run("info", "--year", 1, *given["info"]).stdout.decode().splitlines()
    same("info --year 1", [f"{cell}: {GOOD[10:]}", "  voids                         1"], [rows[0], rows[-1]] if rows else [])
    told("post --year 1", ("post", "--year", 1, *given["post"]), "void\n")
    told("at --year 1", ("at", "--year", 1, *given["at"]), "void column 20 post 120\n")
    told("set --year 1", ("set", "--year", 1, *given["set"]), f"{cell}: column 20, post 119: {height(data, 20, 119)}, now 7\n")
    same("set --year 1, its bytes", True, cell.read_bytes() == with_height(data, 20, 119, 7))
    told("relief --year 1", ("relief", "--year", 1, *given["relief"]))
    same("relief --year 1, its picture", [14 + 21 * 121], [path.stat().st_size for path in folder.glob("*.pgm")])


def voids_set(folder):
    """A void is set where the year allows it; elsewhere nothing is changed."""
    path = folder / "cell"
    for level, partial, allowed in ((0, "42", (1,)), (1, "42", (1,)), (2, "42", (1, 2)), (0, "00", ()), (2, "00", ())):
        data = cell_of(level, partial)
        for words, year in YEARS:
            filled(path, data)
            done = year in allowed
            told(f"set {words} to void, level {level}, partial {partial}", ("set", *words, path, 5, 7, "void"),
                 f"{path}: column 5, post 7: {height(data, 5, 7, POSTS[level])}, now void\n" if done else "",
                 "" if done else f"dted: {path}: {HEIGHT}\n", int(not done))
            same("its bytes", True, path.read_bytes() == (with_void(data, level) if done else data))
    data = cell_of(0)
    told("set - to void", ("set", "--year", 1, "-", 5, 7, "void"), with_void(data, 0), input=data)
    told("set - to void, year 2", ("set", "-", 5, 7, "void"), errors=f"dted: -: {HEIGHT}\n", status=1, input=data)
    filled(path, with_void(data, 0))
    told("set of the only void", ("set", "--year", 1, path, 5, 7, 3), f"{path}: column 5, post 7: void, now 3\n")
    told("the cell without it", ("check", path), f"{path}: {GOOD}\n")


def wrong(folder):
    """Words that are no year are told before any file is opened."""
    for command, given in (("check", ("x", "y")), ("info", ("x",)), ("post", ("x", 1, 2)), ("at", ("x", 1, 2)), ("set", ("x", 1, 2, 3)),
                           ("relief", ("x", "y"))):
        for word in NO_YEARS:
            told(f"{command} --year {word!r}", (command, "--year", word, *given), errors=f"dted: {word}: neither rule year 1 nor 2\n",
                 status=2, cwd=folder)
        told(f"{command} --year 3 --year 1", (command, "--year", 3, "--year", 1, *given), status=2,
             errors="dted: 3: neither rule year 1 nor 2\n")
        told(f"{command} --year", (command, "--year"), errors="dted: --year: no rule year behind it\n", status=2)
        told(f"{command} --year=1", (command, "--year=1", *given), errors="dted: --year=1: no such option\n", status=2)
        usage = f"usage: dted {command} {ROWS[command]}\n"
        told(f"{command} --year 1, alone", (command, "--year", 1), errors=usage, status=2)
        told(f"{command} --year 1 -h", (command, "--year", 1, "-h", "x"), usage)
    same("nothing is made", [], named(folder))


def test(folder):
    for part in (checks, places, commands, voids_set, wrong):
        part(fresh(folder, f"years_{part.__name__}"))
