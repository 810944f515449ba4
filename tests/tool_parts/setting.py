"""dted set: one post of a file corrected, whole or not at all, and what becomes of the file."""
import os
import resource
import signal

from running import GROUP, OWNER, ROOT, UNDER, filled, fresh, height, named, powerless, run, same, stored, told, with_height

REFUSED = "refused 11: a height or void is not allowed (index 0)"
OFF_GRID = "refused 8: no such column, post or position"
LEFT_OVER = ".cell.dt0.dted-"


def shown(metres):
    return "void" if metres is None else metres


def corrections(folder):
    """The two bytes of the post and the checksum, as the second writer has them; other posts keep their words, 8000 too."""
    for name in ("void_in_partial.dt0", "north_89.dt0", "negative_zero.dt0"):
        data = stored(name)[0]
        cell = filled(folder / "cell.dt0", data)
        for column, post, word in ((0, 0, "1234"), (20, 120, "-12000"), (20, 120, "9000"), (7, 60, "-1"), (7, 60, "0"), (7, 60, "+5"),
                                   (2, 61, "0"),
                                   *([(3, 3, "void"), (3, 4, "-32767")] if "partial" in name else [])):
            before, after = height(data, column, post), None if word in ("void", "-32767") else int(word)
            data = with_height(data, column, post, after)
            told(f"set {column} {post} {word}", ("set", *(("--year", 1) if "partial" in name else ()), cell, column, post, word),
                 f"{cell}: column {column}, post {post}: {shown(before)}, now {shown(after)}\n")
            same("its bytes", True, cell.read_bytes() == data)
    same("files in the folder", ["cell.dt0"], named(folder))


def refusals(folder):
    """What is refused, or no number, changes nothing."""
    cell = filled(folder / "cell.dt0", stored("north_89.dt0")[0])
    file = os.stat(cell).st_ino
    for column, post, word, why in ((0, 0, "9001", REFUSED), (0, 0, "-12001", REFUSED), (0, 0, "void", REFUSED), (0, 0, "-32767", REFUSED),
                                    (0, 0, str(2**63 - 1), REFUSED), (0, 0, str(-2**63), REFUSED), (0, 0, "65536", REFUSED),
                                    (21, 0, "5", OFF_GRID), (0, 121, "5", OFF_GRID), (2**64 - 1, 0, "5", OFF_GRID),
                                    (21, 0, "9001", OFF_GRID)):
        told(f"set {column} {post} {word}", ("set", cell, column, post, word), errors=f"dted: {cell}: {why}\n", status=1)
    for word in ("", "x", "Void", "5m", "5.0", " 5", "- 5", "--5", "+", str(2**63), str(-2**63 - 1)):
        told(f"set to {word}", ("set", cell, 0, 0, word), errors=f"dted: {word}: neither whole metres nor void\n", status=2)
    for words in (("-1", 0), (0, "x")):
        wrong = next(w for w in words if w)
        told(f"set {words}", ("set", cell, *words, 5), errors=f"dted: {wrong}: not a whole number of up to 64 bits\n", status=2)
    same("the file", (True, file, ["cell.dt0"]), (cell.read_bytes() == stored("north_89.dt0")[0], os.stat(cell).st_ino, named(folder)))


def stream():
    """From standard input to standard output, which gets the cell and nothing else."""
    data = stored("terrain.dt0")[0]
    told("set -", ("set", "-", 60, 60, 1234), with_height(data, 60, 60, 1234), input=data)
    told("set - of a refused cell", ("set", "-", 60, 60, 1234), status=1, input=data[:3500],
         errors="dted: -: refused 3: a column is not there whole (offset 3428), column 0\n")
    told("set - refused", ("set", "-", 60, 60, 9001), errors=f"dted: -: {REFUSED}\n", status=1, input=data)


def kept(folder):
    """Mode and owner are kept; a link is followed and stays; another hard link keeps the old cell."""
    data = stored("north_89.dt0")[0]
    cell = filled(folder / "cell.dt0", data)
    if os.geteuid() == 0:
        os.chown(cell, OWNER, GROUP)
    os.chmod(cell, 0o2642)
    before = os.stat(cell)
    os.link(cell, folder / "hard.dt0")
    links = fresh(folder, "links")
    (links / "soft.dt0").symlink_to("further.dt0")
    (links / "further.dt0").symlink_to("../cell.dt0")
    told("set of a link", ("set", links / "soft.dt0", 1, 2, 3), f"{links}/soft.dt0: column 1, post 2: {height(data, 1, 2)}, now 3\n")
    after = os.stat(cell)
    same("mode and owner", (0o102642, before.st_uid, before.st_gid), (after.st_mode, after.st_uid, after.st_gid))
    same("the file behind the link", True, cell.read_bytes() == with_height(data, 1, 2, 3))
    same("the links", ["further.dt0", "../cell.dt0"], [os.readlink(links / n) for n in ("soft.dt0", "further.dt0")])
    same("the hard link", True, (folder / "hard.dt0").read_bytes() == data)
    same("names", (["cell.dt0", "hard.dt0", "links"], ["further.dt0", "soft.dt0"]), (named(folder), named(links)))


def by_others(folder):
    """By another than the owner: a member of the group, with which the file stays; and one who is in another group."""
    data = stored("north_89.dt0")[0]
    for member_of, mode, group in ((GROUP, 0o102664, GROUP), (GROUP + 1, 0o100666, os.getegid())):
        cell = filled(folder / "cell.dt0", data)
        os.chown(cell, OWNER, GROUP)
        os.chmod(cell, mode & 0o7777)
        told(f"set by one of the group {member_of}", ("set", cell, 1, 2, 3), f"{cell}: column 1, post 2: {height(data, 1, 2)}, now 3\n",
             under=(*powerless(member_of), *UNDER))
        after = os.stat(cell)
        same("its mode, owner and group", (mode, 0, group), (after.st_mode, after.st_uid, after.st_gid))
        cell.unlink()


def names(folder):
    """Names of any length and kind, here and from elsewhere."""
    data = stored("north_89.dt0")[0]
    for name in ("n" * 255, "two words", "ü" * 127, "-x", "a\nb"):
        filled(folder / name, data)
        line = f"{name.replace(chr(10), '?')}: column 1, post 2: {height(data, 1, 2)}, now 3\n"
        told(f"set of {name!r}", ("set", "--", name, 1, 2, 3), line, cwd=folder)
        same("its bytes", (True, [name]), ((folder / name).read_bytes() == with_height(data, 1, 2, 3), named(folder)))
        (folder / name).unlink()


def no_files(folder):
    """What is no regular file is told, and not waited for."""
    os.mkfifo(folder / "pipe")
    (folder / "nowhere").symlink_to("not there")
    for name, why in (("pipe", "not a regular file"), ("/dev/zero", "not a regular file"), (".", "Is a directory"),
                      ("not there", "No such file or directory"), ("nowhere", "No such file or directory"),
                      ("", "No such file or directory")):
        told(f"set of {name}", ("set", name, 1, 2, 3), errors=f"dted: {name}: {why}\n", status=2, cwd=folder)
    same("names", ["nowhere", "pipe"], named(folder))


def too_large(folder):
    """A file that may not grow: a write that fails leaves nothing, and a signal there the old cell and a file that is no cell's."""
    data = stored("terrain.dt0")[0]
    cell = filled(folder / "cell.dt0", data)

    def small():
        resource.setrlimit(resource.RLIMIT_FSIZE, (20000, 20000))

    told("set, its signal ignored", ("set", cell, 1, 2, 3), errors=f"dted: {cell}: File too large\n", status=2, preexec_fn=small,
         restore_signals=False)
    same("the old cell alone", (True, ["cell.dt0"]), (cell.read_bytes() == data, named(folder)))
    told("set, its signal", ("set", cell, 1, 2, 3), status=-signal.SIGXFSZ, preexec_fn=small)
    same("the old cell", True, cell.read_bytes() == data)
    same("what is left over", [True, False], [name.startswith(LEFT_OVER) for name in named(folder)])
    told("set after that", ("set", cell, 1, 2, 3), f"{cell}: column 1, post 2: {height(data, 1, 2)}, now 3\n")


def test(folder):
    stream()
    for part in (corrections, refusals, kept, names, no_files, too_large):
        part(fresh(folder, part.__name__))
    if os.geteuid() == 0:
        by_others(fresh(folder, "by_others"))
    same("the shipped cell", True, run("post", ROOT / "cells/terrain.dt0", 60, 60).stdout == b"486\n")
