"""dted info and post: what they print of a cell, and that no command prints any of a refused one."""
import random

from running import ROOT, filled, fresh, height, named, run, same, second_writer, stored, told, with_height

INFO = """cell: level 0, 41 columns of 121 posts
  south-west corner             71S 102E
  level                         0
  latitude                      -71
  longitude                     102
  security                      C
  edition                       42
  match version                 Z
  vertical datum                MSL
  accuracy                      8
  absolute horizontal accuracy  9
  absolute vertical accuracy    10
  relative horizontal accuracy  11
  relative vertical accuracy    12
  partial indicator             13
  lowest height                 {lowest}
  highest height                {highest}
  posts                         4961
  voids                         {voids}
"""
OFF_GRID = "refused 8: no such column, post or position"
CHECKSUM = "refused 5: a checksum differs (offset 3678), column 0"


def first(cell, columns, wanted):
    """The lowest or highest height, and the first post that has it."""
    heights = [(height(cell, c, p), c, p) for c in range(columns) for p in range(121) if height(cell, c, p) is not None]
    value, column, post = wanted(heights, key=lambda h: h[0])
    return f"{value}, column {column}, post {post}"


def info(folder):
    items = stored("every_item.dt0")[0]
    low, high = with_height(items, 7, 120, -12000), with_height(with_height(items, 0, 1, 9000), 3, 3, 9000)
    for what, cell in (("every item", items), ("the lowest height", low), ("the highest height, twice", high)):
        filled(folder / "cell", cell)
        told(f"info: {what}", ("info", "--year", 1, "cell"), INFO.format(lowest=first(cell, 41, min), highest=first(cell, 41, max), voids=1),
             cwd=folder)
    voids = items[:3428] + b"".join(second_writer.column(k, [0x7FFF + 0x8000] * 121) for k in range(41))
    told("info: voids alone", ("info", "--year", 1, "-"), INFO.format(lowest="none", highest="none", voids=4961).replace("cell:", "-:"),
         input=voids)
    terrain = run("info", ROOT / "cells/terrain.dt0").stdout.decode()
    for row in ("south-west corner             46N 7E", "vertical datum                E96", "accuracy                      not available",
                "relative vertical accuracy    not available", "posts                         14641"):
        same(f"info: {row}", 1, terrain.count(f"\n  {row}\n"))
    for name, corner in (("west_180", "0N 180W"), ("north_89", "89N 0E")):
        rows = run("info", ROOT / f"cells/{name}.dt0").stdout.decode()
        same(f"info: the corner {corner}", 1, rows.count(f"south-west corner             {corner}\n"))
    sea = stored("negative_zero.dt0")[0]
    rows = run("info", ROOT / "cells/negative_zero.dt0").stdout.decode()
    for name, wanted in (("lowest", min), ("highest", max)):
        same(f"info: the {name} height beside words 8000", 1, rows.count(f"{name} height".ljust(30) + f"{first(sea, 21, wanted)}\n"))


def posts():
    """Posts by their numbers; numbers go to the library whole."""
    cell, path = stored("void_in_partial.dt0")[0], ROOT / "cells/void_in_partial.dt0"
    chosen = random.Random(1)
    for column, post in [(0, 0), (20, 120), (20, 119), *((chosen.randrange(21), chosen.randrange(121)) for _ in range(20))]:
        metres = height(cell, column, post)
        told(f"post {column} {post}", ("post", "--year", 1, path, column, post), "void\n" if metres is None else f"{metres}\n")
    for post in (60, 61):
        told(f"post {post}, height 0 by either word", ("post", ROOT / "cells/negative_zero.dt0", 2, post), "0\n")
    told("a post with zeros in front", ("post", "--year", 1, path, "0020", "0120"), "void\n")
    for column, post in ((21, 0), (0, 121), (2**32, 0), (0, 2**32), (2**64 - 1, 0), (0, 2**64 - 1)):
        told(f"post {column} {post}", ("post", "--year", 1, path, column, post), errors=f"dted: {path}: {OFF_GRID}\n", status=1)
    for word in ("-1", "+1", " 1", "1 ", "1.0", "0x1", "", "x", "1\n", str(2**64), "9" * 400):
        shown = word.replace("\n", "?")
        for words in ((word, 0), (0, word)):
            told(f"post {words}", ("post", path, *words), errors=f"dted: {shown}: not a whole number of up to 64 bits\n", status=2)


def of_refused_cells(folder):
    """Nothing is told or drawn of a cell that check refuses, also of its good columns."""
    bad, empty = filled(folder / "bad.dt0", stored("wrong_first_checksum.dt0")[0]), fresh(folder, "empty")
    for words in (("info", bad), ("post", bad, 5, 5), ("at", bad, "0.5", "-179.5"), ("relief", bad, empty / "out.pgm"),
                  ("set", bad, 5, 5, 7)):
        told(f"{words[0]} of a refused cell", words, errors=f"dted: {bad}: {CHECKSUM}\n", status=1)
    same("nothing is drawn", [], named(empty))
    for words in (("info", empty), ("post", empty, 5, 5), ("at", empty, "0.5", "-179.5"), ("relief", empty, empty / "out.pgm"),
                  ("set", empty, 5, 5, 7)):
        told(f"{words[0]} of a folder", words, errors=f"dted: {empty}: Is a directory\n", status=2)


def test(folder):
    info(folder)
    posts()
    of_refused_cells(folder)
