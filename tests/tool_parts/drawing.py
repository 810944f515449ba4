"""dted relief: its pixels against ones that are computed here, and the file that it writes."""
import math
import os
import subprocess

from running import ROOT, filled, fresh, height, named, run, same, second_writer, stored, told, with_height

TERRAIN = ROOT / "cells/terrain.dt0"
DEGREE = 60 * 1852  # metres: sixty nautical miles
# in the middle, alone and side by side, and at every edge
VOIDS = ((10, 60), (14, 30), (14, 31), (15, 30), (0, 40), (20, 90), (5, 0), (8, 120))


def sides(at, count):
    """The numbers on both sides of one, or itself where it is the last."""
    return max(at - 1, 0), min(at + 1, count - 1)


def slope(low, high, apart):
    """The rise over so many metres; none where there is a void."""
    return 0 if None in (low, high) else (high - low) / apart


def pixel(grid, column, post, far_east, far_north):
    """The light on a post, whose neighbours are so many metres off."""
    if grid[column][post] is None:
        return 0
    (west, east), (south, north) = sides(column, len(grid)), sides(post, len(grid[0]))
    x = slope(grid[west][post], grid[east][post], (east - west) * far_east)
    y = slope(grid[column][south], grid[column][north], (north - south) * far_north)
    # the cosine between what is upright on the post, (-x, -y, 1), and the light, (-1, 1, sqrt 2)
    cosine = (x - y + math.sqrt(2)) / (2 * math.hypot(x, y, 1))
    return max(int(1 + 254 * cosine), 1)


def drawn(cell, latitude, times):
    """The pixels of a cell of level 0, row after row from the north."""
    _, _, columns, posts = second_writer.grid(0, latitude)
    grid = [[height(cell, column, post) for post in range(posts)] for column in range(columns)]
    far_east = DEGREE * math.cos(math.radians(latitude + 0.5)) / (columns - 1) / times
    far_north = DEGREE / (posts - 1) / times
    return [pixel(grid, column, post, far_east, far_north) for post in reversed(range(posts)) for column in range(columns)]


def pixels():
    """In the north and the south, where columns are fewer than posts; the last bit of a cosine may make one of difference."""
    for name, latitude, times, voids in (("terrain.dt0", 46, 1, ()), ("void_in_partial.dt0", 89, 0.5, VOIDS),
                                         ("every_item.dt0", -71, 3, VOIDS)):
        cell = stored(name)[0]
        for column, post in voids:
            cell = with_height(cell, column, post, None)
        due, picture = drawn(cell, latitude, times), run("relief", "--year", 1, "-", "-", times, input=cell).stdout
        got = list(picture[len(picture) - len(due):])
        _, _, columns, posts = second_writer.grid(0, latitude)
        same(f"the heading of {name}", f"P5\n{columns} {posts}\n255\n".encode(), picture[:len(picture) - len(due)])
        differ = [n for n, (a, b) in enumerate(zip(due, got)) if abs(a - b) > 1 or (a == 0) != (b == 0)]
        same(f"pixels of {name} that differ", [], differ)


def shipped(folder):
    """The picture of the README, byte for byte, into a file and elsewhere."""
    out = folder / "out.pgm"
    told("relief", ("relief", TERRAIN, out, "2"), umask=0o002)
    picture = out.read_bytes()
    same("the picture that is shipped", (ROOT / "docs/relief.png").read_bytes(),
         subprocess.run([str(ROOT / "tools/png"), "4"], input=picture, stdout=subprocess.PIPE).stdout)
    same("what others may do with it", 0o100664, os.stat(out).st_mode)
    told("relief on standard output", ("relief", "-", "-", "2.0"), picture, input=TERRAIN.read_bytes())
    told("relief over another file", ("relief", "--year", 1, ROOT / "cells/void_in_partial.dt0", out))
    small = out.read_bytes()
    same("its heading", b"P5\n21 121\n255\n", small[:14])
    same("its pixels, and the black ones", (21 * 121, [20]), (len(small) - 14, [i for i, p in enumerate(small[14:]) if p == 0]))
    same("once as steep", False, run("relief", TERRAIN, "-").stdout == picture)


def factors(folder):
    for word in ("0", "-1", "nan", "inf", "-inf", "1e999", "1e-999", "2x", "", "x"):
        told(f"relief, {word} times", ("relief", TERRAIN, folder / "out.pgm", word), status=2,
             errors=f"dted: {word}: not a number above 0\n")
    same("nothing is drawn", [], named(folder))
    length = len(run("relief", TERRAIN, "-").stdout)
    for word in ("1e308", "1e-300"):
        steep = run("relief", TERRAIN, "-", word)
        same(f"relief, {word} times", (length, 0), (len(steep.stdout), steep.returncode))


def over_itself(folder):
    """Not over the cell that it is drawn from; what is no regular file holds no cell to lose."""
    copy = filled(folder / "copy.dt0", TERRAIN.read_bytes())
    (folder / "link.pgm").symlink_to("copy.dt0")
    for word in ("copy.dt0", "link.pgm"):
        told(f"relief over its own cell, as {word}", ("relief", copy, folder / word),
             errors=f"dted: {folder / word}: this is the cell itself\n", status=2)
    with open(copy, "rb") as file:
        told("relief over standard input", ("relief", "-", copy), errors=f"dted: {copy}: this is the cell itself\n", status=2, stdin=file)
    same("the cell stays", TERRAIN.read_bytes(), copy.read_bytes())
    told("relief from a device to itself", ("relief", "/dev/null", "/dev/null"), status=1,
         errors="dted: /dev/null: refused 1: fewer bytes than the headers have (length 0)\n")


def unwritten(folder):
    told("relief into no folder", ("relief", TERRAIN, folder / "no/out.pgm"), status=2,
         errors=f"dted: {folder}/no/out.pgm: No such file or directory\n")
    told("relief on a full device", ("relief", TERRAIN, "/dev/full"), errors="dted: /dev/full: No space left on device\n", status=2)


def test(folder):
    pixels()
    for part in (shipped, factors, over_itself, unwritten):
        part(fresh(folder, f"drawing_{part.__name__}"))
