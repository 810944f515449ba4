"""The library's side of the tests against GDAL: the tool, and what a seed settles, said a second time in Python."""
import os
import subprocess

import numpy as np

VOID = -32767
HEADERS = 3428
POSTS = (121, 1201, 3601)
TENTHS = 36000  # to a degree
LEVEL, LATITUDE, LONGITUDE, SECURITY, EDITION, VERSION, DATUM, ACCURACY, ABS_H, ABS_V, REL_H, REL_V, PARTIAL = range(13)

# one byte of each header field, in the order in which the fields are judged: offset and width
FIELDS = [(0, 4), (4, 8), (12, 8), (24, 4), (20, 4), (28, 4), (32, 3), (47, 4), (51, 4), (55, 1), (80, 3), (83, 1), (139, 5),
          (167, 2), (169, 1), (206, 9), (221, 3), (224, 5), (265, 9), (274, 10), (284, 7), (291, 8), (299, 7), (306, 8),
          (314, 7), (321, 8), (329, 7), (336, 8), (344, 9), (353, 4), (357, 4), (361, 4), (365, 4), (369, 2), (728, 3),
          (731, 4), (735, 4), (739, 4), (743, 4), (783, 2)]
# those of them, by their offsets, in which several texts would pass: their place is their first byte, whatever is wrong
SEVERAL = (4, 12, 24, 28, 32, 167, 169, 221, 369, 731, 735, 739, 743)


# ---- the tool ----

def tool(year, *given, feed=None):
    """The tool's output; a fault of the command itself is raised."""
    words = os.environ.get("RUN", "").split() + [os.environ["TOOL"], str(year)] + [str(word) for word in given]
    done = subprocess.run(words, input=feed, capture_output=True, check=False)
    if done.returncode not in (0, 1):
        raise RuntimeError(done.stderr.decode())
    return done.stdout


def write(level, latitude, longitude, path, seed):
    """In the year that allows the cell's voids; gives what the writer says in year 2, where it says anything."""
    given = ("write", level, latitude, longitude, path, seed)
    refused = tool(2, *given).decode().strip()
    printed = tool(1, *given) if refused else b""
    if printed:
        raise RuntimeError(f"the writer: {printed.decode()}")
    return refused


def judge(path, year=2):
    return tool(year, "judge", path).decode().strip()


def judged(path):
    """In year 1 and in year 2."""
    return judge(path, 1), judge(path, 2)


def describe(path):
    line = tool(2, "describe", path).decode().strip()
    return line if line.startswith("refused") else [int(word) for word in line.split()]


def edit(path, column, post, height, year=2):
    return tool(year, "edit", path, column, post, height).decode().strip()


def heights_in(printed, posts_to_column):
    return np.frombuffer(printed, dtype=">i2").reshape(-1, posts_to_column).astype(np.int16)


def posts(path, posts_to_column, year=2):
    """Every height as it stands, a row for each column, south first."""
    return heights_in(tool(year, "posts", path), posts_to_column)


def lookups(path, posts_to_column, every, year=2):
    """Heights by lookup, a row for each everyth column."""
    return heights_in(tool(year, "lookups", path, every), posts_to_column)


def positions(path, places):
    """The answer to each (latitude, longitude) in tenths: (column, post, height), or the refusal's line."""
    feed = "".join(f"{latitude} {longitude}\n" for latitude, longitude in places).encode()
    lines = tool(2, "position", path, feed=feed).decode().splitlines()
    return [line if line.startswith("refused") else tuple(int(word) for word in line.split()) for line in lines]


# ---- sizes ----

def factor(latitude):
    near = latitude if latitude >= 0 else -(latitude + 1)
    return next(times for bound, times in ((50, 1), (70, 2), (75, 3), (80, 4), (90, 6)) if near < bound)


def intervals(level, latitude):
    """East-west and north-south, in tenths of a second."""
    north = TENTHS // (POSTS[level] - 1)
    return north * factor(latitude), north


def size(level, latitude):
    return TENTHS // intervals(level, latitude)[0] + 1, POSTS[level]


def column_bytes(level):
    return 12 + 2 * POSTS[level]


def column_at(level, column):
    return HEADERS + column * column_bytes(level)


def post_at(level, column, post):
    return column_at(level, column) + 8 + 2 * post


# ---- voids and years ----

def first_void(columns):
    """Column and post of the first one, or None."""
    return next(iter(np.argwhere(columns == VOID).tolist()), None)


def year_of(level, columns):
    """The year that takes a partial cell of these heights: 2, or 1 where it has voids below level 2."""
    return 2 if level == 2 or first_void(columns) is None else 1


def lines_of(level, columns):
    """What is due of a good cell of these heights in year 1 and in year 2."""
    accepted = f"accepted {level} {columns.shape[0]} {columns.shape[1]}"
    return accepted, accepted if year_of(level, columns) == 2 else f"refused 6 {post_at(level, *first_void(columns))}"


# ---- what a seed settles ----

def mixed(seed, column, post):
    column, post = np.asarray(column, dtype=np.uint32), np.asarray(post, dtype=np.uint32)
    start = np.full(1, seed * 2654435761 % 2**32, dtype=np.uint32)
    x = start ^ (column * np.uint32(40503) + post) * np.uint32(2246822519)
    x ^= x >> np.uint32(15)
    x *= np.uint32(3266489917)
    return x ^ x >> np.uint32(16)


def heights(seed, partial, columns, posts_to_column):
    """The heights of a cell, a row for each column, south first."""
    x = mixed(seed, np.arange(columns)[:, None], np.arange(posts_to_column)[None, :])
    metres = (x % np.uint32(21001)).astype(np.int16) - np.int16(12000)
    if partial:
        metres[x % np.uint32(13) == 0] = VOID
    return metres


def accuracy(seed, item):
    x = int(mixed(seed, [9999], [item])[0])
    return -1 if x % 3 == 0 else x % 10000


def items(level, latitude, longitude, seed):
    """The thirteen items, as the tool writes them and the description reader gives them."""
    return [level, latitude, longitude, ord("SCUR"[seed % 4]), 1 + seed * 7 % 99, ord("A") + seed * 5 % 26, seed // 2 % 2,
            *[accuracy(seed, item) for item in range(ACCURACY, REL_V + 1)], 0 if seed % 2 == 0 else 1 + seed * 11 % 99]


# ---- header texts of items ----

def metres_text(value):
    return "NA  " if value == -1 else f"{value:04d}"


def origin_texts(latitude, longitude):
    """As in the UHL: latitude, longitude."""
    north, east = "N" if latitude >= 0 else "S", "E" if longitude >= 0 else "W"
    return f"{abs(latitude):03d}0000{north}", f"{abs(longitude):03d}0000{east}"
