"""Positions: between posts both must agree; at equal distance and outside the grid the two ways are measured."""
import collections
import random

import numpy as np

import made_by_gdal
import ours
import places
import theirs
from counting import check, fact

PATH = "ours.dt"
CELLS = [(level, latitude, longitude) for level in (0, 1, 2)
         for latitude, longitude in ((46, 7), (-46, -7), (0, 0), (-1, -1), (60, 179), (85, -180))]


def origin(latitude, longitude):
    return latitude * ours.TENTHS, longitude * ours.TENTHS


def tied_longitudes(level, latitude, longitude):
    """Half way between each column and the next, on the southern edge."""
    south, west = origin(latitude, longitude)
    east = ours.intervals(level, latitude)[0]
    return [(south, west + column * east + east // 2) for column in range(ours.size(level, latitude)[0] - 1)]


def tied_latitudes(level, latitude, longitude):
    """Half way between each post and the next, on the western edge."""
    south, west = origin(latitude, longitude)
    north = ours.intervals(level, latitude)[1]
    return [(south + post * north + north // 2, west) for post in range(ours.POSTS[level] - 1)]


def ties_of(level, latitude, longitude, counts):
    """Ours are checked; GDAL's are counted: 0 for west or south, 1 for east or north."""
    name = places.named(level, latitude, longitude)
    ours.write(level, latitude, longitude, PATH, 2)
    for axis, tied in enumerate((tied_longitudes, tied_latitudes)):
        middles = tied(level, latitude, longitude)
        due = list(range(len(middles)))
        check("ties.ours", name, due, [answer[axis] for answer in ours.positions(PATH, middles)])
        ways = [post[axis] - index for index, post in enumerate(theirs.located(PATH, middles))]
        check("ties.one_of_both", name, (len(due), True), (len(ways), set(ways) <= {0, 1}))
        for way in ways:
            counts[level, axis, way] += 1


def at_ties():
    counts = collections.Counter()
    for cell in CELLS:
        ties_of(*cell, counts)
    fact("ties.ours", "dted_position answers the western or southern post at each of "
         f"{sum(counts.values())} positions half way between two posts")
    for level in (0, 1, 2):
        west, east, south, north = (counts[level, axis, way] for axis in (0, 1) for way in (0, 1))
        fact("ties.locationinfo", f"gdallocationinfo at level {level}: west {west}, east {east}; south {south}, north {north}",
             min(west, east, south, north) > 0)


def warped():
    """gdalwarp's nearest post, where each output post lies half way between four."""
    for level, latitude, longitude in CELLS[::5]:
        columns, posts = ours.size(level, latitude)
        numbers = np.meshgrid(np.arange(columns), np.arange(posts), indexing="ij")
        ways = []
        for axis in (0, 1):
            made_by_gdal.made(latitude, longitude, numbers[axis].astype(np.int16), theirs.NOT_AVAILABLE)
            apart = theirs.warped_half_a_post(made_by_gdal.PATH) - numbers[axis][:-1, :-1]
            ways.append({way: int((apart == way).sum()) for way in np.unique(apart).tolist()})
        made_by_gdal.forget()
        text = f"columns {ways[0]}, posts {ways[1]} (0 is west or south, 1 east or north)"
        fact("ties.warp", f"gdalwarp -r near, {places.named(level, latitude, longitude)}: {text}",
             list(ways[0]) == [1] and list(ways[1]) == [0])


def between():
    """Anywhere else both answer the same post."""
    chance, count = random.Random(1), 0
    for level, latitude, longitude in CELLS:
        ours.write(level, latitude, longitude, PATH, 2)
        south, west = origin(latitude, longitude)
        east, north = ours.intervals(level, latitude)
        drawn = [(chance.randint(0, ours.TENTHS), chance.randint(0, ours.TENTHS)) for _ in range(1000)]
        kept = [(south + up, west + right) for up, right in drawn if up % north != north // 2 and right % east != east // 2]
        got = [answer[:2] for answer in ours.positions(PATH, kept)]
        check("ties.between", places.named(level, latitude, longitude), got, theirs.located(PATH, kept))
        count += len(kept)
    fact("ties.between", f"at {count} positions that are not half way, dted_position and gdallocationinfo answer the same post")


def border():
    """GDAL's raster reaches half a post over the cell."""
    ours.write(0, 46, 7, PATH, 2)
    south, west = origin(46, 7)
    north, east = south + ours.TENTHS, west + ours.TENTHS
    edge = [(0, 0), (0, 0), (0, 120), (120, 0)]
    for over, due in ((1, edge), (149, edge), (151, [None] * 4)):
        outside = [(south - over, west), (south, west - over), (north + over, west), (south, east + over)]
        check("ties.border", f"ours, {over}", ["refused 8 0"] * 4, ours.positions(PATH, outside))
        check("ties.border", f"GDAL's, {over}", due, theirs.located(PATH, outside))
    fact("ties.border", "1 and 149 tenths of a second outside each edge, at level 0, gdallocationinfo gives a post of the edge, at "
         "151 none; dted_position refuses 8 at each")


def run():
    print("== positions")
    for part in (at_ties, warped, between, border):
        part()
