"""Cells that the library writes: GDAL, its check of checksums on, sees the size, place, posts and items that were given."""
import numpy as np
from osgeo import gdal

import ours
import places
import theirs
from counting import check, fact

PATH = "ours.dt"


def size_and_place(name, cell, level, latitude, longitude):
    columns, posts = ours.size(level, latitude)
    check("ours.size", name, (columns, posts, 1), (cell.RasterXSize, cell.RasterYSize, cell.RasterCount))
    due = theirs.placed(latitude, longitude, columns, posts)
    apart = max(abs(a - b) for a, b in zip(due, cell.GetGeoTransform()))
    check("ours.place", f"{name}: geotransform {cell.GetGeoTransform()}", True, apart < 1e-9)
    check("ours.reference", name, "4326", cell.GetSpatialRef().GetAuthorityCode(None))


def heights(name, cell, level, items, due):
    year = ours.year_of(level, due)
    got = theirs.turned(cell.ReadAsArray())
    check("ours.posts", name, 0, int((due != got).sum()))
    check("ours.void", name, ours.VOID, cell.GetRasterBand(1).GetNoDataValue())
    check("ours.voids_there", name, items[ours.PARTIAL] != 0, bool((got == ours.VOID).any()))
    every = places.LOOKED_UP[level]
    check("ours.words", name, True, np.array_equal(ours.posts(PATH, due.shape[1], year), due))
    check("ours.lookups", name, True, np.array_equal(ours.lookups(PATH, due.shape[1], every, year), due[::every]))


def written(level, latitude, longitude, seed, due):
    """What the writer says in year 2: nothing, or 11 at the first void."""
    said = ours.write(level, latitude, longitude, PATH, seed)
    index = "" if ours.year_of(level, due) == 2 else f"refused 11 {np.flatnonzero(due == ours.VOID)[0]}"
    check("ours.judged", f"{places.named(level, latitude, longitude)}: written in year 2", index, said)


def one(level, latitude, longitude, seed):
    name = places.named(level, latitude, longitude)
    items = ours.items(level, latitude, longitude, seed)
    due_heights = ours.heights(seed, items[ours.PARTIAL] != 0, *ours.size(level, latitude))
    written(level, latitude, longitude, seed, due_heights)
    check("ours.judged", name, ours.lines_of(level, due_heights), ours.judged(PATH))
    check("ours.described", name, items, ours.describe(PATH))
    theirs.heard()
    cell = gdal.Open(PATH)
    check("ours.opens", name, "DTED", cell.GetDriver().ShortName if cell else None)
    size_and_place(name, cell, level, latitude, longitude)
    heights(name, cell, level, items, due_heights)
    due = theirs.metadata_due(items)
    check("ours.items", name, due, {key: cell.GetMetadataItem(key) for key in due})
    check("ours.quiet", name, [], theirs.heard())


def as_points():
    """GDAL's option that takes posts as corners of pixels."""
    ours.write(0, 46, 7, PATH, 2)
    gdal.SetConfigOption("DTED_APPLY_PIXEL_IS_POINT", "TRUE")
    west, _, _, north, _, _ = gdal.Open(PATH).GetGeoTransform()
    gdal.SetConfigOption("DTED_APPLY_PIXEL_IS_POINT", None)
    fact("ours.as_points", f"with DTED_APPLY_PIXEL_IS_POINT=TRUE the raster's corner is the north-west post: {west:.9f} {north:.9f}",
         abs(west - 7) < 1e-9 and abs(north - 47) < 1e-9)


def run():
    print("== cells that we write, read by GDAL")
    cells = places.every()
    theirs.checking(True)
    for cell in cells:
        one(*cell)
    theirs.checking(False)
    as_points()
    print(f"{len(cells)} cells")
