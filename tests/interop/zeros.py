"""Height 0 by the word 8000: what both read in a stored cell that has it at sea, and what GDAL writes for it."""
import os

import numpy as np
from osgeo import gdal

import ours
import theirs
from counting import check, fact
from made_by_gdal import load, store

SEA, COPY = "sea.dt0", "copy.dt0"
COLUMNS, POSTS = 21, 121
ACCEPTED = f"accepted 0 {COLUMNS} {POSTS}"


def words(whole):
    """The words as they stand, a row for each column, south first."""
    columns = np.frombuffer(whole[ours.HEADERS:], dtype=np.uint8).reshape(COLUMNS, ours.column_bytes(0))
    return np.ascontiguousarray(columns[:, 8:-4]).view(">u2")


def read():
    """The stored cell, with GDAL's check of checksums on."""
    store(SEA, load(os.path.join(os.environ["STORED"], "negative_zero.dt0")))
    at_sea = words(load(SEA)) == 0x8000
    check("zero.accepted", "intake", ACCEPTED, ours.judge(SEA))
    theirs.checking(True)
    got, said = theirs.read(SEA)
    theirs.checking(False)
    heights = ours.posts(SEA, POSTS)
    check("zero.read", "by dted_word_height", 0, int((heights != got).sum()))
    check("zero.read", "by dted_post", 0, int((ours.lookups(SEA, POSTS, 1) != got).sum()))
    check("zero.read", "where 8000 stands", True, bool((got[at_sea] == 0).all()))
    check("zero.read", "both words of height 0", True, bool(at_sea.any() and (words(load(SEA)) == 0).any()))
    fact("zero.read", f"a cell with the word 8000 in {int(at_sea.sum())} of {got.size} posts: GDAL says {theirs.kinds(said)} and reads "
         f"{int(got[at_sea].min())} to {int(got[at_sea].max())} there; {int((heights == got).sum())} posts equal to the library's",
         not said and bool((heights == got).all()))
    return heights


def written(heights):
    """GDAL's copy of it."""
    gdal.GetDriverByName("DTED").CreateCopy(COPY, gdal.Open(SEA))
    again = words(load(COPY))
    fact("zero.written", f"GDAL's copy of that cell has 8000 in {int((again == 0x8000).sum())} posts, 0000 in {int((again == 0).sum())}; "
         f"intake: {ours.judge(COPY)}; the heights are the same", not (again == 0x8000).any()
         and ours.judge(COPY) == ACCEPTED and np.array_equal(ours.posts(COPY, POSTS), heights))


def run():
    print("== the word 8000")
    written(read())
