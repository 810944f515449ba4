"""Damaged cells: what intake says and what GDAL says, without its check of checksums and with it."""
import collections

from osgeo import gdal

import ours
import theirs
from counting import check, fact
from made_by_gdal import load, store

GOOD, BAD = "ours.dt", "bad.dt"
COLUMN = 5
START, LENGTH = ours.column_at(0, COLUMN), ours.column_bytes(0)


def good_cell():
    """A complete level 0 cell, and its heights."""
    ours.write(0, 46, 7, GOOD, 2)
    return load(GOOD), theirs.read(GOOD)[0]


def damaged(whole, at):
    """One byte replaced."""
    changed = bytearray(whole)
    changed[at] ^= 1
    store(BAD, bytes(changed))


def in_column(line):
    """Whether a refusal's place is in the damaged column."""
    word, _, place = line.split()[:3]
    return word == "refused" and START <= int(place) < START + LENGTH


def told(said):
    """How often GDAL said nothing, warned, or gave an error."""
    return ", ".join(f"{word} {len(said[word])}" for word in ("nothing", "warning", "error"))


def swept(whole, heights):
    """Each byte of one column damaged in turn: what GDAL says of which, and how often it hands out other heights."""
    said, wrong, unread = collections.defaultdict(list), 0, []
    for at in range(START, START + LENGTH):
        damaged(whole, at)
        check("damage.ours", f"byte {at}", True, in_column(ours.judge(BAD)))
        got, messages = theirs.read(BAD)
        said[theirs.kinds(messages)].append(at - START)
        if got is None:
            unread.append(at - START)
        else:
            wrong += bool((got != heights).any())
    check("damage.no_heights", "where GDAL gives an error it gives no heights, else all", said["error"], unread)
    return said, wrong


def one_byte():
    whole, heights = good_cell()
    said, wrong = swept(whole, heights)
    fact("damage.ours", f"each of the {LENGTH} bytes of a column damaged in turn: intake refuses each, at a place in that column")
    fact("damage.quiet", f"GDAL on the same: {told(said)}; other heights handed out for {wrong}; its warnings are of bytes "
         f"{said['warning']} of the column, the longitude count",
         said["warning"] == [4, 5] and not said["error"] and wrong == 242)
    theirs.checking(True)
    said, wrong = swept(whole, heights)
    theirs.checking(False)
    fact("damage.verify", f"GDAL on the same with DTED_VERIFY_CHECKSUM=YES: {told(said)}; other heights handed out for {wrong}; "
         f"a warning for byte {said['warning']}, nothing for byte {said['nothing']} of the column, the checksum's high bytes",
         wrong == 0 and (said["warning"], said["nothing"]) == ([LENGTH - 4], [LENGTH - 3]))


def impossible_sum():
    """A checksum that no column can have: GDAL lets the column through."""
    whole, heights = good_cell()
    changed = bytearray(whole)
    changed[START + LENGTH - 4] ^= 2
    changed[START + 20] ^= 1
    store(BAD, bytes(changed))
    theirs.checking(True)
    got, messages = theirs.read(BAD)
    theirs.checking(False)
    other = None if got is None else int((got != heights).sum())
    fact("damage.impossible", "a damaged post and a checksum too large for any column, DTED_VERIFY_CHECKSUM=YES, GDAL having "
         f"warned of such a checksum before: it says {theirs.kinds(messages)} and hands out {other} other height; "
         f"intake: {ours.judge(BAD)}",
         other == 1 and not messages and ours.judge(BAD) == f"refused 5 {START + LENGTH - 4}")


def cut_and_long():
    whole, heights = good_cell()
    store(BAD, whole[:ours.column_at(0, 60)])
    got, messages = theirs.read(BAD)
    as_before = (got[60:] == ours.VOID).all() and (got[:60] == heights[:60]).all()
    fact("damage.cut", f"a file cut after 60 of 121 columns: GDAL says {theirs.kinds(messages)} and answers void for the others; "
         f"intake: {ours.judge(BAD)}", not messages and as_before and ours.judge(BAD) == f"refused 3 {ours.column_at(0, 60)}")
    store(BAD, whole[:-1])
    got, messages = theirs.read(BAD)
    fact("damage.short", f"a file one byte short: GDAL says {theirs.kinds(messages)} and reads none; intake: {ours.judge(BAD)}",
         got is None and theirs.kinds(messages) == "error" and ours.judge(BAD) == f"refused 3 {ours.column_at(0, 120)}")
    store(BAD, whole + b"x")
    got, messages = theirs.read(BAD)
    fact("damage.long", f"a file one byte long: GDAL says {theirs.kinds(messages)}; intake: {ours.judge(BAD)}",
         not messages and (got == heights).all() and ours.judge(BAD) == f"refused 7 {len(whole)}")


def headers():
    """The last byte of each header field made a question mark."""
    whole, heights = good_cell()
    said, same, place, at_place = collections.defaultdict(list), 0, gdal.Open(GOOD).GetGeoTransform(), 0
    for start, width in ours.FIELDS:
        changed = bytearray(whole)
        last = start + width - 1
        changed[last] = ord("?")
        store(BAD, bytes(changed))
        check("damage.fields", f"field at {start}", f"refused 21 {start if start in ours.SEVERAL else last}", ours.judge(BAD))
        got, messages = theirs.read(BAD)
        said[theirs.kinds(messages)].append(start)
        same += got is not None and got.shape == heights.shape and bool((got == heights).all())
        at_place += got is not None and gdal.Open(BAD).GetGeoTransform() == place
    fact("damage.fields", f"each of the {len(ours.FIELDS)} header fields broken in turn: intake refuses each at a place in it; GDAL: "
         f"{told(said)}; errors for the fields at {said['error']}, a warning for {said['warning']}; all posts as before for "
         f"{same}, placed as before {at_place}", (said["error"], said["warning"]) == ([80, 728], [51]) and same == 36)


def moved():
    """One digit of the origin in the UHL."""
    whole, _ = good_cell()
    changed = bytearray(whole)
    changed[6] = ord("9")
    store(BAD, bytes(changed))
    theirs.heard()
    west = gdal.Open(BAD).GetGeoTransform()[0]
    said = theirs.kinds(theirs.heard())
    fact("damage.origin", f"the origin 7 E made 9 E in the UHL alone: GDAL says {said} and places the cell two degrees east; "
         f"intake: {ours.judge(BAD)}", abs(west - (9 - 1 / 240)) < 1e-9 and ours.judge(BAD) == "refused 22 276")


def unseen():
    """What no checksum of this kind can see."""
    whole, _ = good_cell()
    changed = bytearray(whole)
    one, two = slice(START + 8, START + 10), slice(START + 10, START + 12)
    changed[one], changed[two] = whole[two], whole[one]
    store(BAD, bytes(changed))
    theirs.checking(True)
    _, messages = theirs.read(BAD)
    theirs.checking(False)
    fact("damage.swapped", f"two posts of a column exchanged, so that the sum stays: intake: {ours.judge(BAD)}; GDAL with its "
         f"check says {theirs.kinds(messages)}", ours.judge(BAD) == "accepted 0 121 121" and not messages)


def run():
    print("== damage")
    for part in (one_byte, impossible_sum, cut_and_long, headers, moved, unseen):
        part()
