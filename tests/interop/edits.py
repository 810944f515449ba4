"""Edits in place: the bytes that dted_edit and GDAL's update mode change, on good columns and on damaged ones."""
import collections
import os

import numpy as np
from osgeo import gdal

import ours
import theirs
from counting import check, fact
from damage import BAD, COLUMN, GOOD, LENGTH, START, damaged, good_cell
from made_by_gdal import load, store

POST = 50


def changed_bytes(before, after):
    return [at for at, (one, two) in enumerate(zip(before, after)) if one != two] + ([-1] if len(before) != len(after) else [])


def on_good_cells():
    """Both make the same bytes."""
    most = 0
    for level, latitude, longitude, column, post in ((0, 46, 7, 5, 50), (1, -51, -180, 600, 1200), (2, 89, 179, 0, 0)):
        for height in (-12000, -1, 0, 9000):
            ours.write(level, latitude, longitude, GOOD, 2)
            before = load(GOOD)
            check("edit.accepted", f"level {level}", "", ours.edit(GOOD, column, post, height))
            after = load(GOOD)
            store(BAD, before)
            said = theirs.change(BAD, column, post, height)
            check("edit.same", f"level {level}, height {height}", (True, []), (after == load(BAD), said))
            end = ours.column_at(level, column + 1)
            six = {ours.post_at(level, column, post), ours.post_at(level, column, post) + 1, *range(end - 4, end)}
            check("edit.six", f"level {level}, height {height}", True, set(changed_bytes(before, after)) <= six)
            most = max(most, len(changed_bytes(before, after)))
    fact("edit.same", "one post of a good cell: dted_edit and GDAL's update mode make the same file; at most "
         f"{most} bytes differ from before")


def laundered(check_sums):
    """Each byte of a column damaged in turn, then another post of it written through GDAL."""
    whole, _ = good_cell()
    lines, messages = collections.Counter(), collections.Counter()
    theirs.checking(check_sums)
    for at in range(START, START + LENGTH):
        if at - START in (8 + 2 * POST, 9 + 2 * POST):
            continue
        damaged(whole, at)
        said = theirs.change(BAD, COLUMN, POST, 123)
        messages[theirs.kinds(said)] += 1
        lines[" ".join(ours.judge(BAD).split()[:2])] += 1
    theirs.checking(False)
    return lines, messages


def listed(counts):
    return ", ".join(f"{word} {count}" for word, count in sorted(counts.items()))


def on_damaged_columns():
    lines, messages = laundered(False)
    fact("edit.laundered", "each byte of a column damaged in turn, then another post of it written through GDAL, which says "
         f"{listed(messages)}: intake afterwards: {listed(lines)}", messages["error"] == 0 and lines["accepted 0"] > 240)
    lines, messages = laundered(True)
    fact("edit.verified", f"the same with DTED_VERIFY_CHECKSUM=YES: GDAL says {listed(messages)}; intake afterwards: "
         f"{listed(lines)}", messages["error"] == 250 and lines["accepted 0"] == 2)


def ours_on_damaged_columns():
    whole, _ = good_cell()
    for at in range(START, START + LENGTH):
        damaged(whole, at)
        before = load(BAD)
        line = ours.edit(BAD, COLUMN, POST, 123)
        check("edit.refused", f"byte {at}", (True, True), (line.startswith("refused "), load(BAD) == before))
    fact("edit.refused", f"the same {LENGTH} damages and dted_edit: each refused, no byte changed")


def the_damage_stays():
    """What laundering leaves: a wrong height under a right checksum."""
    whole, heights = good_cell()
    at = ours.post_at(0, COLUMN, 70)
    damaged(whole, at + 1)
    before = ours.judge(BAD)
    theirs.change(BAD, COLUMN, POST, 123)
    got = int(theirs.read(BAD)[0][COLUMN, 70])
    fact("edit.damage_stays", f"a damaged post, intake: {before}; after GDAL wrote another post: {ours.judge(BAD)}, and the "
         f"damaged one still reads {got}, not {int(heights[COLUMN, 70])}",
         before.startswith("refused 5") and ours.judge(BAD) == "accepted 0 121 121" and got != heights[COLUMN, 70])


def whole_columns():
    """A whole column written through GDAL."""
    whole, _ = good_cell()
    damaged(whole, START + 20)
    before = load(BAD)
    theirs.checking(True)
    said = theirs.change(BAD, COLUMN, 120, np.zeros(121))
    theirs.checking(False)
    places = changed_bytes(before, load(BAD))
    fact("edit.column", "a whole damaged column written through GDAL with DTED_VERIFY_CHECKSUM=YES: it says "
         f"{theirs.kinds(said)}, changes bytes from {places[0]} to {places[-1]}; intake: {ours.judge(BAD)}",
         not said and START <= places[0] and places[-1] < START + LENGTH and ours.judge(BAD) == "accepted 0 121 121")


def negative_zero():
    """The word 8000 in another post of the column: GDAL writes it anew by the way, dted_edit leaves it; read, the two files are one."""
    whole, _ = good_cell()
    changed = bytearray(whole)
    at = ours.post_at(0, COLUMN, 70)
    changed[at:at + 2] = b"\x80\x00"
    changed[START + LENGTH - 4:START + LENGTH] = sum(changed[START:START + LENGTH - 4]).to_bytes(4, "big")
    store(GOOD, bytes(changed))
    store(BAD, bytes(changed))
    before = ours.judge(GOOD)
    check("edit.other_word", "dted_edit", "", ours.edit(GOOD, COLUMN, POST, 123))
    theirs.change(BAD, COLUMN, POST, 123)
    left, made = load(GOOD)[at:at + 2], load(BAD)[at:at + 2]
    heights = [ours.posts(GOOD, 121), ours.posts(BAD, 121), theirs.read(GOOD)[0], theirs.read(BAD)[0]]
    alike = all(np.array_equal(one, heights[0]) for one in heights)
    fact("edit.other_word", f"the word 8000 in another post, intake: {before}; dted_edit leaves it {left.hex()}, GDAL's update makes it "
         f"{made.hex()}; both read the same heights in both files: {alike}, {int(heights[0][COLUMN, 70])} in that post",
         before == "accepted 0 121 121" and (left, made) == (b"\x80\x00", b"\0\0") and alike and heights[0][COLUMN, 70] == 0)
    others = set(changed_bytes(load(GOOD), load(BAD))) - {at, *range(START + LENGTH - 4, START + LENGTH)}
    check("edit.other_word", "bytes that differ besides that word and the checksum", set(), others)


def not_allowed():
    """Heights out of range, and void in a complete cell."""
    whole, _ = good_cell()
    at = ours.post_at(0, COLUMN, POST)
    for height in (9001, -12001, ours.VOID):
        store(BAD, whole)
        check("edit.not_allowed", f"ours, {height}", ("refused 11 0", whole), (ours.edit(BAD, COLUMN, POST, height), load(BAD)))
        said = theirs.change(BAD, COLUMN, POST, height)
        fact("edit.not_allowed", f"{height} into a complete cell: dted_edit refuses 11; GDAL says {theirs.kinds(said)} and "
             f"writes it; intake: {ours.judge(BAD)}", not said and ours.judge(BAD) == f"refused 6 {at}")
        check("edit.not_allowed", f"the partial indicator, {height}", b"00", load(BAD)[369:371])


def void_in_partial():
    """A void into a cell that is partial and has none, by level and year: where it is done, GDAL makes the same file."""
    for level, latitude in ((0, 46), (1, 89), (2, 89)):
        ours.write(level, latitude, 7, GOOD, 2)
        whole = bytearray(load(GOOD))
        whole[369:371] = b"01"
        store(BAD, whole)
        said = theirs.change(BAD, COLUMN, POST, ours.VOID)
        changed, at = load(BAD), ours.post_at(level, COLUMN, POST)
        done = []
        for year in (1, 2):
            store(GOOD, whole)
            due = ("", changed) if year == 1 or level == 2 else ("refused 11 0", bytes(whole))
            got = ours.edit(GOOD, COLUMN, POST, ours.VOID, year), load(GOOD)
            check("edit.not_allowed", f"void, level {level}, year {year}", due, got)
            done.append(got[0] or "does it")
        lines = ours.judged(BAD)
        fact("edit.not_allowed", f"void into a partial cell of level {level}: in year 1 dted_edit {done[0]}, in year 2 {done[1]}; GDAL says "
             f"{theirs.kinds(said)} and writes it; intake in year 1: {lines[0]}; in year 2: {lines[1]}",
             not said and lines[0].startswith("accepted ") and lines[1] == (lines[0] if level == 2 else f"refused 6 {at}"))


def metadata():
    """Items changed through GDAL do not reach the cell."""
    whole, _ = good_cell()
    store(BAD, whole)
    cell = gdal.Open(BAD, gdal.GA_Update)
    cell.SetMetadataItem("DTED_DataEdition", "55")
    del cell
    shown = gdal.Open(BAD).GetMetadataItem("DTED_DataEdition")
    there = os.path.exists(BAD + ".aux.xml")
    fact("edit.metadata", f"DTED_DataEdition set to 55 in update mode: the cell's bytes stay, GDAL then shows {shown} from a "
         f"side file .aux.xml, dted_describe {ours.describe(BAD)[ours.EDITION]}", load(BAD) == whole and there and shown == "55"
         and ours.describe(BAD)[ours.EDITION] == ours.items(0, 46, 7, 2)[ours.EDITION])
    os.remove(BAD + ".aux.xml")


def run():
    print("== edits")
    for part in (on_good_cells, on_damaged_columns, ours_on_damaged_columns, the_damage_stays, whole_columns, negative_zero,
                 not_allowed, void_in_partial, metadata):
        part()
