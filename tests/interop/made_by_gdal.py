"""Cells that GDAL writes: what intake says of them, as GDAL leaves them and once their accuracies are in form."""
import os
import subprocess

import numpy as np
from osgeo import gdal

import ours
import places
import theirs
from counting import check, fact

PATH, OURS = "gdal.dt", "ours.dt"
ACCURACIES = slice(731, 747)
# docs/GDAL.md gives these two commands: how a file is mended, and how it is made well
MEND = "printf 'NA  NA  NA  NA  ' | dd of=FILE bs=1 seek=731 conv=notrunc status=none"
MAKE = "gdal_translate -of DTED " + " ".join(f"-mo {item}=NA" for item in theirs.ACCURACIES) + " SOURCE FILE"


def load(path):
    with open(path, "rb") as file:
        return file.read()


def store(path, whole):
    with open(path, "wb") as file:
        file.write(whole)


def forget():
    """GDAL keeps metadata in a side file; no test may see another's."""
    for path in (PATH, PATH + ".aux.xml"):
        if os.path.exists(path):
            os.remove(path)


def made(latitude, longitude, columns, metadata):
    forget()
    return theirs.make(PATH, latitude, longitude, columns, metadata)


def mend(path):
    """Sets the four accuracies to not available, in the form that is due, by the page's command."""
    before = load(path)
    subprocess.run(MEND.replace("FILE", path), shell=True, check=True)
    check("theirs.mend", path, before[:731] + b"NA  " * 4 + before[747:], load(path))


# ---- every level and zone ----

def plain(name, latitude, longitude, columns, lines):
    """As GDAL writes without being told more: a NUL in each accuracy."""
    check("theirs.silent", name, [], made(latitude, longitude, columns, {}))
    check("theirs.nul", name, b"NA\0 " * 4, load(PATH)[ACCURACIES])
    check("theirs.plain", name, ("refused 21 731",) * 2, ours.judged(PATH))
    mend(PATH)
    check("theirs.mended", name, lines, ours.judged(PATH))


def told(name, latitude, longitude, columns, lines):
    """With the accuracies given as metadata of the source."""
    made(latitude, longitude, columns, theirs.NOT_AVAILABLE)
    check("theirs.metadata", name, lines, ours.judged(PATH))


def same_posts(name, level, columns):
    year, posts, every = ours.year_of(level, columns), columns.shape[1], places.LOOKED_UP[level]
    check("theirs.columns", name, True, load(PATH)[ours.HEADERS:] == load(OURS)[ours.HEADERS:])
    check("theirs.words", name, True, np.array_equal(ours.posts(PATH, posts, year), columns))
    check("theirs.lookups", name, True, np.array_equal(ours.lookups(PATH, posts, every, year), columns[::every]))


def coverage(columns):
    """The indicator as GDAL counts it: 0, or the posts that are there to the hundred, 1 to 99."""
    share = 100 * float((columns != ours.VOID).mean())
    return 0 if share == 100 else max(1, int(share))


def one(level, latitude, longitude, seed):
    name = places.named(level, latitude, longitude)
    items = ours.items(level, latitude, longitude, seed)
    columns = ours.heights(seed, items[ours.PARTIAL] != 0, *ours.size(level, latitude))
    ours.write(level, latitude, longitude, OURS, seed)
    lines = ours.lines_of(level, columns)
    plain(name, latitude, longitude, columns, lines)
    same_posts(name, level, columns)
    told(name, latitude, longitude, columns, lines)
    same_posts(name, level, columns)
    made(latitude, longitude, columns, theirs.metadata_due(items))
    check("theirs.items", name, items[:ours.PARTIAL], ours.describe(PATH)[:ours.PARTIAL])
    check("theirs.partial", name, coverage(columns), ours.describe(PATH)[ours.PARTIAL])


# ---- what is told once ----

def ramp(columns=121, posts=121):
    """A small cell of plain heights."""
    return (np.arange(columns * posts).reshape(columns, posts) % 5000 - 1000).astype(np.int16)


def header_bytes():
    """Where GDAL's headers differ from our writer's, the items being the same."""
    ours.write(0, 46, 7, OURS, 2)
    made(46, 7, theirs.read(OURS)[0], theirs.metadata_due(ours.items(0, 46, 7, 2)))
    pairs = [(at, *pair) for at, pair in enumerate(zip(load(PATH)[:ours.HEADERS], load(OURS))) if pair[0] != pair[1]]
    in_field = [at for at, _, _ in pairs if any(start <= at < start + width for start, width in ours.FIELDS)]
    nuls = [at for at, left, right in pairs if (left, right) == (0, ord(" "))]
    blanks = [at for at, left, right in pairs if (left, right) == (ord(" "), ord("0"))]
    fact("theirs.headers", f"with the same items GDAL's headers differ from ours in free bytes only: NUL for blank at {nuls}, "
         f"blank for 0 at {blanks}", len(nuls) + len(blanks) == len(pairs) and not in_field)
    check("theirs.headers", "intake", "accepted 0 121 121", ours.judge(PATH))


def side_file():
    made(46, 7, ramp(), {})
    without = os.path.exists(PATH + ".aux.xml")
    made(46, 7, ramp(), theirs.NOT_AVAILABLE)
    fact("theirs.side_file", "with metadata GDAL writes a side file .aux.xml beside the cell; without, none",
         (without, os.path.exists(PATH + ".aux.xml")) == (False, True))


def by_command(command, origin):
    """Runs a gdal_translate command on a source."""
    forget()
    words = command.replace("SOURCE", origin).replace("FILE", PATH).split()
    done = subprocess.run(words, capture_output=True, text=True, check=False)
    check("theirs.translated", command, (0, ""), (done.returncode, done.stderr))


def translated():
    """gdal_translate, of a cell that we wrote and of a GeoTIFF."""
    plainly = "gdal_translate -of DTED SOURCE FILE"
    for seed in (2, 3):
        ours.write(0, 46, 7, OURS, seed)
        by_command(plainly, OURS)
        items = ours.items(0, 46, 7, seed)
        check("theirs.translated", "items", items[:ours.PARTIAL], ours.describe(PATH)[:ours.PARTIAL])
        check("theirs.translated", "columns", load(OURS)[ours.HEADERS:], load(PATH)[ours.HEADERS:])
        if seed == 3:
            fact("theirs.partial", f"a partial cell with the indicator {items[ours.PARTIAL]:02d} has "
                 f"{ours.describe(PATH)[ours.PARTIAL]:02d} after gdal_translate: GDAL counts afresh, per cent of posts there",
                 ours.describe(PATH)[ours.PARTIAL] == coverage(ours.heights(3, True, 121, 121)))
    gdal.GetDriverByName("GTiff").CreateCopy("plain.tif", theirs.source(46, 7, ramp(), {}))
    by_command(plainly, "plain.tif")
    check("theirs.translated", "a GeoTIFF without -mo", "refused 21 731", ours.judge(PATH))
    by_command(MAKE, "plain.tif")
    check("theirs.translated", "a GeoTIFF with four -mo", "accepted 0 121 121", ours.judge(PATH))


def heights_out_of_range():
    """GDAL writes every 16-bit number, and reads some of them back as others."""
    column, post, seen = 3, 20, []
    for height in (9000, 9001, -12000, -12001, -16000, -16001, 32767, -32766, -32768):
        columns = np.zeros((121, 121), dtype=np.int16)
        columns[column, post] = height
        silent = made(46, 7, columns, theirs.NOT_AVAILABLE) == []
        allowed = -12000 <= height <= 9000 or height == -32768  # of which it makes a word for 0
        due = "accepted 0 121 121" if allowed else f"refused 6 {ours.post_at(0, column, post)}"
        check("theirs.range", f"height {height}", (due, True), (ours.judge(PATH), silent))
        back = int(theirs.read(PATH)[0][column, post])
        if back != height:
            seen.append((height, back))
    fact("theirs.range", "GDAL writes heights outside -12000 to 9000 without a word; we refuse the cell as 6 at the post, but for -32768")
    fact("theirs.read_back", "written and read by GDAL: " + ", ".join(f"{a} comes back as {b}" for a, b in seen),
         seen == [(-16001, -16767), (-32766, -2), (-32768, 0)])


def lowest_number():
    """-32768, which many rasters have where nothing is known: as a height, and as the source's own no-data value."""
    column, post = 3, 20
    columns = np.zeros((121, 121), dtype=np.int16)
    columns[column, post] = -32768
    at = ours.post_at(0, column, post)
    made(46, 7, columns, theirs.NOT_AVAILABLE)
    word, line, read = load(PATH)[at:at + 2], ours.judge(PATH), int(ours.posts(PATH, 121)[column, post])
    fact("theirs.lowest", f"-32768 given to GDAL: it writes {word.hex()}; intake: {line}, and the post reads {read}",
         (word, line, read) == (b"\x80\x00", "accepted 0 121 121", 0))
    forget()
    raster = theirs.source(46, 7, columns, theirs.NOT_AVAILABLE)
    raster.GetRasterBand(1).SetNoDataValue(-32768)
    gdal.GetDriverByName("DTED").CreateCopy(PATH, raster)
    word, lines, read = load(PATH)[at:at + 2], ours.judged(PATH), int(ours.posts(PATH, 121, 1)[column, post])
    fact("theirs.no_data", f"the same as the source's no-data value: it writes {word.hex()}; intake in year 1: {lines[0]}, and the post "
         f"reads {read}; in year 2: {lines[1]}",
         (word, lines, read) == (b"\xff\xff", ("accepted 0 121 121", f"refused 6 {at}"), ours.VOID))


def loose_metadata():
    """Metadata that GDAL writes into the headers as they are given."""
    cases = (("DTED_DataEdition", b"7 ", 167, "refused 21 167"), ("DTED_VerticalAccuracy_UHL", b"30  ", 28, "refused 21 28"),
             ("DTED_HorizontalAccuracy", b"30  ", 731, "refused 21 731"), ("DTED_HorizontalDatum", b"WGS72", 224, "refused 21 227"),
             ("DTED_SecurityCode_UHL", b"R  ", 32, "refused 22 83"), ("DTED_SecurityCode_DSI", b"R", 83, "refused 22 83"))
    for item, filled, at, due in cases:
        text = filled.decode().strip()
        made(46, 7, ramp(), {**theirs.NOT_AVAILABLE, item: text})
        check("theirs.loose", f"{item}={text}", filled, load(PATH)[at:at + len(filled)])
        line = ours.judge(PATH)
        fact("theirs.loose", f"metadata {item}={text} is written so; intake: {line}", line == due)


def wrong_width():
    """A source with more columns than the zone has, and one with fewer."""
    wide = np.repeat(np.arange(121, dtype=np.int16)[:, None], 121, axis=1)
    told_of = made(60, 7, wide, theirs.NOT_AVAILABLE)
    got = theirs.read(PATH)[0]
    fact("theirs.too_wide", "121 columns at 60 N, where the zone has 61: GDAL warns and writes the 61 western ones, unthinned, "
         f"over the whole degree; the cell is well formed, intake: {ours.judge(PATH)}",
         theirs.kinds(told_of) == "warning" and (got == wide[:61]).all() and ours.judge(PATH) == "accepted 0 61 121")
    told_of = made(46, 7, wide[:61], theirs.NOT_AVAILABLE)
    before = ours.judge(PATH)
    mend(PATH)
    fact("theirs.too_narrow", f"61 columns at 46 N, where the zone has 121: GDAL fails and leaves a file; intake: {before}, "
         f"and with its accuracies mended: {ours.judge(PATH)}",
         theirs.kinds(told_of) == "error" and before == "refused 21 731" and ours.judge(PATH) == "refused 5 3678")


def tape_labels():
    """Records in front of the UHL, which GDAL steps over."""
    ours.write(0, 46, 7, OURS, 2)
    whole = load(OURS)
    store(PATH, b"VOL1".ljust(80) + b"HDR1".ljust(80) + whole)
    got, said = theirs.read(PATH)
    same = got is not None and (got == theirs.read(OURS)[0]).all()
    fact("theirs.tape", f"tape labels in front: GDAL reads the cell and says {theirs.kinds(said)}; intake: {ours.judge(PATH)}",
         same and not said and ours.judge(PATH) == "refused 21 0")


def run():
    print("== cells that GDAL writes, judged and read by us")
    cells = places.every()
    for cell in cells:
        one(*cell)
    print(f"{len(cells)} cells")
    fact("theirs.nul", "GDAL writes each accuracy of the ACC as N, A, a NUL, a blank unless told more; intake: refused 21 731")
    for part in (header_bytes, side_file, translated, heights_out_of_range, lowest_number, loose_metadata, wrong_width, tape_labels):
        forget()
        part()
    forget()
