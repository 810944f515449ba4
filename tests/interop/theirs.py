"""GDAL's side of the tests: cells opened, made and changed through it, and each message that it gives."""
import re
import subprocess

import numpy as np
from osgeo import gdal, osr

import ours

ACCURACIES = ("DTED_HorizontalAccuracy", "DTED_VerticalAccuracy_ACC", "DTED_RelHorizontalAccuracy", "DTED_RelVerticalAccuracy")
NOT_AVAILABLE = dict.fromkeys(ACCURACIES, "NA")
ERROR = 3  # and 2 is a warning

_messages = []
gdal.DontUseExceptions()
gdal.PushErrorHandler(lambda kind, number, text: _messages.append((kind, " ".join(text.split()))))


def heard():
    """The messages since the last call: (kind, text)."""
    told = _messages[:]
    _messages.clear()
    return told


def kinds(told):
    """error, warning or nothing: the worst of some messages."""
    return {0: "nothing", 2: "warning", 3: "error"}[max((kind for kind, _ in told), default=0)]


def checking(on):
    """Whether GDAL compares checksums."""
    gdal.SetConfigOption("DTED_VERIFY_CHECKSUM", "YES" if on else None)


# ---- reading ----

def turned(rows):
    """GDAL's rows from the north as our columns from the south, and back."""
    return np.ascontiguousarray(rows[::-1].T)


def unturned(columns):
    return np.ascontiguousarray(columns.T[::-1])


def read(path):
    """Heights as our columns, or None where GDAL gives none; and its messages."""
    heard()
    cell = gdal.Open(path)
    rows = cell.ReadAsArray() if cell is not None else None
    return (None if rows is None else turned(rows)), heard()


def placed(latitude, longitude, columns, posts):
    """The geotransform that is due: pixels are a post wide and high, with the post in the middle."""
    east, north = 1 / (columns - 1), 1 / (posts - 1)
    return (longitude - east / 2, east, 0, latitude + 1 + north / 2, 0, -north)


def metadata_due(items):
    """GDAL's metadata for a cell of these items, in the words of its headers."""
    latitude, longitude = ours.origin_texts(items[ours.LATITUDE], items[ours.LONGITUDE])
    return {
        "DTED_NimaDesignator": f"DTED{items[ours.LEVEL]}",
        "DTED_OriginLatitude": latitude,
        "DTED_OriginLongitude": longitude,
        "DTED_SecurityCode_UHL": chr(items[ours.SECURITY]) + "  ",
        "DTED_SecurityCode_DSI": chr(items[ours.SECURITY]),
        "DTED_DataEdition": f"{items[ours.EDITION]:02d}",
        "DTED_MatchMergeVersion": chr(items[ours.VERSION]),
        "DTED_VerticalDatum": ("MSL", "E96")[items[ours.DATUM]],
        "DTED_HorizontalDatum": "WGS84",
        "DTED_VerticalAccuracy_UHL": ours.metres_text(items[ours.ACCURACY]),
        **{name: ours.metres_text(items[ours.ABS_H + at]) for at, name in enumerate(ACCURACIES)},
        "DTED_PartialCellIndicator": f"{items[ours.PARTIAL]:02d}",
    }


# ---- writing ----

def source(latitude, longitude, columns, metadata):
    """A raster in memory with the heights and the place of a cell."""
    rows = unturned(columns)
    raster = gdal.GetDriverByName("MEM").Create("", rows.shape[1], rows.shape[0], 1, gdal.GDT_Int16)
    raster.SetGeoTransform(placed(latitude, longitude, *columns.shape))
    reference = osr.SpatialReference()
    reference.ImportFromEPSG(4326)
    raster.SetProjection(reference.ExportToWkt())
    for name, text in metadata.items():
        raster.SetMetadataItem(name, text)
    raster.GetRasterBand(1).WriteArray(rows)
    return raster


def make(path, latitude, longitude, columns, metadata):
    """Lets GDAL write a cell, and gives its messages."""
    heard()
    made = gdal.GetDriverByName("DTED").CreateCopy(path, source(latitude, longitude, columns, metadata))
    del made
    return heard()


def change(path, column, post, values):
    """Writes heights through GDAL's update mode, from this post to the south of it on; gives its messages."""
    heard()
    cell = gdal.Open(path, gdal.GA_Update)
    values = np.asarray(values, dtype=np.int16).reshape(-1, 1)
    cell.GetRasterBand(1).WriteArray(values, column, cell.RasterYSize - 1 - post)
    del cell
    return heard()


# ---- positions ----

def located(path, places):
    """The column and post that gdallocationinfo reports for each (latitude, longitude) in tenths; None where it has none."""
    feed = "".join(f"{longitude / ours.TENTHS!r} {latitude / ours.TENTHS!r}\n" for latitude, longitude in places)
    words = ["gdallocationinfo", "-xml", "-geoloc", path]
    report = subprocess.run(words, input=feed, capture_output=True, text=True, check=False)
    top = gdal.Open(path).RasterYSize - 1
    found = re.findall(r'<Report pixel="(-?\d+)" line="(-?\d+)">(.*?)</Report>', report.stdout, re.S)
    return [(int(pixel), top - int(line)) if "<Value>" in body else None for pixel, line, body in found]


def warped_half_a_post(path):
    """The nearest heights half a post east and north of each post, by gdalwarp's way; as our columns."""
    cell = gdal.Open(path)
    left, east, _, top, _, south = cell.GetGeoTransform()
    columns, posts = cell.RasterXSize - 1, cell.RasterYSize - 1
    bounds = (left + east / 2, top + south / 2 + posts * south, left + east / 2 + columns * east, top + south / 2)
    made = gdal.Warp("", cell, format="MEM", outputBounds=bounds, width=columns, height=posts, resampleAlg="near")
    return turned(made.ReadAsArray())
