"""Tests of the library against GDAL: each reads what the other writes, and where they differ is measured and printed.

interop.py DIRECTORY: cells are kept there while they are used. TOOL names the built tool, RUN what runs it if anything.
"""
import os
import sys

from osgeo import gdal

import counting
import damage
import edits
import made_by_gdal
import made_by_us
import theirs
import ties
import tk
import zeros


def main():
    print(f"GDAL {gdal.VersionInfo('RELEASE_NAME')}: cells that we write, GDAL's cells, ties, damage, edits, the word 8000; then tkimg")
    os.chdir(sys.argv[1])
    for part in (made_by_us, made_by_gdal, ties, damage, edits, zeros, tk):
        theirs.checking(False)
        counting.guarded(part.run)
    counting.cited(os.environ["PAGE"], (made_by_gdal.MEND, made_by_gdal.MAKE))
    sys.exit(counting.end())


main()
