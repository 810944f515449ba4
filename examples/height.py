#!/usr/bin/env python3
"""height.py - judges a cell by the shared library, and prints its height at a position.

    height.py LIBRARY CELL LATITUDE LONGITUDE       decimal degrees, north and east positive

Prints metres, or `void`, or `refused NUMBER PLACE`. Exit status: 0 done, 1 refused, 2 a file or an argument is wrong, or the line
could not be written.
"""
import ctypes
import os
import sys

# as dted.h has them; the year 2 is that of new deliveries
OK, VOID, YEAR_2, DEGREE, LONGEST_CELL = 0, -32767, 2, 36000, 25981042


def load(path):
    """The calls that are used. An answer, a struct of one 64-bit number, comes back as the number itself."""
    library = ctypes.CDLL(path)
    cell = [ctypes.c_uint32, ctypes.c_char_p, ctypes.c_size_t]
    library.dted_intake.argtypes = cell
    library.dted_position.argtypes = cell + [ctypes.c_int64, ctypes.c_int64]
    library.dted_intake.restype = library.dted_position.restype = ctypes.c_uint64
    return library


def number(answer):
    return answer >> 56


def place(answer):
    return answer & (1 << 56) - 1


def height(answer):
    """The low 16 bits, in two's complement; other values stand above them."""
    return ctypes.c_int16(answer & 0xFFFF).value


def tenths(text):
    """Degrees as tenths of arc-seconds. 360 stands for all that is further off, on no cell either: the call takes 64 bits."""
    return round(min(max(float(text), -360), 360) * DEGREE)


def look_up(library, cell, latitude, longitude):
    """Judges every column, then reads the post nearest the position: the answer of the first call that refuses, or of the last."""
    answer = library.dted_intake(YEAR_2, cell, len(cell))
    return answer if number(answer) != OK else library.dted_position(YEAR_2, cell, len(cell), latitude, longitude)


def words(answer):
    if number(answer) != OK:
        return f"refused {number(answer)} {place(answer)}"
    return "void" if height(answer) == VOID else str(height(answer))


def main():
    if len(sys.argv) != 5:
        print("usage: height.py LIBRARY CELL LATITUDE LONGITUDE", file=sys.stderr)
        return 2
    try:
        library, latitude, longitude = load(sys.argv[1]), tenths(sys.argv[3]), tenths(sys.argv[4])
        with open(sys.argv[2], "rb") as file:
            cell = file.read(LONGEST_CELL + 1)  # a byte more, so that a file that goes on is refused
        answer = look_up(library, cell, latitude, longitude)
        os.write(1, f"{words(answer)}\n".encode())  # print may keep it, and fail after the end
    except (OSError, ValueError, AttributeError) as trouble:  # the last: a library without the calls
        print(f"height.py: {trouble}", file=sys.stderr)
        return 2
    return int(number(answer) != OK)


sys.exit(main())
