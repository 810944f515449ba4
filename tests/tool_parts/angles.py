"""dted at: every form of an angle, against exact fractions, and words that are none."""
import random
from fractions import Fraction

from running import ROOT, filled, height, second_writer, stored, told

OFF_GRID = "refused 8: no such column, post or position"
# not angles, as a latitude and as a longitude alike
WRONG = ("", "N", "E", "-", "+", ".", ":", "46.", ".5", "46,5", "46.5.5", "46:30", "46:30:", "46::00", ":30:00", "46:60:00", "46:00:60",
         "46:99999999999999999999:00", "46:30.5:00", "46.5:30:00", "46:30:00:00", "46:30:00.", "46:-30:00", "46:+30:00", "46:30:-1",
         "--46", "+-46", "-46N", "+46N", "-46E", "+46E", "N46", "E46", "46NN", "46EE", "46NE", "46 N", " 46", "46 ", "4 6",
         "46\n", "46:30N:00", "1e2", "0x2E", "nan", "inf", "４６", "46x", "46;30;00", "46.5-", "46:30:00,5")


def tenths(text):
    """The nearest tenth of an arc-second to an angle, of two the one further from 0: by fractions, without the sign or letter."""
    parts = [Fraction(part) for part in text.split(":")]
    exact = sum(part * 36000 / 60**n for n, part in enumerate(parts))
    return int(exact + Fraction(1, 2))


def nearest(value, interval):
    """The number of the post nearest a distance from the first one, of two the lower."""
    return (value + (interval + 1) // 2 - 1) // interval


def forms(text, letters, below):
    """One magnitude in each way to say on which side of 0 it is."""
    up, down = letters
    return (f"-{text}", text + down, text + down.lower()) if below else (text, f"+{text}", text + up, text + up.lower())


def digits(chosen, base):
    """Texts of angles of this degree: all over it, and beside the middle between two posts, where one tenth decides."""
    middle = Fraction(300 * chosen.randrange(120) + 150, 36000) + Fraction(1, 72000)
    near = str(int(middle * 10**30)).zfill(30)
    yield f"{base}.{chosen.randrange(10**9):09d}"
    yield f"{base}.{near}"
    yield f"{base}.{near[:-1]}{chosen.randrange(10)}{'9' * chosen.randrange(40)}"
    yield f"{base}:{chosen.randrange(60):02d}:{chosen.randrange(60)}.{chosen.randrange(1000)}"
    yield f"00{base}:{chosen.randrange(60)}:{chosen.choice((15, 45))}.0{chosen.choice(('4', '49', '5', '50', '51', '4' + '9' * 60))}"


def everywhere(folder):
    """Positions in two cells, one north and east of 0, the other south and west of it."""
    chosen = random.Random(2)
    for south, west, below in ((46, 7, False), (-47, -8, True)):
        cell = second_writer.repeated(0, south, west)
        filled(folder / "cell", cell)
        for _ in range(12):
            for latitude, longitude in zip(digits(chosen, 46), digits(chosen, 7)):
                north, east = (-tenths(text) if below else tenths(text) for text in (latitude, longitude))
                post, column = nearest(north - south * 36000, 300), nearest(east - west * 36000, 300)
                words = chosen.choice(forms(latitude, "NS", below)), chosen.choice(forms(longitude, "EW", below))
                told(f"at {words}", ("at", folder / "cell", *words), f"{height(cell, column, post)} column {column} post {post}\n")


def halves(folder):
    """Half a tenth goes away from 0: beside a cell that ends there, off its grid; and in a decimal, at a finest grid's middle."""
    for south, word, inside in ((0, "-0:00:00.04", True), (0, "-0:00:00.05", False), (-1, "0:00:00.04", True), (-1, "0:00:00.05", False),
                                (0, "0:00:00.05S", False), (-1, "0.0000138888", True), (-1, "0.0000138889", False)):
        cell = filled(folder / "cell", second_writer.repeated(0, south, 7))
        post = 0 if south == 0 else 120
        line = f"{height(cell.read_bytes(), 60, post)} column 60 post {post}\n"
        off = f"dted: {cell}: {OFF_GRID}\n"
        told(f"at {word}", ("at", cell, word, "7.5"), *(line, "", 0) if inside else ("", off, 1))
    cell = second_writer.repeated(2, 89, 7)
    filled(folder / "cell", cell)
    for word, post in (("89.002375", 9), ("89.00237499999999999999999999", 8), ("89.0023750", 9), ("89:0:8.55", 9), ("89:0:8.5", 8)):
        told(f"at {word}", ("at", folder / "cell", word, "7"), f"{height(cell, 0, post, 3601)} column 0 post {post}\n")


def wide(folder):
    """As many digits as there is room for; what is off the grid goes to the library."""
    cell = filled(folder / "cell", stored("terrain.dt0")[0])
    nines = "9" * 100000
    for latitude in ("0" * 1000 + "46.5", "46.5" + "0" * 100000, f"46.4999{nines}", "46:30:00.00" + nines[:1000], "46:0030:00"):
        told("many digits", ("at", cell, latitude, "7.5E"), "486 column 60 post 60\n")
    for latitude, longitude in ((nines, "7.5"), (f"-{nines}.5", "7.5"), ("46.5", f"{nines}:59:59.9W"), (str(2**64 + 46), "7.5"),
                                (str(2**59 + 46), "7.5"), ("46.5", "367.5"), ("46.5", "-7.5"), ("7.5", "46.5"), ("91", "7"),
                                ("47:00:00.1", "7.5"), ("46.5", "6.9999")):
        told("off the grid", ("at", cell, latitude, longitude), errors=f"dted: {cell}: {OFF_GRID}\n", status=1)
    west = ROOT / "cells/west_180.dt0"
    told("180 by its other name", ("at", west, "0.5", "180E"), f"{height(west.read_bytes(), 0, 60)} column 0 post 60\n")
    void = ROOT / "cells/void_in_partial.dt0"
    told("a void", ("at", "--year", 1, void, "90", "1"), "void column 20 post 120\n")
    told("the word 8000", ("at", ROOT / "cells/negative_zero.dt0", "89:30:30", "0.1"), "0 column 2 post 61\n")


def wrong(folder):
    cell = filled(folder / "cell", stored("terrain.dt0")[0])
    for word in (*WRONG, "46E", "46W", "46.5e"):
        told(f"latitude {word!r}", ("at", cell, word, "7"), errors=f"dted: {word}: not a latitude\n".replace("6\n:", "6?:"), status=2)
    for word in (*WRONG, "7N", "7S", "7.5n"):
        told(f"longitude {word!r}", ("at", cell, "46", word), errors=f"dted: {word}: not a longitude\n".replace("6\n:", "6?:"), status=2)


def test(folder):
    everywhere(folder)
    halves(folder)
    wide(folder)
    wrong(folder)
