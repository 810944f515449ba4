"""The cells that the tests are run on: each level and zone, both hemispheres, and the meridians where names change."""
import itertools

MERIDIANS = (-180, 179, -1, 0)
# the first and last origin of zones I to V, north and south
NORTH = (0, 49, 50, 69, 70, 74, 75, 79, 80, 89)
SOUTH = tuple(-(near + 1) for near in NORTH)


def numbered(cells):
    """With a seed for each: even ones make complete cells, odd ones partial cells."""
    return [(*cell, seed) for seed, cell in enumerate(cells, start=1)]


def level_0():
    return numbered((0, latitude, longitude) for latitude in NORTH + SOUTH for longitude in (*MERIDIANS, 7))


def level_1():
    return numbered((1, latitude, longitude) for latitude, longitude in zip(NORTH + SOUTH, itertools.cycle(MERIDIANS)))


def level_2():
    latitudes = NORTH[::2] + SOUTH[1::2]
    return numbered((2, latitude, longitude) for latitude, longitude in zip(latitudes, itertools.cycle(MERIDIANS)))


def every():
    return level_0() + level_1() + level_2()


# lookups judge their whole column each time: at levels 1 and 2 some columns are looked up, the first and last among them
LOOKED_UP = (1, 20, 100)


def named(level, latitude, longitude):
    return f"level {level}, origin {latitude} {longitude}"
