/* write.c - makes a cell from a formula and writes it: mountains by a coast, the same on every machine.
 *
 *     write OUT [LEVEL LATITUDE LONGITUDE]       level 0, 46 north, 7 east where they are left out
 *
 * Exit status: 0 done, 1 refused, 2 a file or an argument is wrong.
 */
#include "files.h"

enum { DEGREE = DTED_DEGREE, ONE = 1024 };

/* What a corner of a lattice gives to a point `east` and `north` of it, in parts of ONE: each corner has a slope of its own. */
static int64_t corner(int64_t x, int64_t y, int64_t side, int64_t east, int64_t north) {
    uint32_t n = (uint32_t)x * 1717587071u + (uint32_t)y * 1886930407u + (uint32_t)side * 1108690381u;
    n = (n ^ n >> 15) * 1242996239u;
    n = (n ^ n >> 13) * 2136601949u;
    return (((int64_t)(n >> 20) - 2 * ONE) * east + ((int64_t)(n >> 8 & 0xFFF) - 2 * ONE) * north) / ONE;
}

/* From a to b, by a part of ONE, leaving a and reaching b level. */
static int64_t between(int64_t a, int64_t b, int64_t part) {
    int64_t curve = part * part * part * (part * (6 * part - 15 * ONE) + 10 * ONE * ONE) / ONE / ONE / ONE / ONE;
    return a + (b - a) * curve / ONE;
}

/* Smooth hills and hollows, from about -ONE to ONE, over a lattice of squares with this side. */
static int64_t hills(int64_t x, int64_t y, int64_t side) {
    int64_t i = x / side, j = y / side, east = x % side * ONE / side, north = y % side * ONE / side;
    int64_t south_edge = between(corner(i, j, side, east, north), corner(i + 1, j, side, east - ONE, north), east);
    north -= ONE;
    int64_t north_edge = between(corner(i, j + 1, side, east, north), corner(i + 1, j + 1, side, east - ONE, north), east);
    return between(south_edge, north_edge, north + ONE);
}

/* The height in metres at a place, in tenths of arc-seconds from the south-west corner: a ridge wherever hills turn to hollows,
 * finer ridges on the flanks of coarser ones, and land that rises from the sea in the south-west. */
static int64_t formula(int64_t x, int64_t y) {
    int64_t land = (x + 2 * y) * ONE / DEGREE / 3 + hills(x, y, 11000) / 3 - ONE / 6, ridges = 0, weight = ONE;
    for (int64_t side = 8000, share = ONE; share >= ONE / 16; side /= 2, share /= 2) {
        int64_t turned = (4 * x - 3 * y) / 5 + 2 * DEGREE;
        y = (3 * x + 4 * y) / 5;
        x = turned;
        int64_t ridge = ONE - llabs(hills(x, y, side));
        ridge = ridge > 0 ? ridge * ridge / ONE : 0;
        ridges += ridge * weight / ONE * share / ONE;
        weight = ridge;
    }
    int64_t height = land / 4 + ridges * land / ONE * 3;
    return height < 0 ? 0 : height;
}

/* The grid that dted_write takes: two bytes for each post, column after column from the west and each from the south. */
static uint8_t *make_grid(dted_answer grid, size_t *bytes) {
    size_t columns = dted_columns(grid), posts = dted_posts(grid);
    *bytes = 2 * columns * posts;
    uint8_t *heights = malloc(*bytes), *next = heights;
    for (size_t column = 0; heights && column < columns; column++)
        for (size_t post = 0; post < posts; post++) {
            size_t x = column * DEGREE / (columns - 1), y = post * DEGREE / (posts - 1);
            dted_put_height(next, (int)formula((int64_t)x, (int64_t)y));
            next += 2;
        }
    return heights;
}

/* Makes the cell and writes it as a file. */
static int make(const char *name, const int64_t *items, dted_answer grid) {
    size_t bytes, length = dted_cell_length(grid);
    uint8_t *heights = make_grid(grid, &bytes), *cell = malloc(length);
    int status = TROUBLE;
    if (heights && cell) {
        dted_answer answer = dted_write(DTED_YEAR_2, cell, length, items, heights, bytes);
        status = dted_number(answer) == DTED_OK ? write_file(name, cell, length) : refused(name, answer);
    } else {
        perror(name);
    }
    free(heights);
    free(cell);
    return status;
}

int main(int count, char **arguments) {
    if (count != 2 && count != 5) {
        fprintf(stderr, "usage: write OUT [LEVEL LATITUDE LONGITUDE]\n");
        return TROUBLE;
    }
    int64_t items[DTED_ITEMS] = {
        [DTED_LEVEL] = 0,
        [DTED_LATITUDE] = 46,
        [DTED_LONGITUDE] = 7,
        [DTED_SECURITY] = 'U',
        [DTED_EDITION] = 1,
        [DTED_MATCH_VERSION] = 'A',
        [DTED_DATUM] = DTED_E96,
        [DTED_ACCURACY] = DTED_NOT_AVAILABLE,
        [DTED_ABSOLUTE_HORIZONTAL] = DTED_NOT_AVAILABLE,
        [DTED_ABSOLUTE_VERTICAL] = DTED_NOT_AVAILABLE,
        [DTED_RELATIVE_HORIZONTAL] = DTED_NOT_AVAILABLE,
        [DTED_RELATIVE_VERTICAL] = DTED_NOT_AVAILABLE,
        [DTED_PARTIAL] = 0,
    };
    for (int i = 2; i < count; i++)
        if (!is_number(arguments[i], &items[DTED_LEVEL + i - 2]))
            return TROUBLE;
    dted_answer grid = dted_grid((uint64_t)items[DTED_LEVEL], items[DTED_LATITUDE]);
    return dted_number(grid) == DTED_OK ? make(arguments[1], items, grid) : refused("grid", grid);
}
