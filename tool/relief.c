/* relief.c - dted relief: a shaded relief of a cell, as a PGM picture with a pixel for each post: north up, light from the
 * north-west, voids black. */
#define _POSIX_C_SOURCE 200809L
#include "commands.h"
#include "files.h"
#include "numbers.h"
#include "say.h"

#include <errno.h>
#include <fcntl.h>
#include <math.h>
#include <stdlib.h>
#include <sys/stat.h>
#include <unistd.h>

/* An accepted cell, and how many metres apart its columns and its posts are. */
struct map {
    const struct cell *cell;
    double east, north;
};

/* The rise from one post to another, `apart` metres on; none where a void ends it. */
static double slope(int from, int to, double apart) {
    return from == DTED_VOID || to == DTED_VOID ? 0 : (to - from) / apart;
}

/* The light on a post from 1 to 255, by its slope to the posts beside it; 0 where it is void. */
static uint8_t shade(const struct map *map, size_t column, size_t post) {
    const struct cell *cell = map->cell;
    if (height_of(cell, column, post) == DTED_VOID)
        return 0;
    size_t west = column > 0 ? column - 1 : column, east = column + 1 < dted_columns(cell->grid) ? column + 1 : column;
    size_t south = post > 0 ? post - 1 : post, north = post + 1 < dted_posts(cell->grid) ? post + 1 : post;
    double x = slope(height_of(cell, west, post), height_of(cell, east, post), (double)(east - west) * map->east);
    double y = slope(height_of(cell, column, south), height_of(cell, column, north), (double)(north - south) * map->north);
    /* The surface's normal is (-x, -y, 1), and the light stands at (-1, 1, sqrt 2): 45 degrees up. */
    double light = (x - y + sqrt(2)) / (2 * sqrt(x * x + y * y + 1));
    return light > 0 ? (uint8_t)(1 + 254 * light) : 1; /* also where slopes are beyond all numbers */
}

/* Writes the picture as a file; `-` is standard output. */
static int write_picture(const char *name, size_t width, size_t rows, const uint8_t *pixels) {
    bool standard = strcmp(name, "-") == 0;
    int descriptor = standard ? STDOUT_FILENO : open(name, O_WRONLY | O_CREAT | O_TRUNC, 0666);
    char heading[48];
    int length = snprintf(heading, sizeof heading, "P5\n%zu %zu\n255\n", width, rows);
    bool good = descriptor >= 0 && write_all(descriptor, heading, (size_t)length) && write_all(descriptor, pixels, width * rows);
    const char *why = strerror(errno);
    if (descriptor >= 0 && !standard && close(descriptor) != 0 && good) {
        good = false;
        why = strerror(errno);
    }
    return good ? DONE : complain(TROUBLE, standard ? "standard output" : name, why);
}

/* Shades every post, row after row from the north, and writes the picture. */
static int draw(const struct map *map, const char *picture) {
    size_t width = dted_columns(map->cell->grid), rows = dted_posts(map->cell->grid);
    uint8_t *pixels = malloc(width * rows);
    if (!pixels)
        return complain(TROUBLE, picture, strerror(errno));
    for (size_t row = 0; row < rows; row++)
        for (size_t column = 0; column < width; column++)
            pixels[row * width + column] = shade(map, column, rows - 1 - row);
    int status = write_picture(picture, width, rows, pixels);
    free(pixels);
    return status;
}

/* Whether the picture would be written over the cell that it is drawn from. */
static bool is_same_file(const char *cell, const char *picture) {
    struct stat from, to;
    int there = strcmp(cell, "-") == 0 ? fstat(STDIN_FILENO, &from) : stat(cell, &from);
    if (there != 0 || strcmp(picture, "-") == 0 || stat(picture, &to) != 0)
        return false;
    return S_ISREG(to.st_mode) && from.st_dev == to.st_dev && from.st_ino == to.st_ino;
}

/* A degree is 60 nautical miles, and along a parallel shorter by the cosine of its latitude. */
int relief(struct cell *cell, char **words) {
    static const double degree = 60 * 1852.0, radian = 57.29577951308232;
    int64_t items[DTED_ITEMS];
    double times = 1;
    if (words[2] && !take_factor(words[2], &times))
        return TROUBLE;
    if (is_same_file(words[0], words[1]))
        return complain(TROUBLE, words[1], "this is the cell itself");
    int status = take_described(cell, words[0], items);
    if (status != DONE)
        return status;
    double middle = ((double)items[DTED_LATITUDE] + 0.5) / radian;
    double north = degree / (dted_posts(cell->grid) - 1) / times;
    double east = degree * cos(middle) / (dted_columns(cell->grid) - 1) / times;
    struct map map = {cell, east, north};
    return draw(&map, words[1]);
}
