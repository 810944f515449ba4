/* info.c - dted info: the description of a cell and what its posts hold. */
#include "commands.h"
#include "say.h"

#include <stdlib.h>
#include <unistd.h>

/* What the posts hold; a place counts posts from the south-west corner, column after column. */
struct found {
    size_t posts, voids, lowest_at, highest_at;
    int lowest, highest;
};

/* One row: a name and what it is. */
static int row(const char *name, const char *value) {
    return say(STDOUT_FILENO, "  %-29s %s\n", name, value);
}

static int number_row(const char *name, int64_t value) {
    char text[24];
    snprintf(text, sizeof text, "%" PRId64, value);
    return row(name, text);
}

/* An item as people write it. */
static int item_row(int item, int64_t value) {
    const char *name = dted_item_name((uint64_t)item + 1);
    char letter[2] = {(char)value, '\0'};
    if (item == DTED_SECURITY || item == DTED_MATCH_VERSION)
        return row(name, letter);
    if (item == DTED_DATUM)
        return row(name, value == DTED_E96 ? "E96" : "MSL");
    if (item >= DTED_ACCURACY && item <= DTED_RELATIVE_VERTICAL && value == DTED_NOT_AVAILABLE)
        return row(name, "not available");
    return number_row(name, value);
}

static int corner_row(const int64_t *items) {
    char text[32];
    int latitude = (int)items[DTED_LATITUDE], longitude = (int)items[DTED_LONGITUDE];
    snprintf(text, sizeof text, "%d%c %d%c", abs(latitude), latitude < 0 ? 'S' : 'N', abs(longitude), longitude < 0 ? 'W' : 'E');
    return row("south-west corner", text);
}

/* A height and the first post that has it; none where every post is void. */
static int height_row(const char *name, const struct cell *cell, const struct found *found, int height, size_t place) {
    size_t posts = dted_posts(cell->grid);
    char text[80];
    if (found->voids == found->posts)
        return row(name, "none");
    snprintf(text, sizeof text, "%d, column %zu, post %zu", height, place / posts, place % posts);
    return row(name, text);
}

/* Takes one more post in. */
static void take_post(struct found *found, int height) {
    size_t place = found->posts++;
    if (height == DTED_VOID) {
        found->voids++;
        return;
    }
    bool first = found->posts == found->voids + 1;
    if (first || height < found->lowest) {
        found->lowest = height;
        found->lowest_at = place;
    }
    if (first || height > found->highest) {
        found->highest = height;
        found->highest_at = place;
    }
}

/* The rows of what the posts hold. */
static int post_rows(const struct cell *cell) {
    struct found found = {0};
    for (size_t column = 0; column < dted_columns(cell->grid); column++)
        for (size_t post = 0; post < dted_posts(cell->grid); post++)
            take_post(&found, height_of(cell, column, post));
    int status = height_row("lowest height", cell, &found, found.lowest, found.lowest_at);
    if (status == DONE)
        status = height_row("highest height", cell, &found, found.highest, found.highest_at);
    if (status == DONE)
        status = number_row("posts", (int64_t)found.posts);
    return status == DONE ? number_row("voids", (int64_t)found.voids) : status;
}

int info(struct cell *cell, char **words) {
    int64_t items[DTED_ITEMS];
    int status = take_described(cell, words[0], items);
    if (status != DONE)
        return status;
    status = say(STDOUT_FILENO, "%s: %s\n", shown(words[0]), grid_words(cell->grid));
    if (status == DONE)
        status = corner_row(items);
    for (int item = 0; status == DONE && item < DTED_ITEMS; item++)
        status = item_row(item, items[item]);
    return status == DONE ? post_rows(cell) : status;
}
