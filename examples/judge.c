/* judge.c - judges a cell, prints its description and some posts, and corrects one post.
 *
 *     judge CELL                              judge and print
 *     judge CELL COLUMN POST HEIGHT OUT       also make one post that height, in metres or "void", and write the cell as OUT
 *
 * Exit status: 0 done, 1 refused, 2 a file or an argument is wrong.
 */
#include "files.h"

#include <string.h>

/* The rule year of every call on a cell: a host that reads deliveries from before it names DTED_YEAR_1 for those. */
enum { YEAR = DTED_YEAR_2 };

/* One line for each item; its name goes by its number, one more than its index. */
static void print_items(const int64_t *items) {
    for (int i = 0; i < DTED_ITEMS; i++) {
        printf("  %-28s  ", dted_item_name((uint64_t)i + 1));
        if (i == DTED_SECURITY || i == DTED_MATCH_VERSION)
            printf("%c\n", (int)items[i]);
        else if (i == DTED_DATUM)
            printf("%s\n", items[i] == DTED_E96 ? "E96" : "MSL");
        else if (i >= DTED_ACCURACY && i <= DTED_RELATIVE_VERTICAL && items[i] == DTED_NOT_AVAILABLE)
            printf("not available\n");
        else
            printf("%" PRId64 "\n", items[i]);
    }
}

/* One post, as column, number and height. */
static int print_post(const uint8_t *cell, size_t length, uint64_t column, uint64_t post) {
    dted_answer answer = dted_post(YEAR, cell, length, column, post);
    if (dted_number(answer) != DTED_OK)
        return refused("post", answer);
    printf("  column %4" PRIu64 ", post %4" PRIu64 ": ", column, post);
    if (dted_height(answer) == DTED_VOID)
        printf("void\n");
    else
        printf("%d m\n", dted_height(answer));
    return DONE;
}

/* The post nearest the middle of the cell, found by its position in tenths of arc-seconds. */
static int print_middle(const uint8_t *cell, size_t length, const int64_t *items) {
    int64_t latitude = items[DTED_LATITUDE] * DTED_DEGREE + DTED_DEGREE / 2, longitude = items[DTED_LONGITUDE] * DTED_DEGREE + DTED_DEGREE / 2;
    dted_answer answer = dted_position(YEAR, cell, length, latitude, longitude);
    if (dted_number(answer) != DTED_OK)
        return refused("position", answer);
    return print_post(cell, length, dted_position_column(answer), dted_position_post(answer));
}

/* Judges the cell, and prints its description, its four corners and the post in its middle. */
static int judge(const char *name, const uint8_t *cell, size_t length) {
    int64_t items[DTED_ITEMS];
    dted_answer answer = dted_intake(YEAR, cell, length);
    if (dted_number(answer) != DTED_OK)
        return refused(name, answer);
    uint64_t east = dted_columns(answer) - 1, north = dted_posts(answer) - 1;
    printf("%s: level %u, %u columns of %u posts\n", name, dted_level(answer), dted_columns(answer), dted_posts(answer));
    answer = dted_describe(cell, length, items);
    if (dted_number(answer) != DTED_OK)
        return refused(name, answer);
    print_items(items);
    for (int i = 0; i < 4; i++)
        if (print_post(cell, length, i < 2 ? 0 : east, i % 2 ? north : 0) != DONE)
            return REFUSED;
    return print_middle(cell, length, items);
}

/* Makes one post the height that was asked for, and writes the cell under its new name. The numbers go to the library as they
 * came: it refuses what is off the grid or no height, and then it has changed nothing. */
static int correct(uint8_t *cell, size_t length, char **arguments) {
    int64_t column, post, height = DTED_VOID;
    if (!is_number(arguments[0], &column) || !is_number(arguments[1], &post))
        return TROUBLE;
    if (strcmp(arguments[2], "void") != 0 && !is_number(arguments[2], &height))
        return TROUBLE;
    dted_answer answer = dted_edit(YEAR, cell, length, (uint64_t)column, (uint64_t)post, height);
    if (dted_number(answer) != DTED_OK)
        return refused("correction", answer);
    printf("corrected:\n");
    int status = print_post(cell, length, (uint64_t)column, (uint64_t)post);
    return status == DONE ? write_file(arguments[3], cell, length) : status;
}

int main(int count, char **arguments) {
    if (count != 2 && count != 6) {
        fprintf(stderr, "usage: judge CELL [COLUMN POST HEIGHT OUT]\n");
        return TROUBLE;
    }
    size_t length;
    uint8_t *cell = read_file(arguments[1], &length);
    if (!cell)
        return TROUBLE;
    int status = judge(arguments[1], cell, length);
    if (status == DONE && count == 6)
        status = correct(cell, length, arguments + 2);
    free(cell);
    return status;
}
