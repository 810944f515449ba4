/* parts.c - cases at the edges of the parts in which the library goes over a column and over a grid: 256 words, 1,024 heights, and what
 * is left after the last whole part. Words, posts and bounds are written out here. */
#include "both.h"
#include "compare.h"
#include "dted.h"
#include "numbers.h"
#include "second.h"

#include <stdbool.h>
#include <string.h>

#define HEADERS 3428
#define MOST_POSTS 3601

static const size_t posts_of[] = {121, 1201, 3601};

/* First and last posts of columns and of some parts; those that a level has not are passed over. */
static const size_t edges[] = {0,    1,    119,  120,  254,  255,  256,  257,  511,  512,  767,  768,  1022, 1023, 1024,
                               1025, 1199, 1200, 2047, 2048, 3071, 3072, 3327, 3328, 3582, 3583, 3584, 3585, 3599, 3600};

static uint8_t front[HEADERS + 12 + 2 * MOST_POSTS];

static void put16(uint8_t *at, unsigned word) {
    at[0] = (uint8_t)(word >> 8);
    at[1] = (uint8_t)word;
}

static void mend_sum(size_t posts) {
    uint8_t *column = front + HEADERS, *check = column + 8 + 2 * posts;
    unsigned sum = 0;
    for (const uint8_t *byte = column; byte < check; byte++)
        sum += *byte;
    put16(check, sum >> 16);
    put16(check + 2, sum & 0xFFFF);
}

/* Headers at 0 N 0 E and their first column, of one word throughout; the cell is cut after it. */
static void make_front(int64_t level, int64_t partial, unsigned word) {
    const int64_t items[BOTH_ITEMS] = {level, 0, 0, 'U', 1, 'A', 1, -1, -1, -1, -1, -1, partial};
    size_t posts = posts_of[level];
    second_headers(front, items);
    memset(front + HEADERS, 0, 8);
    front[HEADERS] = 170;
    for (size_t i = 0; i < posts; i++)
        put16(front + HEADERS + 8 + 2 * i, word);
    mend_sum(posts);
}

/* ---- one word ---- */

struct place {
    int64_t level, partial;
    size_t post;
};

static bool is_allowed(unsigned word, bool voids) {
    return word <= 9000 || (word >= 0x8000 && word <= 0xAEE0) || (word == 0xFFFF && voids);
}

/* A good column goes on to the cut after it; any other is refused at its place. */
static void expect_column(const struct place *place, size_t size, uint64_t number, uint64_t at) {
    both_lend(front, HEADERS + size);
    expect("intake", both_intake().bits, number ? refusal(number, at) : refusal(3, HEADERS + size));
    dted_answer post = both_post(0, place->post);
    expect("post", dted_number(post), number);
    expect("its place", dted_place(post), number ? at : 0);
}

/* Each word alone among many, and with the checksum of another. */
static void word_case(const void *context) {
    static const unsigned words[] = {0, 9000, 9001, 0x7FFF, 0x8000, 0xAEE0, 0xAEE1, 0xFFFE, 0xFFFF};
    const struct place *place = context;
    size_t posts = posts_of[place->level], size = 12 + 2 * posts, at = HEADERS + 8 + 2 * place->post;
    bool voids = place->partial != 0 && (case_year == 1 || place->level == 2);
    name_case("level %d, partial %d, post %zu, year %u", (int)place->level, (int)place->partial, place->post, (unsigned)case_year);
    make_front(place->level, place->partial, 0x1234);
    for (size_t i = 0; i < COUNT(words); i++) {
        put16(front + at, words[i]);
        mend_sum(posts);
        expect_column(place, size, is_allowed(words[i], voids) ? 0 : 6, at);
        put16(front + at, words[i] ^ 0x0100);
        expect_column(place, size, 5, HEADERS + size - 4);
    }
}

/* The largest sums of bytes that a height, a depth and void have: 8,959, -11,775 and void throughout. */
static void full_case(const void *context) {
    static const unsigned words[] = {0x22FF, 0xADFF, 0xFFFF};
    const int64_t *level = context;
    const struct place place = {*level, 1, posts_of[*level] - 1};
    size_t size = 12 + 2 * posts_of[*level];
    bool voids = case_year == 1 || *level == 2;
    name_case("level %d, one word throughout, year %u", (int)*level, (unsigned)case_year);
    for (size_t i = 0; i < COUNT(words); i++) {
        make_front(*level, 1, words[i]);
        expect_column(&place, size, words[i] == 0xFFFF && !voids ? 6 : 0, HEADERS + 8);
    }
}

/* ---- one height ---- */

/* Given to the column writer, which allows voids: done, or 11 at its index. */
static void height_case(const void *context) {
    static const int heights[] = {0, 9000, 9001, -12000, -12001, DTED_VOID, -32766, -32768, 32767};
    static uint8_t grid[2 * MOST_POSTS];
    const struct place *place = context;
    size_t posts = posts_of[place->level];
    name_case("height %zu of a column of level %d", place->post, (int)place->level);
    for (size_t i = 0; i < posts; i++)
        put16(grid + 2 * i, 0x1234);
    for (size_t i = 0; i < COUNT(heights); i++) {
        bool allowed = (heights[i] >= -12000 && heights[i] <= 9000) || heights[i] == DTED_VOID;
        dted_put_height(grid + 2 * place->post, heights[i]);
        expect("column", both_write_column(12 + 2 * posts, false, (uint64_t)place->level, 7, grid, 2 * posts).bits,
               allowed ? 0 : refusal(11, place->post));
    }
}

/* Given to the writer of a whole cell, of level 0 at 0 N: done, or 11 at its index. */
static void grid_case(const void *context) {
    static const int64_t items[BOTH_ITEMS] = {0, 0, 0, 'U', 1, 'A', 1, -1, -1, -1, -1, -1, 0};
    static const int heights[] = {9000, 9001, -12000, -12001, DTED_VOID};
    static uint8_t grid[2 * 121 * 121];
    const size_t *index = context;
    name_case("height %zu of a cell", *index);
    memset(grid, 0, sizeof grid);
    for (size_t i = 0; i < COUNT(heights); i++) {
        bool allowed = heights[i] >= -12000 && heights[i] <= 9000;
        dted_put_height(grid + 2 * *index, heights[i]);
        expect("write", both_write(34162, false, items, grid, sizeof grid).bits, allowed ? 0 : refusal(11, *index));
    }
}

/* ---- all of them ---- */

static void run_level(int64_t level) {
    for (size_t i = 0; i < COUNT(edges); i++) {
        struct place place = {level, 0, edges[i]};
        if (edges[i] >= posts_of[level])
            continue;
        run_case(height_case, &place);
        for (case_year = 1; case_year <= 2; case_year++)
            for (place.partial = 0; place.partial <= 1; place.partial++)
                run_case(word_case, &place);
    }
    for (case_year = 1; case_year <= 2; case_year++)
        run_case(full_case, &level);
    case_year = DTED_YEAR_2;
}

void run_part_cases(void) {
    static const size_t indices[] = {0, 1023, 1024, 2047, 2048, 14335, 14336, 14640};
    for (unsigned side = 0; side < sides; side++) {
        both_side(side == 0 ? AT_START : AT_END);
        for (int64_t level = 0; level <= 2; level++)
            run_level(level);
        for (size_t i = 0; i < COUNT(indices); i++)
            run_case(grid_case, &indices[i]);
    }
}
