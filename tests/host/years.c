/* years.c - the rule years: an unknown one in every call, and what years 1 and 2 make of the same bytes. */
#include "years.h"

#include "asked.h"
#include "both.h"
#include "compare.h"
#include "dted.h"

#include <stdio.h>
#include <stdlib.h>
#include <string.h>

void years_unknown(struct random *random, const struct cell *cell) {
    uint32_t year = any_unknown_year(random);
    uint64_t due = refusal(17, year), column = any_column(random, cell), post = any_post(random, cell);
    int64_t items[CELL_ITEMS];
    memcpy(items, cell->items, sizeof items);
    if (random_one_in(random, 2))
        items[random_below(random, CELL_ITEMS)] = random_odd_number(random, 0);
    both_year(year);
    expect("intake of an unknown year", both_intake().bits, due);
    expect("post of an unknown year", both_post(column, post).bits, due);
    expect("position of an unknown year", both_position(any_latitude(random, cell), any_longitude(random, cell)).bits, due);
    expect("edit of an unknown year", both_edit(column, post, any_height(random)).bits, due);
    expect("write of an unknown year", both_write(random_below(random, 40), true, items, NULL, 0).bits, due);
    both_year(case_year);
}

/* ---- years 1 and 2 ---- */

enum call { INTAKE, POST, POSITION, EDIT, WRITE, CALLS };

/* How often year 2 refused a void that year 1 took, and how often both took one: by call and level. */
static uint64_t refused_in_2[CALLS][3], taken_in_both[CALLS][3];

/* The answers of one call in year 1 and in year 2, of a cell with these items. They are the same, but where the cell is partial and
 * below level 2: there year 2 may have refused a void, and nothing else. So what year 2 takes year 1 takes, too, and answers alike. */
static void expect_years(enum call call, const int64_t *items, const dted_answer *in, bool refused_void) {
    if (in[1].bits == in[2].bits)
        return;
    expect("years differ: a partial cell below level 2", items[DTED_LEVEL] < 2 && items[DTED_PARTIAL] != 0, 1);
    expect("years differ: year 2 refuses a void", refused_void, 1);
    refused_in_2[call][items[DTED_LEVEL]]++;
}

/* Whether 6 was told of a void in the lent cell. */
static bool refused_stored(dted_answer answer) {
    return dted_number(answer) == DTED_WORD && memcmp(both_cell() + dted_place(answer), "\xFF\xFF", 2) == 0;
}

/* A lookup in both years. */
static void expect_looked_up(enum call call, const int64_t *items, const dted_answer *in) {
    expect_years(call, items, in, refused_stored(in[2]));
    if (dted_number(in[1]) == DTED_OK && dted_number(in[2]) == DTED_OK && dted_height(in[1]) == DTED_VOID)
        taken_in_both[call][items[DTED_LEVEL]]++;
}

/* A post, and the position that it has; where there is one, the column's first void half of the time. */
struct asked {
    uint64_t column, post;
    int64_t latitude, longitude;
};

static struct asked any_asked(struct random *random, const struct cell *cell) {
    struct asked asked = {any_column(random, cell), any_post(random, cell), 0, 0};
    bool made = asked.column < cell_columns_made(cell);
    if (made && random_one_in(random, 2) && cell_first_void(cell, asked.column) < cell->posts)
        asked.post = cell_first_void(cell, asked.column);
    bool there = made && asked.post < cell->posts && !random_one_in(random, 4);
    int64_t east = 36000 / ((int64_t)cell->columns - 1), north = 36000 / ((int64_t)cell->posts - 1);
    asked.latitude = there ? cell->items[DTED_LATITUDE] * 36000 + (int64_t)asked.post * north : any_latitude(random, cell);
    asked.longitude = there ? cell->items[DTED_LONGITUDE] * 36000 + (int64_t)asked.column * east : any_longitude(random, cell);
    return asked;
}

static void read_in_both(const struct asked *asked, const int64_t *items) {
    dted_answer post[3], position[3];
    for (uint32_t year = 1; year <= 2; year++) {
        both_year(year);
        post[year] = both_post(asked->column, asked->post);
        position[year] = both_position(asked->latitude, asked->longitude);
    }
    expect_looked_up(POST, items, post);
    expect_looked_up(POSITION, items, position);
}

/* Room that is used again, for what a call in year 1 left. */
static uint8_t *room_for(size_t length) {
    static uint8_t *room;
    static size_t most;
    if (length > most || room == NULL) {
        most = length;
        room = realloc(room, length + 1);
    }
    if (room == NULL) {
        perror("realloc");
        exit(2);
    }
    return room;
}

/* One edit of the same bytes in both years, of a void half of the time: where the answers are the same the bytes are, too. */
static void edit_in_both(struct random *random, const struct cell *cell, const int64_t *items) {
    dted_answer in[3];
    uint64_t column = any_column(random, cell), post = any_post(random, cell);
    int64_t height = random_one_in(random, 2) ? DTED_VOID : any_height(random);
    uint8_t *left = room_for(cell->length);
    for (uint32_t year = 1; year <= 2; year++) {
        both_year(year);
        both_lend(cell->bytes, cell->length);
        in[year] = both_edit(column, post, height);
        if (year == 1)
            memcpy(left, both_cell(), cell->length);
    }
    bool given = dted_number(in[2]) == DTED_HEIGHT && height == DTED_VOID;
    expect_years(EDIT, items, in, given || refused_stored(in[2]));
    if (in[1].bits == in[2].bits)
        expect("edited alike", memcmp(left, both_cell(), cell->length) == 0, 1);
    if (in[1].bits == 0 && in[2].bits == 0 && height == DTED_VOID)
        taken_in_both[EDIT][items[DTED_LEVEL]]++;
}

void years_on_cell(struct random *random, const struct cell *cell) {
    dted_answer in[3];
    int64_t items[CELL_ITEMS];
    both_lend(cell->bytes, cell->length);
    if (dted_number(both_describe(items)) != DTED_OK)
        items[DTED_LEVEL] = 2; /* headers that say nothing are answered alike, as level 2 is */
    for (uint32_t year = 1; year <= 2; year++) {
        both_year(year);
        in[year] = both_intake();
    }
    expect_years(INTAKE, items, in, refused_stored(in[2]));
    for (int i = 0; i < 3; i++) {
        struct asked asked = any_asked(random, cell);
        read_in_both(&asked, items);
    }
    edit_in_both(random, cell, items);
    both_year(case_year);
}

void years_in_writer(const struct cell *cell) {
    dted_answer in[3];
    uint8_t *left = room_for(cell->length);
    for (uint32_t year = 1; year <= 2; year++) {
        both_year(year);
        in[year] = both_write(cell->length, false, cell->items, cell->grid, cell->grid_bytes);
        if (year == 1)
            memcpy(left, both_out(), cell->length);
    }
    const uint8_t *height = cell->grid + 2 * (dted_number(in[2]) == DTED_HEIGHT ? dted_place(in[2]) : 0);
    expect_years(WRITE, cell->items, in, dted_number(in[2]) == DTED_HEIGHT && height[0] == 0x80 && height[1] == 0x01);
    if (in[1].bits == in[2].bits)
        expect("written alike", memcmp(left, both_out(), cell->length) == 0, 1);
    both_year(case_year);
}

/* Voids were refused in year 2 alone at levels 0 and 1, and taken in both years at level 2. */
void expect_years_seen(uint64_t cases) {
    static const char *const names[CALLS] = {"intake", "posts", "positions", "edits", "writing"};
    for (int64_t level = 0; level <= 2; level++)
        for (enum call call = INTAKE; call < CALLS; call++) {
            name_case("voids met at level %d by %s", (int)level, names[call]);
            uint64_t least = cases / (call == WRITE && level == 1 ? 12000 : 500); /* few cells of level 1 are written */
            if (level < 2)
                expect("refused in year 2 alone", refused_in_2[call][level] >= least, 1);
            else if (call == POST || call == POSITION || call == EDIT)
                expect("taken in both years", taken_in_both[call][level] >= least, 1);
            expect("never taken in both", level < 2 && taken_in_both[call][level] > 0, 0);
        }
}
