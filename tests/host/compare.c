/* compare.c - compares the library with the second reader and writer on cases from a seed: compare [SEED [CASES [SIDES]]].
 *
 * Prints the seed first, at most 20 reports of differences, and last `N passed, M failed`.
 */
#define _XOPEN_SOURCE 700 /* sigaction, sigaltstack, sigsetjmp, alarm */
#include "compare.h"

#include "asked.h"
#include "both.h"
#include "cells.h"
#include "dted.h"
#include "second.h"
#include "years.h"

#if defined(CHECKED) && !defined(__SANITIZE_ADDRESS__)
#error "the checked program is built without the address checker"
#endif

#include <inttypes.h>
#include <setjmp.h>
#include <signal.h>
#include <stdarg.h>
#include <stdio.h>
#include <stdlib.h>
#include <string.h>
#include <time.h>
#include <unistd.h>

#define MOST_REPORTS 20
#define MOST_SECONDS 120 /* for one case: far more than the longest takes, even in a checked build */
#define CASES 24000

unsigned sides = 2;
uint32_t case_year = DTED_YEAR_2;

static uint64_t seed, case_number, passed, failed, reports;
static bool case_differs;
static char case_name[160];

/* ---- cases ---- */

void name_case(const char *format, ...) {
    va_list list;
    va_start(list, format);
    vsnprintf(case_name, sizeof case_name, format, list);
    va_end(list);
}

/* Counts a difference; true where it is the first of its case and there is room for a report. */
static bool to_report(void) {
    bool first = !case_differs;
    case_differs = true;
    if (!first || reports == MOST_REPORTS)
        return false;
    reports++;
    printf("case %" PRIu64 " of seed %" PRIu64 " (%s): ", case_number, seed, case_name);
    return true;
}

void differ(const char *call, const char *what, uint64_t at, uint64_t library, uint64_t second) {
    if (to_report())
        printf("%s: %s at %" PRIu64 ": %016" PRIX64 ", the second has %016" PRIX64 "\n", call, what, at, library, second);
}

void expect(const char *what, uint64_t library, uint64_t due) {
    if (library != due && to_report())
        printf("%s: %016" PRIX64 ", due is %016" PRIX64 "\n", what, library, due);
}

uint64_t refusal(uint64_t number, uint64_t place) {
    return number << 56 | place;
}

static sigjmp_buf out_of_case;

static void on_signal(int number) {
    siglongjmp(out_of_case, number);
}

/* On a stack of its own: a call that uses up the stack is a fault like another. */
static void catch_signals(void) {
    static const int numbers[] = {SIGSEGV, SIGBUS, SIGILL, SIGTRAP, SIGFPE, SIGALRM, SIGABRT};
    static uint8_t room[1 << 16];
    stack_t stack;
    struct sigaction action;
    memset(&stack, 0, sizeof stack);
    memset(&action, 0, sizeof action);
    stack.ss_sp = room;
    stack.ss_size = sizeof room;
    sigaltstack(&stack, NULL);
    action.sa_handler = on_signal;
    action.sa_flags = SA_ONSTACK;
    for (size_t i = 0; i < COUNT(numbers); i++)
        sigaction(numbers[i], &action, NULL);
}

void run_case(void (*body)(const void *), const void *context) {
    case_number++;
    case_differs = false;
    name_case("not named");
    both_year(case_year);
    if (sides == 1)
        both_side(case_number % 2 == 0 ? AT_START : AT_END);
    alarm(MOST_SECONDS);
    int number = sigsetjmp(out_of_case, 1);
    if (number == 0)
        body(context);
    else if (to_report())
        printf("%s: signal %d: it %s\n", both_calling, number,
               number == SIGALRM ? "does not return" : "touches a byte that it was not lent, or stops");
    alarm(0);
    if (case_differs)
        failed++;
    else
        passed++;
}

static int64_t height_made(const struct cell *cell, uint64_t column, uint64_t post) {
    const uint8_t *word = cell->grid + 2 * (column * cell->posts + post);
    int64_t value = word[0] * 256 + word[1];
    return value < 0x8000 ? value : value - 0x10000;
}

/* ---- what is due of cells as they were made ---- */

static bool voids_allowed(const struct cell *cell) {
    return cell->items[DTED_PARTIAL] != 0 && (case_year == 1 || cell->items[DTED_LEVEL] == 2);
}

/* Of one column: 0 where it is good, 3 where it was not made, 6 where it has a void that is not allowed. */
static uint64_t due_of_column(const struct cell *cell, size_t column) {
    size_t start = CELL_HEADERS + column * cell->column_bytes;
    if (column >= cell_columns_made(cell))
        return refusal(3, start);
    size_t post = voids_allowed(cell) ? cell->posts : cell_first_void(cell, column);
    return post < cell->posts ? refusal(6, start + 8 + 2 * post) : 0;
}

static uint64_t due_of_intake(const struct cell *cell) {
    uint64_t due = 0;
    for (size_t k = 0; k < cell->columns && due == 0; k++)
        due = due_of_column(cell, k);
    return due != 0 ? due : second_grid((uint64_t)cell->items[DTED_LEVEL], cell->items[DTED_LATITUDE]);
}

static bool is_accepted(const struct cell *cell) {
    return cell->whole && due_of_intake(cell) >> 56 == 0;
}

/* ---- cells, judged and read ---- */

static void expect_whole(const struct cell *cell, dted_answer intake, const int64_t *items) {
    expect("intake", intake.bits, due_of_intake(cell));
    if (dted_number(intake) == 0) {
        expect("intake: level", dted_level(intake), (uint64_t)cell->items[DTED_LEVEL]);
        expect("intake: columns", dted_columns(intake), cell->columns);
        expect("intake: posts", dted_posts(intake), cell->posts);
        expect("intake: length", dted_cell_length(intake), cell->length);
    }
    for (int i = 0; i < CELL_ITEMS; i++)
        expect("an item as it was made", (uint64_t)items[i], (uint64_t)cell->items[i]);
}

static void look_up(struct random *random, const struct cell *cell) {
    for (int i = 0; i < 6; i++) {
        uint64_t column = any_column(random, cell), post = any_post(random, cell);
        dted_answer answer = both_post(column, post);
        if (cell->whole && column < cell->columns && post < cell->posts)
            expect("post", dted_number(answer) == 0 ? 0 : answer.bits, due_of_column(cell, column));
        if (cell->whole && dted_number(answer) == 0)
            expect("a height as it was made", (uint64_t)dted_height(answer), (uint64_t)height_made(cell, column, post));
    }
    for (int i = 0; i < 8; i++) {
        dted_answer answer = both_position(any_latitude(random, cell), any_longitude(random, cell));
        if (cell->whole && dted_number(answer) == 0)
            expect("a nearest height as it was made", (uint64_t)dted_height(answer),
                   (uint64_t)height_made(cell, dted_position_column(answer), dted_position_post(answer)));
    }
}

/* How often each field was refused with 21, 22 and 23. */
static uint64_t seen[CELL_FIELDS][3];

static dted_answer see(dted_answer answer) {
    unsigned number = dted_number(answer);
    if (number >= DTED_FIELD_IMPOSSIBLE && number <= DTED_FIELD_OFF_TABLE) {
        size_t f = cell_field_at(dted_place(answer));
        if (f < CELL_FIELDS)
            seen[f][number - DTED_FIELD_IMPOSSIBLE]++;
    }
    return answer;
}

static void judge_and_read(struct random *random, const struct cell *cell) {
    int64_t items[CELL_ITEMS];
    both_lend(cell->bytes, cell->length);
    dted_answer intake = see(both_intake());
    both_describe(items);
    if (cell->whole)
        expect_whole(cell, intake, items);
    look_up(random, cell);
    for (int i = 0; i < 4; i++)
        both_edit(any_column(random, cell), any_post(random, cell), any_height(random));
    both_intake();
    years_unknown(random, cell);
}

/* One replaced byte of a column is refused, with a place in that column. */
static void replace_bytes(struct random *random, struct cell *cell) {
    for (int i = 0; i < 4; i++) {
        size_t column = random_below(random, cell->columns);
        size_t start = CELL_HEADERS + column * cell->column_bytes, at = start + random_below(random, cell->column_bytes);
        uint8_t kept = cell->bytes[at];
        cell->bytes[at] ^= (uint8_t)(1 + random_below(random, 255));
        both_lend(cell->bytes, cell->length);
        dted_answer answer = both_intake();
        expect("a replaced byte is refused", dted_number(answer) != 0, 1);
        expect("in its column", start <= dted_place(answer) && dted_place(answer) < start + cell->column_bytes, 1);
        cell->bytes[at] = kept;
    }
}

/* ---- headers ---- */

/* Headers to a field: where a case is run on one side alone, an emulator is at work. */
static uint64_t headers_to_field(void) {
    return sides == 1 ? 100 : 1000;
}

/* Headers of any level with this field spoiled, and at times another one. */
static void spoiled_field_case(const void *context) {
    size_t f = *(const size_t *)context;
    struct random random = random_of_case(seed, UINT64_C(1) << 40 | f);
    uint8_t headers[CELL_HEADERS];
    int64_t items[CELL_ITEMS];
    name_case("headers, the field at %zu spoiled", cell_fields[f].offset);
    for (uint64_t i = 0; i < headers_to_field(); i++) {
        cell_items(&random, random_between(&random, 0, 2), items);
        cell_make_headers(&random, items, headers);
        cell_spoil_field(&random, headers, f);
        if (random_one_in(&random, 4))
            cell_spoil_field(&random, headers, random_below(&random, CELL_FIELDS));
        both_side(i % 2 == 0 ? AT_START : AT_END);
        both_lend(headers, sizeof headers);
        see(both_describe(items));
    }
}

/* Each field was often refused with each number that it can give, and never with another. */
static void seen_case(const void *context) {
    (void)context;
    uint64_t all[3] = {0, 0, 0};
    for (size_t f = 0; f < CELL_FIELDS; f++)
        for (unsigned n = 0; n < 3; n++) {
            bool can = n == 0 || cell_fields[f].besides == DTED_FIELD_IMPOSSIBLE + n;
            name_case("refusals %u seen in the field at %zu", DTED_FIELD_IMPOSSIBLE + n, cell_fields[f].offset);
            expect("often or never", can ? seen[f][n] >= headers_to_field() / 20 : seen[f][n] == 0, 1);
            all[n] += seen[f][n];
        }
    for (unsigned n = 0; n < 3; n++)
        expect("in all fields", all[n] >= headers_to_field(), 1);
}

/* ---- edits ---- */

static void put_height(struct cell *cell, uint64_t column, uint64_t post, int64_t height) {
    uint8_t *word = cell->grid + 2 * (column * cell->posts + post);
    word[0] = (uint8_t)((uint64_t)height >> 8 & 0xFF);
    word[1] = (uint8_t)((uint64_t)height & 0xFF);
}

static bool is_negative_zero(const uint8_t *word) {
    return word[0] == 0x80 && word[1] == 0;
}

static bool has_negative_zero(const uint8_t *column, size_t posts) {
    size_t p = 0;
    while (p < posts && !is_negative_zero(column + 8 + 2 * p))
        p++;
    return p < posts;
}

/* Edits of posts that had the word 8000, and edits that left this word elsewhere in the column. */
static uint64_t edits_of_zeros, edits_beside_zeros;

/* An accepted edit, on the made cell: its grid's height, the word that a writer gives, and the column's checksum. */
static void edit_made(struct cell *cell, uint64_t column, uint64_t post, int64_t height) {
    uint8_t *start = cell->bytes + CELL_HEADERS + column * cell->column_bytes, *word = start + 8 + 2 * post;
    uint64_t size = (uint64_t)(height < 0 ? -height : height);
    edits_of_zeros += is_negative_zero(word);
    word[0] = (uint8_t)(size / 256 + (height < 0 ? 128 : 0));
    word[1] = (uint8_t)(size % 256);
    edits_beside_zeros += has_negative_zero(start, cell->posts);
    cell_mend_checksum(cell, column);
    put_height(cell, column, post, height);
}

/* The bytes are the old ones but for the edited words and their columns' checksums. A column without the word 8000 is the one that is
 * written afresh from its heights; one with it is not, since writers write 0000. */
static void expect_edited(const struct cell *cell) {
    uint8_t afresh[DTED_LONGEST_COLUMN];
    expect("the old bytes, edited words and checksums", memcmp(both_cell(), cell->bytes, cell->length) != 0, 0);
    for (size_t k = 0; k < cell_columns_made(cell); k++) {
        const uint8_t *column = both_cell() + CELL_HEADERS + k * cell->column_bytes;
        uint64_t answer = second_write_column(afresh, sizeof afresh, (uint64_t)cell->items[DTED_LEVEL], k,
                                              cell->grid + 2 * k * cell->posts, 2 * cell->posts);
        expect("a column is written", answer, 0);
        expect("a column written afresh", memcmp(column, afresh, cell->column_bytes) == 0, !has_negative_zero(column, cell->posts));
    }
}

/* Without such edits the comparison would show less than it says. */
static void zeros_case(const void *context) {
    uint64_t cases = *(const uint64_t *)context;
    name_case("edits that met the word 8000");
    expect("edits of such posts", edits_of_zeros > cases / 100, 1);
    expect("edits beside such posts", edits_beside_zeros > cases / 100, 1);
}

static void years_case(const void *context) {
    expect_years_seen(*(const uint64_t *)context);
}

static uint64_t due_of_edit(const struct cell *cell, uint64_t column, uint64_t post, int64_t height) {
    bool allowed = (height >= -12000 && height <= 9000) || (voids_allowed(cell) && height == DTED_VOID);
    if (column >= cell->columns || post >= cell->posts)
        return refusal(8, 0);
    uint64_t due = due_of_column(cell, column);
    return due != 0 ? due : allowed ? 0 : refusal(11, 0);
}

/* A sequence of edits that all name one year. */
static void edit_often(struct random *random, struct cell *cell, int edits) {
    both_lend(cell->bytes, cell->length);
    for (int i = 0; i < edits; i++) {
        uint64_t column = any_column(random, cell), post = any_post(random, cell);
        int64_t height = any_height(random);
        uint64_t due = due_of_edit(cell, column, post, height);
        expect("edit", both_edit(column, post, height).bits, due);
        if (due == 0) {
            edit_made(cell, column, post, height);
            expect("an edited height", (uint64_t)dted_height(both_post(column, post)), (uint64_t)height);
        }
    }
    expect_edited(cell);
    expect("intake after edits", both_intake().bits, due_of_intake(cell));
}

/* ---- writers ---- */

static size_t near_length(struct random *random, size_t due) {
    switch (random_below(random, 20)) {
    case 0: return 0;
    case 1: return due - 1;
    case 2: return due + 1;
    case 3: return due - 2;
    case 4: return due + 2;
    case 5: return random_below(random, due);
    default: return due;
    }
}

static size_t near_room(struct random *random, size_t due) {
    switch (random_below(random, 12)) {
    case 0: return due - 1;
    case 1: return random_below(random, due);
    case 2: return 0;
    case 3: return due + 1;
    case 4: return due + random_below(random, 4000);
    default: return due;
    }
}

/* What was written is read back in the same year: the description, posts, and each column as the column writer makes it. */
static void read_back(struct random *random, struct cell *cell) {
    int64_t items[CELL_ITEMS];
    both_lend(both_out(), cell->length);
    dted_answer intake = both_intake();
    both_describe(items);
    expect("a written cell is accepted", dted_number(intake), 0);
    expect_whole(cell, intake, items);
    look_up(random, cell);
    for (int i = 0; i < 4; i++) {
        size_t k = random_below(random, cell->columns);
        both_write_column(cell->column_bytes, false, (uint64_t)items[DTED_LEVEL], k, cell->grid + 2 * k * cell->posts,
                          2 * cell->posts);
        expect("a column written alone",
               memcmp(both_out(), both_cell() + CELL_HEADERS + k * cell->column_bytes, cell->column_bytes) != 0, 0);
    }
    if (cell->columns == 21 && random_one_in(random, 8))
        for (uint64_t i = 0; i < 21 * 121; i++) {
            dted_answer answer = both_post(i / 121, i % 121);
            expect("each height", (uint64_t)dted_height(answer), (uint64_t)height_made(cell, i / 121, i % 121));
        }
}

static void spoil_heights(struct random *random, struct cell *cell) {
    for (uint64_t count = random_below(random, 3); count > 0; count--) {
        uint64_t kind = random_below(random, 4);
        uint64_t column = kind == 0 ? cell->columns - 1 : random_below(random, cell->columns);
        put_height(cell, column, kind < 2 ? cell->posts - 1 : random_below(random, cell->posts), any_height(random));
    }
}

static void write_any(struct random *random, struct cell *cell) {
    int64_t items[CELL_ITEMS];
    memcpy(items, cell->items, sizeof items);
    for (uint64_t count = random_one_in(random, 3) ? random_below(random, 3) : 0; count > 0; count--) {
        uint64_t item = random_below(random, CELL_ITEMS);
        items[item] = random_odd_number(random, items[item]);
    }
    size_t room = near_room(random, cell->length), bytes = near_length(random, cell->grid_bytes);
    dted_answer answer = both_write(room, random_one_in(random, 2), items, cell->grid, bytes);
    if (dted_number(answer) == 0 && memcmp(items, cell->items, sizeof items) == 0)
        read_back(random, cell);
}

static void write_columns(struct random *random) {
    static const size_t posts[] = {121, 1201, 3601};
    uint8_t grid[2 * 3601 + 2];
    for (int i = 0; i < 8; i++) {
        uint64_t level = random_below(random, 3), zone_one = posts[level];
        size_t due = 2 * posts[level];
        cell_heights(random, true, grid, 3602);
        if (random_one_in(random, 3)) {
            size_t at = random_below(random, posts[level]);
            grid[2 * at] = (uint8_t)random_next(random);
            grid[2 * at + 1] = (uint8_t)random_next(random);
        }
        uint64_t number = random_one_in(random, 6) ? random_odd_index(random, 7) : random_below(random, zone_one + 1);
        uint64_t told = random_one_in(random, 10) ? random_odd_index(random, level) : level;
        both_write_column(near_room(random, due + 12), random_one_in(random, 2), told, number, grid, near_length(random, due));
    }
}

/* ---- cases from the seed ---- */

enum kind { DAMAGED, WHOLE, EDITS, WRITE, COLUMNS };
static const char *const kind_names[] = {"reading", "reading", "edits", "writing", "single columns"};

struct plan {
    uint64_t number;
    enum kind kind;
    int64_t level;
    bool whole_cell; /* and not some columns of it */
};

/* Six of ten cases are damaged cells. One in 60 is a whole cell of level 1, three in 6,000 of level 2: read, edited, written. One
 * sequence of edits in two is of the front of a cell of level 1 or 2. */
static struct plan plan_of(uint64_t number) {
    static const enum kind kinds[10] = {DAMAGED, EDITS, DAMAGED, WRITE, DAMAGED, WHOLE, DAMAGED, COLUMNS, DAMAGED, DAMAGED};
    struct plan plan = {number, kinds[number % 10], 0, true};
    if (number % 6000 == 3000 || number % 6000 == 3001 || number % 6000 == 3003)
        plan.level = 2;
    else if (number % 60 == 30 + number / 60 % 10)
        plan.level = 1;
    else if (plan.kind == DAMAGED && number % 4 == 0) {
        plan.level = number % 8 == 0 ? 1 : 2;
        plan.whole_cell = false;
    } else if (plan.kind == EDITS && number % 20 == 11) {
        plan.level = number % 40 == 11 ? 1 : 2;
        plan.whole_cell = false;
    }
    return plan;
}

static struct cell cell, kept;

static void keep_cell(struct cell *to, const struct cell *from) {
    uint8_t *grid = realloc(to->grid, from->grid_bytes + 2), *bytes = realloc(to->bytes, from->room);
    if (grid == NULL || bytes == NULL) {
        perror("realloc");
        exit(2);
    }
    *to = *from;
    to->grid = grid;
    to->bytes = bytes;
    memcpy(grid, from->grid, from->grid_bytes + 2);
    memcpy(bytes, from->bytes, from->length);
}

static void run_kind(enum kind kind, struct random random) {
    if (kind == DAMAGED || kind == WHOLE)
        judge_and_read(&random, &cell);
    if (kind == WHOLE && is_accepted(&cell))
        replace_bytes(&random, &cell);
    if (kind == EDITS)
        edit_often(&random, &cell, cell.posts == 121 ? 40 : 12);
    if (kind == WRITE)
        write_any(&random, &cell);
    if (kind == COLUMNS)
        write_columns(&random);
}

/* The cell of a case, as it is before the calls. */
static void make_cell(struct random *random, const struct plan *plan) {
    int64_t items[CELL_ITEMS];
    cell_items(random, plan->level, items);
    if (plan->kind == COLUMNS)
        return;
    cell_make(random, items, plan->whole_cell ? SIZE_MAX : random_below(random, 6), &cell);
    if (plan->kind == DAMAGED)
        cell_damage(random, &cell);
    if (plan->kind == WRITE && random_one_in(random, 2))
        spoil_heights(random, &cell);
    keep_cell(&kept, &cell);
}

/* The same case twice: the untouchable page stands before the lent bytes, then after them. Of the two one is in year 1, now this and
 * now that, and the other in year 2. */
static void seeded_case(const void *context) {
    const struct plan *plan = context;
    struct random random = random_of_case(seed, plan->number);
    make_cell(&random, plan);
    for (unsigned i = 0; i < 2; i++) {
        case_year = 1 + (i + plan->number / 10) % 2;
        name_case("level %d, %s, %s, year %u, at the pages' %s", (int)plan->level, kind_names[plan->kind],
                  plan->kind == COLUMNS ? "no cell" : cell.damage, (unsigned)case_year, i == 0 ? "start" : "end");
        both_year(case_year);
        both_side(i == 0 ? AT_START : AT_END);
        if (i == 1 && plan->kind != COLUMNS)
            keep_cell(&cell, &kept);
        run_kind(plan->kind, random);
    }
    if (plan->kind == DAMAGED || plan->kind == WHOLE)
        years_on_cell(&random, &kept);
    if (plan->kind == WRITE)
        years_in_writer(&kept);
}

static uint64_t number_of(const char *text) {
    char *end;
    uint64_t number = strtoull(text, &end, 0);
    if (*text == '\0' || *end != '\0') {
        fprintf(stderr, "compare [SEED [CASES [SIDES]]]: '%s' is no number\n", text);
        exit(2);
    }
    return number;
}

int main(int count, char **texts) {
    seed = count > 1 ? number_of(texts[1]) : (uint64_t)time(NULL);
    uint64_t cases = count > 2 ? number_of(texts[2]) : CASES;
    sides = count > 3 && number_of(texts[3]) == 1 ? 1 : 2;
    printf("seed %" PRIu64 "\n", seed);
    fflush(stdout);
    both_open();
    catch_signals();
    run_answer_cases();
    run_word_cases();
    run_fixed_cases();
    run_literal_cases();
    run_literal_year_cases();
    run_part_cases();
    run_stored_cases();
    for (uint64_t number = 0; number < cases; number++) {
        struct plan plan = plan_of(number);
        run_case(seeded_case, &plan);
    }
    case_year = DTED_YEAR_2;
    for (size_t f = 0; f < CELL_FIELDS; f++)
        run_case(spoiled_field_case, &f);
    run_case(seen_case, NULL);
    if (cases >= 400) { /* fewer may not meet one */
        run_case(zeros_case, &cases);
        run_case(years_case, &cases);
    }
    cell_free(&cell);
    cell_free(&kept);
    printf("%" PRIu64 " passed, %" PRIu64 " failed\n", passed, failed);
    return failed == 0 ? 0 : 1;
}
