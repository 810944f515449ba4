/* answers.c - what the header takes out of each kind of answer, and that a host with DTED_CHECK is stopped where it takes amiss. */
#define _XOPEN_SOURCE 700 /* fork, setrlimit */
#include "compare.h"
#include "numbers.h"
#include "takers.h"

#include <signal.h>
#include <sys/resource.h>
#include <sys/wait.h>
#include <unistd.h>

static const char *const names[TAKERS] = {
    "number", "place", "level", "columns", "posts", "column length", "cell length", "height", "position's column", "position's post",
};

static dted_answer answer_of(uint64_t bits) {
    dted_answer answer = {bits};
    return answer;
}

/* ---- what is for whom ---- */

enum kind { NOTHING = 0, GRID = 1, HEIGHT = 2, POSITION = 3, REFUSAL = 256 };

/* A kind above, or a number that no answer of a call has. */
static uint64_t kind_of(uint64_t bits) {
    return bits >> 56 != 0 ? REFUSAL : bits >> 48;
}

static bool is_for(int take, uint64_t kind) {
    if (take == TAKE_NUMBER)
        return true;
    if (take == TAKE_PLACE)
        return kind == REFUSAL;
    if (take == TAKE_HEIGHT)
        return kind == HEIGHT || kind == POSITION;
    return kind == (take <= TAKE_CELL_LENGTH ? GRID : POSITION);
}

#define NO_HEIGHT ((uint64_t)-32767)

static uint64_t empty(int take) {
    return take == TAKE_HEIGHT ? NO_HEIGHT : 0;
}

/* ---- answers, and all that is taken out of them ---- */

static const struct taken {
    const char *what;
    uint64_t bits;
    uint64_t due[TAKERS];
} all_taken[] = {
    {"a refusal", 0x0500000000000E5E, {5, 3678, 0, 0, 0, 0, 0, NO_HEIGHT, 0, 0}},
    {"a refusal of a header field", 0x1700000000000169, {23, 361, 0, 0, 0, 0, 0, NO_HEIGHT, 0, 0}},
    {"a refusal of the last year", 0x11000000FFFFFFFF, {17, 4294967295, 0, 0, 0, 0, 0, NO_HEIGHT, 0, 0}},
    {"a refusal at 0", 0x0800000000000000, {8, 0, 0, 0, 0, 0, 0, NO_HEIGHT, 0, 0}},
    {"a refusal at the last place", 0x0CFFFFFFFFFFFFFF, {12, 0xFFFFFFFFFFFFFF, 0, 0, 0, 0, 0, NO_HEIGHT, 0, 0}},
    {"the last number", 0xFFFFFFFFFFFFFFFF, {255, 0xFFFFFFFFFFFFFF, 0, 0, 0, 0, 0, NO_HEIGHT, 0, 0}},
    {"a refusal like a grid", 0x0101000200790079, {1, 0x1000200790079, 0, 0, 0, 0, 0, NO_HEIGHT, 0, 0}},
    {"a refusal like a height", 0x15020000000001E6, {21, 0x20000000001E6, 0, 0, 0, 0, 0, NO_HEIGHT, 0, 0}},
    {"a refusal like a position", 0x0303003C003D01E6, {3, 0x3003C003D01E6, 0, 0, 0, 0, 0, NO_HEIGHT, 0, 0}},
    {"an act", 0, {0, 0, 0, 0, 0, 0, 0, NO_HEIGHT, 0, 0}},
    {"an act with values", 0x0000123456789ABC, {0, 0, 0, 0, 0, 0, 0, NO_HEIGHT, 0, 0}},
    {"a grid of level 0", 0x0001000000790079, {0, 0, 0, 121, 121, 254, 34162, NO_HEIGHT, 0, 0}},
    {"a grid of level 1", 0x0001000100C904B1, {0, 0, 1, 201, 1201, 2414, 488642, NO_HEIGHT, 0, 0}},
    {"a grid of level 2", 0x000100020E110E11, {0, 0, 2, 3601, 3601, 7214, 25981042, NO_HEIGHT, 0, 0}},
    {"the largest grid", 0x0001FFFFFFFFFFFF, {0, 0, 65535, 65535, 65535, 131082, 8590462298, NO_HEIGHT, 0, 0}},
    {"a height", 0x00020000000001E6, {0, 0, 0, 0, 0, 0, 0, 486, 0, 0}},
    {"height 0", 0x0002000000000000, {0, 0, 0, 0, 0, 0, 0, 0, 0, 0}},
    {"a depth", 0x000200000000D120, {0, 0, 0, 0, 0, 0, 0, (uint64_t)-12000, 0, 0}},
    {"a void", 0x0002000000008001, {0, 0, 0, 0, 0, 0, 0, NO_HEIGHT, 0, 0}},
    {"a height with values", 0x0002123456789ABC, {0, 0, 0, 0, 0, 0, 0, (uint64_t)-25924, 0, 0}},
    {"a position", 0x0003003C003D01E6, {0, 0, 0, 0, 0, 0, 0, 486, 60, 61}},
    {"a position without a height", 0x000300010E108001, {0, 0, 0, 0, 0, 0, 0, NO_HEIGHT, 1, 3600}},
    {"the last position", 0x0003FFFFFFFFFFFF, {0, 0, 0, 0, 0, 0, 0, (uint64_t)-1, 65535, 65535}},
    {"an unknown answer", 0x0004000200790079, {0, 0, 0, 0, 0, 0, 0, NO_HEIGHT, 0, 0}},
    {"the last unknown answer", 0x00FFFFFFFFFFFFFF, {0, 0, 0, 0, 0, 0, 0, NO_HEIGHT, 0, 0}},
};

static void expect_taken(taker *const *by, const struct taken *taken) {
    for (int take = 0; take < TAKERS; take++)
        expect(names[take], by[take](answer_of(taken->bits)), taken->due[take]);
}

static void taken_case(const void *context) {
    const struct taken *taken = context;
    name_case("taken out of %s", taken->what);
    expect_taken(takers, taken);
}

static void quiet_case(const void *context) {
    const struct taken *taken = context;
    name_case("taken out of %s, asserts switched off", taken->what);
    expect_taken(quiet_takers, taken);
}

/* ---- DTED_CHECK ---- */

/* How a child process ends that takes this out of an answer: the signal, or 0. */
static int end_of_child(taker *take, uint64_t bits) {
    static const struct rlimit no_core = {0, 0};
    int status = -1;
    pid_t child = fork();
    if (child == 0) {
        setrlimit(RLIMIT_CORE, &no_core);
        close(STDERR_FILENO); /* what an assert says is not asked for */
        signal(SIGABRT, SIG_DFL);
        take(answer_of(bits));
        _exit(0);
    }
    expect("a child process", child > 0 && waitpid(child, &status, 0) == child, 1);
    return WIFSIGNALED(status) ? WTERMSIG(status) : 0;
}

/* What is taken amiss stops the program; what is not is given as ever. */
static void checked_case(const void *context) {
    const struct taken *taken = context;
    name_case("taken out of %s, checked", taken->what);
    for (int take = 0; take < TAKERS; take++) {
        bool good = is_for(take, kind_of(taken->bits));
        expect(names[take], (uint64_t)end_of_child(checked_takers[take], taken->bits), good ? 0 : SIGABRT);
        if (good)
            expect(names[take], checked_takers[take](answer_of(taken->bits)), taken->due[take]);
    }
}

/* ---- every kind, number, bit and height ---- */

/* Something is given exactly by what an answer is for: no part of these bits is 0. */
static void expect_sorted(uint64_t bits) {
    uint64_t kind = kind_of(bits);
    for (int take = TAKE_PLACE; take < TAKERS; take++)
        expect(names[take], takers[take](answer_of(bits)) != empty(take), is_for(take, kind));
    for (unsigned what = DTED_HOLDS_NOTHING; what <= DTED_HOLDS_POSITION; what++)
        expect("what it holds", dted_holds(answer_of(bits), what) != 0, what == kind);
}

static void kinds_case(const void *context) {
    (void)context;
    name_case("every kind of answer, every number");
    for (uint64_t byte = 0; byte < 256; byte++) {
        expect_sorted(byte << 48 | 0x123456789ABC);
        expect("number of an accepted answer", dted_number(answer_of(byte << 48)), 0);
        if (byte == 0)
            continue;
        expect_sorted(refusal(byte, 0x03123456789ABC));
        expect("number of a refusal", dted_number(answer_of(refusal(byte, 0))), byte);
    }
}

static void bits_case(const void *context) {
    (void)context;
    name_case("every bit of an answer");
    for (unsigned bit = 0; bit < 48; bit++) {
        uint64_t one = UINT64_C(1) << bit, parts[3] = {one % 0x10000, one / 0x10000 % 0x10000, one / 0x100000000};
        dted_answer grid = answer_of(UINT64_C(0x1000000000000) + one), position = answer_of(UINT64_C(0x3000000000000) + one);
        expect("level", dted_level(grid), parts[2]);
        expect("columns", dted_columns(grid), parts[1]);
        expect("posts", dted_posts(grid), parts[0]);
        expect("position's column", dted_position_column(position), parts[2]);
        expect("position's post", dted_position_post(position), parts[1]);
        expect("place", dted_place(answer_of(refusal(1, one * 0x100))), one * 0x100);
        expect("place", dted_place(answer_of(refusal(1, one))), one);
    }
}

static void heights_case(const void *context) {
    (void)context;
    name_case("every height of an answer");
    for (int64_t height = -32768; height <= 32767; height++) {
        uint64_t word = (uint64_t)height % 0x10000;
        expect("height", (uint64_t)dted_height(answer_of(UINT64_C(0x2000000000000) + word)), (uint64_t)height);
        expect("position's height", (uint64_t)dted_height(answer_of(UINT64_C(0x3000000000000) + word)), (uint64_t)height);
    }
}

void run_answer_cases(void) {
    for (size_t i = 0; i < COUNT(all_taken); i++) {
        run_case(taken_case, &all_taken[i]);
        run_case(quiet_case, &all_taken[i]);
        run_case(checked_case, &all_taken[i]);
    }
    run_case(kinds_case, NULL);
    run_case(bits_case, NULL);
    run_case(heights_case, NULL);
}
