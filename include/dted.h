/* dted.h - DTED elevation cells of levels 0, 1 and 2: judged, read, written, and corrected post by post.
 *
 * Every call takes any bytes and any numbers, relies on no earlier call, and returns. A call that is refused changes no
 * byte that it was lent. Nothing is allocated, no file is read, and nothing is kept between calls.
 *
 * LENT BYTES. Bytes are lent as a pointer and a length. Where the length is 0 the pointer may be null. `items` is a fixed
 * array of DTED_ITEMS numbers and must not be null. The pieces of memory that one call is lent must not overlap. Calls may
 * run at the same time on any threads, as long as none writes what another is lent: one cell must not be edited by two
 * threads at once, nor read while it is edited. Bytes may stand at any address; `items` is aligned as int64_t is. A call needs
 * less than 16 KB of stack. The header is for C99 and C++11; of the C library the archive needs memset alone.
 *
 * ANSWERS. Every call answers a dted_answer. Ask dted_number first: it is DTED_OK, or it says why the call was refused; then
 * dted_place says where. Of an answer that is DTED_OK, the functions at the end of this header take out what it holds; each says to
 * which calls it belongs. Used on an answer that they are not for, they return 0, or DTED_VOID for a height. To find such uses, define
 * DTED_CHECK before this header is first read: then they stop the program, by assert, so not where NDEBUG is defined.
 */
#ifndef DTED_H
#define DTED_H

#include <stddef.h>
#include <stdint.h>
#ifdef DTED_CHECK
#include <assert.h>
#endif

#define DTED_VERSION "0.5.1"
#define DTED_VERSION_MAJOR 0
#define DTED_VERSION_MINOR 5
#define DTED_VERSION_PATCH 1

/* The compiler says where an answer is dropped: it alone tells whether anything was done. */
#if defined(__GNUC__)
#define DTED_MUST_USE __attribute__((warn_unused_result))
#else
#define DTED_MUST_USE
#endif

#ifdef __cplusplus
extern "C" {
#endif

/* What a call answers. It is a type of its own, so that it cannot be taken for a column or a height; `bits` is for the functions
 * below: the refusal's number in the top 8 and its place in the other 56, or 0, what the answer holds in the next 8, and three values
 * of 16 each. It is passed as a uint64_t is. */
typedef struct {
    uint64_t bits;
} dted_answer;

/* Refusals, and the place that each gives. */
enum {
    DTED_OK = 0,
    DTED_SHORT = 1,       /* fewer than 3,428 bytes: the length */
    DTED_CUT = 3,         /* a column is not there whole: its offset */
    DTED_PREAMBLE = 4,    /* a preamble field is wrong: its offset */
    DTED_CHECKSUM = 5,    /* a checksum differs: its offset */
    DTED_WORD = 6,        /* a post word is not allowed: its offset */
    DTED_SURPLUS = 7,     /* bytes after the last column: the cell length due */
    DTED_OFF_GRID = 8,    /* a column, a post or a position is off the grid: 0 */
    DTED_ITEM = 9,        /* an item is out of its range: its number, from 1, so one more than its index below */
    DTED_GRID_LENGTH = 10, /* the grid's length differs: the number of posts due */
    DTED_HEIGHT = 11,     /* a height or void is not allowed: its index in the grid or the posts given; 0 for an edit */
    DTED_ROOM = 12,       /* the output is too short: the length due */
    DTED_YEAR = 17,       /* a rule year that is neither 1 nor 2: the year named */
    /* A header field breaks its rule. Place of all three: the offset of its first byte that is not as due, or that of its first byte
     * where more than one text was good there. dted(3) says field by field which of them it can give. */
    DTED_FIELD_IMPOSSIBLE = 21,  /* no header that is accepted has these bytes in that field */
    DTED_FIELD_CONTRADICTS = 22, /* another header may have them there; here they go against another field */
    DTED_FIELD_OFF_TABLE = 23    /* another header may have them there; here the interval or count is not that of level and zone */
};

/* Heights are metres, -12,000 to 9,000. A post without a height is this; the rule year says which cells may hold it. */
#define DTED_VOID (-32767)

/* Rule years, 1 or 2 and no calendar years: dted_intake, both lookups, dted_edit and dted_write are given one. A cell may hold voids
 *   under DTED_YEAR_1 where its DTED_PARTIAL is not 0,
 *   under DTED_YEAR_2 where that is so and it is of level 2, as the DTED performance specification asks (3.5.4, 3.5.5).
 * Nothing else depends on the year. A void that is stored elsewhere is DTED_WORD, one that is given there DTED_HEIGHT. DTED_PARTIAL
 * itself is not judged by the year: a cell that holds no void is accepted under both or neither.
 * A host names DTED_YEAR_2 for new deliveries, and DTED_YEAR_1 for older ones, whose cells of levels 0 and 1 may hold voids. A cell that
 * is accepted under DTED_YEAR_2 is accepted under DTED_YEAR_1 too, with equal posts; so a host that does not know how old a file is
 * judges it under DTED_YEAR_2, and where that is refused as DTED_WORD may take DTED_YEAR_1, knowingly.
 * No call remembers a year. What dted(3) says of a cell after edits is said of edits that all name one year, under which the cell is
 * accepted. */
enum { DTED_YEAR_1 = 1, DTED_YEAR_2 = 2 };

/* Bytes before the first column, before the first post of a column, and of the longest column and cell. Whoever reads a file into
 * a buffer makes it a byte longer than the longest cell, so that DTED_SURPLUS can be seen. */
#define DTED_HEADER_BYTES 3428
#define DTED_PREAMBLE_BYTES 8
#define DTED_LONGEST_COLUMN 7214
#define DTED_LONGEST_CELL 25981042

/* Positions are in tenths of arc-seconds: so many to a degree. */
#define DTED_DEGREE 36000

/* The items of a description, by their place in an array: item number less one. */
enum {
    DTED_LEVEL = 0,               /* 0, 1 or 2 */
    DTED_LATITUDE = 1,            /* of the south-west corner, whole degrees, -90 to 89 */
    DTED_LONGITUDE = 2,           /* of the south-west corner, whole degrees, -180 to 179 */
    DTED_SECURITY = 3,            /* 'S', 'C', 'U' or 'R' */
    DTED_EDITION = 4,             /* 1 to 99 */
    DTED_MATCH_VERSION = 5,       /* match or merge version, 'A' to 'Z' */
    DTED_DATUM = 6,               /* DTED_MSL or DTED_E96 */
    DTED_ACCURACY = 7,            /* of the UHL: 0 to 9,999 metres, or DTED_NOT_AVAILABLE; so the next four, of the ACC */
    DTED_ABSOLUTE_HORIZONTAL = 8,
    DTED_ABSOLUTE_VERTICAL = 9,
    DTED_RELATIVE_HORIZONTAL = 10,
    DTED_RELATIVE_VERTICAL = 11,
    DTED_PARTIAL = 12,            /* 0 for a complete cell, 1 to 99 for one that may hold voids where the rule year allows them */
    DTED_ITEMS = 13
};

#define DTED_MSL 0
#define DTED_E96 1
#define DTED_NOT_AVAILABLE (-1)

/* ---- calls on a cell ---- */

/* `Order` gives the numbers of the refusals that a call looks for, in turn: the first that applies is answered. Of 21 to 23 it is the
 * one that the first broken field gives, whichever that is: the fields are judged in the order of dted(5). */

/* Judges a whole cell. Order: 17, 1, 21 to 23, then column after column from the west 3, 4, 5, 6, then 7. The answer holds
 * level, columns and posts to a column. */
DTED_MUST_USE dted_answer dted_intake(uint32_t year, const uint8_t *cell, size_t length);

/* The description of a cell, from its headers alone. Order: 1, 21 to 23. Fills all of `items`, or none where it is refused. The
 * answer holds nothing. */
DTED_MUST_USE dted_answer dted_describe(const uint8_t *cell, size_t length, int64_t items[DTED_ITEMS]);

/* The height of one post; column 0 is the western one, post 0 the southern one. Order: 17, 1, 21 to 23, 8, then 3, 4, 5, 6 for
 * that column alone. The answer holds the height, or DTED_VOID. */
DTED_MUST_USE dted_answer dted_post(uint32_t year, const uint8_t *cell, size_t length, uint64_t column, uint64_t post);

/* The post nearest a position, in tenths of arc-seconds, north and east positive, edges included; of two equally near the
 * western or southern one. 6480000 and -6480000 are one meridian. Order as for dted_post. The answer holds column, post and
 * height. */
DTED_MUST_USE dted_answer dted_position(uint32_t year, const uint8_t *cell, size_t length, int64_t latitude, int64_t longitude);

/* Makes one post this height, or DTED_VOID. Order as for dted_post, then 11. It writes the two bytes of the post and the four
 * of its column's checksum, and nothing else. The answer holds nothing. */
DTED_MUST_USE dted_answer dted_edit(uint32_t year, uint8_t *cell, size_t length, uint64_t column, uint64_t post, int64_t height);

/* ---- writers ---- */

/* The columns of a cell, and the posts to a column, from its level and origin latitude. Order: 9 (item 1, then 2). The
 * answer holds what dted_intake's does; dted_cell_length makes a length of it. */
DTED_MUST_USE dted_answer dted_grid(uint64_t level, int64_t latitude);

/* Writes the cell of `items` and of a grid at the front of `out`; bytes past the cell stay. The grid is 16-bit two's complement
 * heights, high byte first, column after column from the west and each from the south: `bytes` is its length in bytes. Order: 17, 9
 * (lowest item), 10 (also where `bytes` is odd), 11 (lowest index), 12. The answer holds nothing; the cell's length is that of
 * dted_grid's answer for its level and latitude. Under the same year the cell is accepted, with the posts given. */
DTED_MUST_USE dted_answer dted_write(uint32_t year, uint8_t *out, size_t room, const int64_t items[DTED_ITEMS], const uint8_t *grid, size_t bytes);

/* Writes one column from a level, its number and its posts, voids allowed, at the front of `out`; bytes past it stay. Posts as in
 * a grid. A cell with voids in a column is accepted only where the year of the call that judges it allows them. Order: 9 (item 1), 8 (a
 * number not below the level's columns at the equator), 10, 11, 12. The answer holds nothing. */
DTED_MUST_USE dted_answer dted_write_column(uint8_t *out, size_t room, uint64_t level, uint64_t number, const uint8_t *posts, size_t bytes);

#ifdef __cplusplus
}
#endif

#if defined(__cplusplus) && defined(__GNUC__)
#pragma GCC diagnostic push
#pragma GCC diagnostic ignored "-Wold-style-cast"
#endif

/* ---- answers, taken apart ---- */

/* Why the call was refused; DTED_OK where it was not. For the answer of every call. */
static inline unsigned dted_number(dted_answer answer) { return (unsigned)(answer.bits >> 56); }

/* What an answer holds that is no refusal; those of dted_describe, dted_edit and the writers hold nothing. */
enum {
    DTED_HOLDS_NOTHING = 0,
    DTED_HOLDS_GRID = 1,
    DTED_HOLDS_HEIGHT = 2,
    DTED_HOLDS_POSITION = 3
};
static inline int dted_holds(dted_answer answer, unsigned what) {
    return dted_number(answer) == DTED_OK && answer.bits >> 48 == what;
}

/* Names that end in _ are this header's own: here, whether an answer is one that the function is for. */
static inline int dted_is_for_(int good) {
#ifdef DTED_CHECK
    assert(good && "an answer that does not hold what is taken out of it");
#endif
    return good;
}

/* 16 bits of an answer that holds this, from bit `at` up. */
static inline unsigned dted_value_(dted_answer answer, unsigned what, unsigned at) {
    return dted_is_for_(dted_holds(answer, what)) ? (unsigned)(answer.bits >> at & 0xFFFF) : 0;
}

/* Where: the place of a refusal. */
static inline uint64_t dted_place(dted_answer answer) {
    return dted_is_for_(dted_number(answer) != DTED_OK) ? answer.bits & UINT64_C(0xFFFFFFFFFFFFFF) : 0;
}

/* Of dted_intake and dted_grid: the level, the columns, and the posts to a column. */
static inline unsigned dted_level(dted_answer grid) { return dted_value_(grid, DTED_HOLDS_GRID, 32); }
static inline unsigned dted_columns(dted_answer grid) { return dted_value_(grid, DTED_HOLDS_GRID, 16); }
static inline unsigned dted_posts(dted_answer grid) { return dted_value_(grid, DTED_HOLDS_GRID, 0); }

/* Of the same: the bytes of a column, and of the whole cell. */
static inline size_t dted_column_length(dted_answer grid) {
    unsigned posts = dted_posts(grid);
    return posts == 0 ? 0 : 12 + 2 * (size_t)posts;
}
static inline size_t dted_cell_length(dted_answer grid) {
    size_t column = dted_column_length(grid);
    return column == 0 ? 0 : DTED_HEADER_BYTES + dted_columns(grid) * column;
}

/* Of dted_post and dted_position: metres, or DTED_VOID. */
static inline int dted_height(dted_answer post) {
    int word = (int)(post.bits & 0xFFFF);
    if (!dted_is_for_(dted_holds(post, DTED_HOLDS_HEIGHT) || dted_holds(post, DTED_HOLDS_POSITION)))
        return DTED_VOID;
    return word < 0x8000 ? word : word - 0x10000;
}

/* Of dted_position: the column and the number of the post. */
static inline unsigned dted_position_column(dted_answer position) { return dted_value_(position, DTED_HOLDS_POSITION, 32); }
static inline unsigned dted_position_post(dted_answer position) { return dted_value_(position, DTED_HOLDS_POSITION, 16); }

/* ---- words and heights in bytes ---- */

/* The height of the post word at `word`, or DTED_VOID: for reading every post of a cell that dted_intake has accepted. Post p of
 * column c stands at DTED_HEADER_BYTES + c * dted_column_length(answer) + DTED_PREAMBLE_BYTES + 2 * p. */
static inline int dted_word_height(const uint8_t *word) {
    int magnitude = (word[0] & 0x7F) << 8 | word[1];
    if (word[0] < 0x80)
        return magnitude;
    return magnitude == 0x7FFF ? DTED_VOID : -magnitude;
}

/* A height or DTED_VOID as the two bytes that a grid has for it; a number of more than 16 bits as -32768, which no writer takes. */
static inline void dted_put_height(uint8_t *bytes, int height) {
    if (height < -32768 || height > 32767)
        height = -32768;
    bytes[0] = (uint8_t)((unsigned)height >> 8 & 0xFF);
    bytes[1] = (uint8_t)((unsigned)height & 0xFF);
}

#if defined(__cplusplus) && defined(__GNUC__)
#pragma GCC diagnostic pop
#endif

#endif
