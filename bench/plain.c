/* plain.c - see plain.h. Follows docs/SCOPE.md; the loops over posts have no early way out, so that a compiler makes vectors of them. */
#include "plain.h"

#include <arpa/inet.h>
#include <stdbool.h>
#include <string.h>

enum { LOWEST = -12000, HIGHEST = 9000, NO_ANGLE = 1000, GOOD = DTED_HEADER_BYTES };

/* not `cold` too: clang then leaves calls in the judges, which makes them slower */
#ifdef __GNUC__
#define OUT_OF_LINE __attribute__((noinline))
#else
#define OUT_OF_LINE
#endif

/* What level and origin fix, and whether voids are allowed. */
struct facts {
    unsigned level, columns, posts;
    int north, east; /* intervals */
    int latitude, longitude;
    size_t column_bytes;
    bool voids;
};

const char *plain_compiler(void) {
#ifdef __clang__
    return __VERSION__;
#else
    return "gcc " __VERSION__;
#endif
}

static dted_answer refuse(unsigned number, uint64_t place) { return (dted_answer){(uint64_t)number << 56 | place}; }
static dted_answer hold(unsigned what, uint64_t values) { return (dted_answer){(uint64_t)what << 48 | values}; }
static dted_answer done(void) { return hold(DTED_HOLDS_NOTHING, 0); }

/* ---- numbers, high byte first ---- */

static inline uint16_t native16(const uint8_t *p) {
    uint16_t v;
    memcpy(&v, p, sizeof v);
    return v;
}

static inline uint16_t be16(const uint8_t *p) { return ntohs(native16(p)); }

static unsigned be24(const uint8_t *p) { return (unsigned)be16(p) << 8 | p[2]; }
static uint32_t be32(const uint8_t *p) { return (uint32_t)be16(p) << 16 | be16(p + 2); }

static inline void put16(uint8_t *p, uint16_t v) {
    v = htons(v);
    memcpy(p, &v, sizeof v);
}

static void put32(uint8_t *p, uint32_t v) {
    put16(p, (uint16_t)(v >> 16));
    put16(p + 2, (uint16_t)v);
}

/* ---- rule years ---- */

static bool is_year(uint32_t year) { return year == DTED_YEAR_1 || year == DTED_YEAR_2; }

/* In year 1 any partial cell may hold voids, in year 2 one of level 2 alone. */
static bool allows_voids(uint32_t year, unsigned level, bool partial) { return partial && (year == DTED_YEAR_1 || level == 2); }

/* ---- the grid ---- */

static int factor(int latitude) {
    int edge = latitude < 0 ? -(latitude + 1) : latitude;
    return edge < 50 ? 1 : edge < 70 ? 2 : edge < 75 ? 3 : edge < 80 ? 4 : 6;
}

static void lay(struct facts *f, unsigned level, int latitude) {
    static const int north[] = {300, 30, 10};
    f->level = level;
    f->latitude = latitude;
    f->north = north[level];
    f->east = f->north * factor(latitude);
    f->columns = (unsigned)(DTED_DEGREE / f->east + 1);
    f->posts = (unsigned)(DTED_DEGREE / f->north + 1);
    f->column_bytes = 12 + 2 * (size_t)f->posts;
}

/* ---- headers, written ---- */

static void put_text(uint8_t *field, const char *text) { memcpy(field, text, strlen(text)); }

static void put_number(uint8_t *field, int digits, unsigned value) {
    for (; digits > 0; value /= 10)
        field[--digits] = (uint8_t)('0' + value % 10);
}

static void put_angle(uint8_t *field, int digits, const char *zeros, int angle, const char *letters) {
    put_number(field, digits, (unsigned)(angle < 0 ? -angle : angle));
    put_text(field + digits, zeros);
    field[digits + (int)strlen(zeros)] = (uint8_t)letters[angle < 0];
}

static void put_corner(uint8_t *field, int latitude, int longitude) {
    put_angle(field, 2, "0000", latitude, "NS");
    put_angle(field + 7, 3, "0000", longitude, "EW");
}

static void put_accuracy(uint8_t *field, int64_t metres) {
    if (metres == DTED_NOT_AVAILABLE)
        put_text(field, "NA  ");
    else
        put_number(field, 4, (unsigned)metres);
}

static void put_uhl(uint8_t *h, const int64_t *items, const struct facts *f) {
    put_text(h, "UHL1");
    put_angle(h + 4, 3, "0000", f->longitude, "EW");
    put_angle(h + 12, 3, "0000", f->latitude, "NS");
    put_number(h + 20, 4, (unsigned)f->east);
    put_number(h + 24, 4, (unsigned)f->north);
    put_accuracy(h + 28, items[DTED_ACCURACY]);
    h[32] = (uint8_t)items[DTED_SECURITY];
    put_number(h + 47, 4, f->columns);
    put_number(h + 51, 4, f->posts);
    h[55] = '0';
}

static void put_series(uint8_t *h, const int64_t *items, const struct facts *f) {
    put_text(h + 80, "DSI");
    h[83] = (uint8_t)items[DTED_SECURITY];
    put_text(h + 139, "DTED");
    put_number(h + 143, 1, f->level);
    memset(h + 144, '0', 15);
    put_number(h + 167, 2, (unsigned)items[DTED_EDITION]);
    h[169] = (uint8_t)items[DTED_MATCH_VERSION];
    memset(h + 170, '0', 12);
    put_text(h + 206, "PRF89020B");
    put_text(h + 215, "000005");
    put_text(h + 221, items[DTED_DATUM] == DTED_MSL ? "MSL" : "E96");
    put_text(h + 224, "WGS84");
    memset(h + 239, '0', 4);
}

static void put_dsi(uint8_t *h, const int64_t *items, const struct facts *f) {
    put_series(h, items, f);
    put_angle(h + 265, 2, "0000.0", f->latitude, "NS");
    put_angle(h + 274, 3, "0000.0", f->longitude, "EW");
    put_corner(h + 284, f->latitude, f->longitude);
    put_corner(h + 299, f->latitude + 1, f->longitude);
    put_corner(h + 314, f->latitude + 1, f->longitude + 1);
    put_corner(h + 329, f->latitude, f->longitude + 1);
    put_text(h + 344, "0000000.0");
    put_number(h + 353, 4, (unsigned)f->north);
    put_number(h + 357, 4, (unsigned)f->east);
    put_number(h + 361, 4, f->posts);
    put_number(h + 365, 4, f->columns);
    put_number(h + 369, 2, (unsigned)items[DTED_PARTIAL]);
}

static void put_headers(uint8_t *h, const int64_t *items, const struct facts *f) {
    memset(h, ' ', DTED_HEADER_BYTES);
    put_uhl(h, items, f);
    put_dsi(h, items, f);
    put_text(h + 728, "ACC");
    for (int i = 0; i < 4; i++)
        put_accuracy(h + 731 + 4 * i, items[DTED_ABSOLUTE_HORIZONTAL + i]);
    put_text(h + 783, "00");
}

/* ---- header fields, judged ---- */

static inline bool has(const uint8_t *field, const char *text) { return memcmp(field, text, strlen(text)) == 0; }

/* The number that so many digits say, -1 where one is no digit. */
static inline int decimal(const uint8_t *field, int digits) {
    int value = 0;
    for (int i = 0; i < digits; i++) {
        if (field[i] < '0' || field[i] > '9')
            return -1;
        value = 10 * value + (field[i] - '0');
    }
    return value;
}

static bool is_accuracy(const uint8_t *field) { return decimal(field, 4) >= 0 || has(field, "NA  "); }

static bool is_security(int64_t b) { return b == 'S' || b == 'C' || b == 'U' || b == 'R'; }

/* The angle of an origin in the UHL. */
static int origin(const uint8_t *field, int most, const char *letters) {
    int degrees = decimal(field, 3);
    if (degrees < 0 || !has(field + 3, "0000"))
        return NO_ANGLE;
    if (field[7] == letters[0] && degrees < most)
        return degrees;
    if (field[7] == letters[1] && degrees >= 1 && degrees <= most)
        return -degrees;
    return NO_ANGLE;
}

/* Whether a field says an angle; a corner at 0 and at 180 has either letter. */
static inline bool says(const uint8_t *field, int digits, const char *zeros, int angle, const char *letters, bool corner) {
    int degrees = angle < 0 ? -angle : angle;
    uint8_t letter = field[digits + (int)strlen(zeros)];
    if (decimal(field, digits) != degrees || !has(field + digits, zeros))
        return false;
    if (letter == letters[angle < 0])
        return true;
    return corner && (degrees == 0 || degrees == 180) && (letter == letters[0] || letter == letters[1]);
}

static bool is_corner(const uint8_t *field, int latitude, int longitude, unsigned *bad) {
    *bad = 0;
    if (!says(field, 2, "0000", latitude, "NS", true))
        return false;
    *bad = 7;
    return says(field + 7, 3, "0000", longitude, "EW", true);
}

/* Each judge of a record gives the offset of its first bad field, or GOOD. */
static unsigned judge_uhl(const uint8_t *h, struct facts *f) {
    if (!has(h, "UHL1"))
        return 0;
    if ((f->longitude = origin(h + 4, 180, "EW")) == NO_ANGLE)
        return 4;
    int latitude = origin(h + 12, 90, "NS");
    if (latitude == NO_ANGLE)
        return 12;
    int north = decimal(h + 24, 4);
    if (north != 300 && north != 30 && north != 10)
        return 24;
    lay(f, north == 300 ? 0 : north == 30 ? 1 : 2, latitude);
    if (decimal(h + 20, 4) != f->east)
        return 20;
    if (!is_accuracy(h + 28))
        return 28;
    if (!is_security(h[32]) || !has(h + 33, "  "))
        return 32;
    if (decimal(h + 47, 4) != (int)f->columns)
        return 47;
    if (decimal(h + 51, 4) != (int)f->posts)
        return 51;
    return h[55] == '0' ? GOOD : 55;
}

static unsigned judge_series(const uint8_t *h, const struct facts *f) {
    if (!has(h + 80, "DSI"))
        return 80;
    if (h[83] != h[32])
        return 83;
    if (!has(h + 139, "DTED") || h[143] != '0' + f->level)
        return 139;
    if (decimal(h + 167, 2) < 1)
        return 167;
    if (h[169] < 'A' || h[169] > 'Z')
        return 169;
    if (!has(h + 206, "PRF89020B"))
        return 206;
    if (!has(h + 221, "MSL") && !has(h + 221, "E96"))
        return 221;
    return has(h + 224, "WGS84") ? GOOD : 224;
}

static unsigned judge_corners(const uint8_t *h, const struct facts *f) {
    unsigned bad;
    if (!says(h + 265, 2, "0000.0", f->latitude, "NS", false))
        return 265;
    if (!says(h + 274, 3, "0000.0", f->longitude, "EW", false))
        return 274;
    if (!is_corner(h + 284, f->latitude, f->longitude, &bad))
        return 284 + bad;
    if (!is_corner(h + 299, f->latitude + 1, f->longitude, &bad))
        return 299 + bad;
    if (!is_corner(h + 314, f->latitude + 1, f->longitude + 1, &bad))
        return 314 + bad;
    if (!is_corner(h + 329, f->latitude, f->longitude + 1, &bad))
        return 329 + bad;
    return GOOD;
}

static unsigned judge_counts(uint32_t year, const uint8_t *h, struct facts *f) {
    if (!has(h + 344, "0000000.0"))
        return 344;
    if (decimal(h + 353, 4) != f->north)
        return 353;
    if (decimal(h + 357, 4) != f->east)
        return 357;
    if (decimal(h + 361, 4) != (int)f->posts)
        return 361;
    if (decimal(h + 365, 4) != (int)f->columns)
        return 365;
    int partial = decimal(h + 369, 2);
    f->voids = allows_voids(year, f->level, partial > 0);
    return partial < 0 ? 369 : GOOD;
}

static unsigned judge_acc(const uint8_t *h) {
    if (!has(h + 728, "ACC"))
        return 728;
    for (unsigned at = 731; at <= 743; at += 4)
        if (!is_accuracy(h + at))
            return at;
    return has(h + 783, "00") ? GOOD : 783;
}

/* ---- a broken header field, told ---- */

/* The angles of the DSI that some header has: with the first letter from 0 to `first`, with the second from `least` to `second`. */
static const struct angle {
    unsigned at;
    int digits;
    const char *zeros, *letters;
    int first, least, second;
} angles[] = {
    {265, 2, "0000.0", "NS", 89, 1, 90},
    {274, 3, "0000.0", "EW", 179, 1, 180},
    {284, 2, "0000", "NS", 89, 0, 90},
    {291, 3, "0000", "EW", 180, 0, 180},
    {299, 2, "0000", "NS", 90, 0, 89},
    {306, 3, "0000", "EW", 180, 0, 180},
    {314, 2, "0000", "NS", 90, 0, 89},
    {321, 3, "0000", "EW", 180, 0, 180},
    {329, 2, "0000", "NS", 89, 0, 90},
    {336, 3, "0000", "EW", 180, 0, 180},
};
enum { ANGLES = sizeof angles / sizeof *angles };

/* The angle field at this offset, or null. */
static const struct angle *angle_at(unsigned at) {
    for (size_t i = 0; i < ANGLES; i++)
        if (angles[i].at == at)
            return &angles[i];
    return NULL;
}

static bool some_header_says(const uint8_t *field, const struct angle *a) {
    const uint8_t *rest = field + a->digits;
    size_t zeros = strlen(a->zeros);
    int degrees = decimal(field, a->digits);
    if (degrees < 0 || memcmp(rest, a->zeros, zeros) != 0)
        return false;
    return (rest[zeros] == a->letters[0] && degrees <= a->first) ||
           (rest[zeros] == a->letters[1] && degrees >= a->least && degrees <= a->second);
}

/* What an interval or a count must be by the level and zone table; 0 in any other field. */
static int table_value(unsigned at, const struct facts *f) {
    switch (at) {
    case 20: case 357: return f->east;
    case 353: return f->north;
    case 47: case 365: return (int)f->columns;
    case 51: case 361: return (int)f->posts;
    default: return 0;
    }
}

/* Whether the table has this value anywhere in its column. */
static bool in_table(unsigned at, int value) {
    static const int zones[] = {0, 50, 70, 75, 80};
    struct facts f;
    for (unsigned level = 0; level <= 2; level++)
        for (size_t i = 0; i < sizeof zones / sizeof *zones; i++) {
            lay(&f, level, zones[i]);
            if (value > 0 && value == table_value(at, &f))
                return true;
        }
    return false;
}

/* Whether the bytes of this field, which is neither interval nor count, may stand there beside other fields. */
static bool fits_elsewhere(const uint8_t *h, unsigned at) {
    const struct angle *angle = angle_at(at);
    if (angle)
        return some_header_says(h + at, angle);
    if (at == 83)
        return is_security(h[83]);
    return at == 139 && has(h + 139, "DTED") && h[143] >= '0' && h[143] <= '2';
}

static unsigned field_number(const uint8_t *h, unsigned at) {
    if (in_table(at, decimal(h + at, 4)))
        return DTED_FIELD_OFF_TABLE;
    return fits_elsewhere(h, at) ? DTED_FIELD_CONTRADICTS : DTED_FIELD_IMPOSSIBLE;
}

/* Whether several texts are good there in any header. */
static bool has_several_texts(unsigned at) {
    switch (at) {
    case 4: case 12: case 24: case 28: case 32: case 167: case 169: case 221: case 369:
    case 731: case 735: case 739: case 743:
        return true;
    default:
        return false;
    }
}

/* A corner part at 0 and at 180 degrees has either letter, so two texts are good there. */
static bool has_either_letter(const uint8_t *due, unsigned at) {
    const struct angle *angle = angle_at(at);
    if (!angle || angle->least > 0)
        return false;
    int degrees = decimal(due + at, angle->digits);
    return degrees == 0 || degrees == 180;
}

/* The offset of the field's first wrong byte, or of the field where several texts are good: what is due is what the writer writes. */
static unsigned field_place(const uint8_t *h, unsigned at, const struct facts *f) {
    static const struct facts none; /* in the first field nothing is known */
    int64_t items[DTED_ITEMS] = {[DTED_SECURITY] = h[32]};
    uint8_t due[DTED_HEADER_BYTES];
    if (has_several_texts(at))
        return at;
    put_headers(due, items, at == 0 ? &none : f);
    if (has_either_letter(due, at))
        return at;
    while (h[at] == due[at])
        at++;
    return at;
}

/* Apart from the judges, so that a good header does not pay for it. */
OUT_OF_LINE static dted_answer refuse_field(const uint8_t *h, unsigned at, const struct facts *f) {
    return refuse(field_number(h, at), field_place(h, at, f));
}

/* ---- year and headers, judged ---- */

static dted_answer judge_headers(uint32_t year, const uint8_t *h, size_t length, struct facts *f) {
    if (!is_year(year))
        return refuse(DTED_YEAR, year);
    if (length < DTED_HEADER_BYTES)
        return refuse(DTED_SHORT, length);
    unsigned bad = judge_uhl(h, f);
    if (bad == GOOD)
        bad = judge_series(h, f);
    if (bad == GOOD)
        bad = judge_corners(h, f);
    if (bad == GOOD)
        bad = judge_counts(year, h, f);
    if (bad == GOOD)
        bad = judge_acc(h);
    return bad == GOOD ? done() : refuse_field(h, bad, f);
}

/* ---- sums of bytes ---- */

/* A column is taken in parts of so many words: then sixteen bits hold the sum of their high bytes and that of their low ones, which is all
 * that is needed, and makes for more lanes in a vector. */
enum { PART = 256 };

/* The sum of 16-bit words, whatever their byte order, and that of their high bytes. */
struct sums {
    uint16_t all, high;
};

static inline void add_word(struct sums *sums, uint16_t word) {
    sums->all = (uint16_t)(sums->all + word);
    sums->high = (uint16_t)(sums->high + (word >> 8));
}

static inline uint32_t bytes_of(struct sums sums) { return (uint32_t)(uint16_t)(sums.all - 256 * sums.high) + sums.high; }

static uint32_t byte_sum(const uint8_t *p, size_t n) {
    uint32_t sum = 0;
    for (size_t i = 0; i < n; i++)
        sum += p[i];
    return sum;
}

/* ---- columns, judged ---- */

/* What one pass over words finds: the sum of their bytes, the highest of them as signed numbers, and the highest once they are turned so
 * that the other run of bad words comes last. */
struct measure {
    uint32_t sum;
    int16_t highest, turned;
};

struct part {
    struct sums sums;
    int16_t highest, turned;
};

static inline int16_t higher(int16_t a, int16_t b) { return a > b ? a : b; }

/* What is added to a word for `turned`: a void comes first then, where it is allowed. */
static inline uint16_t turn_for(bool voids) { return (uint16_t)(0x8000 + voids); }

static inline struct part measure_part(const uint8_t *words, size_t n, uint16_t turn) {
    struct part part = {{0, 0}, INT16_MIN, INT16_MIN};
    for (size_t i = 0; i < n; i++) {
        uint16_t native = native16(words + 2 * i), word = ntohs(native);
        add_word(&part.sums, native);
        part.highest = higher(part.highest, (int16_t)word);
        part.turned = higher(part.turned, (int16_t)(uint16_t)(word + turn));
    }
    return part;
}

static inline struct measure with_part(struct measure m, struct part part) {
    return (struct measure){m.sum + bytes_of(part.sums), higher(m.highest, part.highest), higher(m.turned, part.turned)};
}

#ifdef IN_PASSES
/* As plain C had it before 0.5.1: a pass for the sum, in blocks whose sum 16 bits hold, and one more for the words. */
static uint32_t sum_in_blocks(const uint8_t *p, size_t n) {
    uint32_t sum = 0;
    for (; n >= PART; n -= PART, p += PART) {
        uint16_t block = 0;
        for (int i = 0; i < PART; i++)
            block = (uint16_t)(block + p[i]);
        sum += block;
    }
    return sum + byte_sum(p, n);
}

static struct measure measure_words(const uint8_t *words, size_t posts, uint16_t turn) {
    uint16_t bad = 0, pass = turn == turn_for(true) ? 0xFFFF : 0;
    uint32_t sum = sum_in_blocks(words, 2 * posts);
    for (size_t i = 0; i < posts; i++) {
        uint16_t word = be16(words + 2 * i);
        bad = (uint16_t)(bad | ((word > HIGHEST) & ((uint16_t)(word - 0x8000) > -LOWEST) & (word != pass)));
    }
    return (struct measure){sum, bad ? INT16_MAX : 0, 0};
}
#else
/* Whole parts apart from the last one: where their length is no constant, gcc's loop takes half as long again. */
static struct measure measure_words(const uint8_t *words, size_t posts, uint16_t turn) {
    struct measure all = {0, INT16_MIN, INT16_MIN};
    for (; posts >= PART; posts -= PART, words += 2 * PART)
        all = with_part(all, measure_part(words, PART, turn));
    return with_part(all, measure_part(words, posts, turn));
}
#endif

static bool has_bad_word(struct measure m, bool voids) { return m.highest > HIGHEST || m.turned > -LOWEST + voids; }

/* Of a word that no cell may hold; 8000 is height 0 as well. */
static bool is_bad_word(uint16_t word, bool voids) {
    return word > HIGHEST && (uint16_t)(word - 0x8000) > -LOWEST && !(voids && word == 0xFFFF);
}

static size_t first_bad_word(const uint8_t *words, bool voids) {
    size_t i = 0;
    while (!is_bad_word(be16(words + 2 * i), voids))
        i++;
    return i;
}

static dted_answer judge_column(const uint8_t *cell, size_t length, const struct facts *f, unsigned number) {
    size_t base = DTED_HEADER_BYTES + number * f->column_bytes, end = f->column_bytes - 4;
    const uint8_t *column = cell + base;
    if (length < base + f->column_bytes)
        return refuse(DTED_CUT, base);
    if (column[0] != 170)
        return refuse(DTED_PREAMBLE, base);
    if (be24(column + 1) != number)
        return refuse(DTED_PREAMBLE, base + 1);
    if (be16(column + 4) != number)
        return refuse(DTED_PREAMBLE, base + 4);
    if (be16(column + 6) != 0)
        return refuse(DTED_PREAMBLE, base + 6);
    struct measure words = measure_words(column + 8, f->posts, turn_for(f->voids));
    if (be32(column + end) != byte_sum(column, 8) + words.sum)
        return refuse(DTED_CHECKSUM, base + end);
    if (has_bad_word(words, f->voids))
        return refuse(DTED_WORD, base + 8 + 2 * first_bad_word(column + 8, f->voids));
    return done();
}

/* ---- calls on a cell ---- */

dted_answer plain_intake(uint32_t year, const uint8_t *cell, size_t length) {
    struct facts f;
    dted_answer answer = judge_headers(year, cell, length, &f);
    if (dted_number(answer) != DTED_OK)
        return answer;
    for (unsigned k = 0; k < f.columns; k++)
        if (dted_number(answer = judge_column(cell, length, &f, k)) != DTED_OK)
            return answer;
    size_t due = DTED_HEADER_BYTES + f.columns * f.column_bytes;
    if (length > due)
        return refuse(DTED_SURPLUS, due);
    return hold(DTED_HOLDS_GRID, (uint64_t)f.level << 32 | (uint64_t)f.columns << 16 | f.posts);
}

/* The year, the headers, the post's place on the grid, and its column. */
static dted_answer reach(uint32_t year, const uint8_t *cell, size_t length, uint64_t column, uint64_t post, struct facts *f) {
    dted_answer answer = judge_headers(year, cell, length, f);
    if (dted_number(answer) != DTED_OK)
        return answer;
    if (column >= f->columns || post >= f->posts)
        return refuse(DTED_OFF_GRID, 0);
    return judge_column(cell, length, f, (unsigned)column);
}

dted_answer plain_post(uint32_t year, const uint8_t *cell, size_t length, uint64_t column, uint64_t post) {
    struct facts f;
    dted_answer answer = reach(year, cell, length, column, post, &f);
    if (dted_number(answer) != DTED_OK)
        return answer;
    const uint8_t *word = cell + DTED_HEADER_BYTES + column * f.column_bytes + 8 + 2 * post;
    return hold(DTED_HOLDS_HEIGHT, (uint64_t)dted_word_height(word) & 0xFFFF);
}

static bool may_hold(int64_t height, bool voids) {
    return (height >= LOWEST && height <= HIGHEST) || (voids && height == DTED_VOID);
}

/* A void, too, is its sign and its magnitude; nothing here is wider than 16 bits, which makes for more lanes in a vector. */
static inline uint16_t word_of(int16_t height) {
    uint16_t negative = (uint16_t)(0x8000 - (uint16_t)height);
    return height < 0 ? negative : (uint16_t)height;
}

dted_answer plain_edit(uint32_t year, uint8_t *cell, size_t length, uint64_t column, uint64_t post, int64_t height) {
    struct facts f;
    dted_answer answer = reach(year, cell, length, column, post, &f);
    if (dted_number(answer) != DTED_OK)
        return answer;
    if (!may_hold(height, f.voids))
        return refuse(DTED_HEIGHT, 0);
    uint8_t *start = cell + DTED_HEADER_BYTES + column * f.column_bytes, *word = start + 8 + 2 * post;
    uint8_t *check = start + f.column_bytes - 4;
    uint32_t rest = be32(check) - word[0] - word[1];
    put16(word, word_of((int16_t)height));
    put32(check, rest + word[0] + word[1]);
    return done();
}

/* ---- the writer ---- */

/* The number of the first item out of its range, or 0. */
static unsigned bad_item(const int64_t *items) {
    static const int range[DTED_ITEMS][2] = {
        {0, 2}, {-90, 89}, {-180, 179}, {'A', 'Z'}, {1, 99}, {'A', 'Z'}, {0, 1},
        {-1, 9999}, {-1, 9999}, {-1, 9999}, {-1, 9999}, {-1, 9999}, {0, 99},
    };
    for (unsigned i = 0; i < DTED_ITEMS; i++)
        if (items[i] < range[i][0] || items[i] > range[i][1] || (i == DTED_SECURITY && !is_security(items[i])))
            return i + 1;
    return 0;
}

static inline int16_t height_at(const uint8_t *grid, size_t i) { return (int16_t)be16(grid + 2 * i); }

/* `pass` is the void where voids are allowed and 0 elsewhere. */
static inline bool is_bad_height(int16_t height, int16_t pass) {
    return ((height < LOWEST) | (height > HIGHEST)) & (height != pass);
}

/* Where no void is allowed the highest and the lowest tell it. */
static bool any_bad_height(const uint8_t *grid, size_t posts) {
    int16_t highest = INT16_MIN, lowest = INT16_MAX;
    for (size_t i = 0; i < posts; i++) {
        int16_t height = height_at(grid, i);
        highest = higher(highest, height);
        lowest = height < lowest ? height : lowest;
    }
    return highest > HIGHEST || lowest < LOWEST;
}

static bool any_bad_height_or_void(const uint8_t *grid, size_t posts) {
    uint16_t bad = 0;
    for (size_t i = 0; i < posts; i++)
        bad = (uint16_t)(bad | is_bad_height(height_at(grid, i), DTED_VOID));
    return bad;
}

/* The index of the first height that may not be written, or the number of posts. */
static size_t first_bad_height(const uint8_t *grid, const struct facts *f) {
    int16_t pass = f->voids ? DTED_VOID : 0;
    size_t i = 0, posts = (size_t)f->columns * f->posts;
    while (i < posts && !(f->voids ? any_bad_height_or_void : any_bad_height)(grid + 2 * i, f->posts))
        i += f->posts;
    while (i < posts && !is_bad_height(height_at(grid, i), pass))
        i++;
    return i;
}

/* The sums are put where a pointer says: where they are returned, clang makes no vectors. */
static inline void put_part(uint8_t *restrict out, const uint8_t *restrict grid, size_t n, struct sums *restrict put) {
    struct sums sums = {0, 0};
    for (size_t i = 0; i < n; i++) {
        put16(out + 2 * i, word_of(height_at(grid, i)));
        add_word(&sums, native16(out + 2 * i));
    }
    *put = sums;
}

/* Puts words, and gives the sum of their bytes. */
#ifdef IN_PASSES
static uint32_t put_words(uint8_t *restrict out, const uint8_t *restrict grid, size_t posts) {
    for (size_t i = 0; i < posts; i++)
        put16(out + 2 * i, word_of(height_at(grid, i)));
    return sum_in_blocks(out, 2 * posts);
}
#else
static uint32_t put_words(uint8_t *restrict out, const uint8_t *restrict grid, size_t posts) {
    struct sums put;
    uint32_t sum = 0;
    for (; posts >= PART; posts -= PART, out += 2 * PART, grid += 2 * PART) {
        put_part(out, grid, PART, &put);
        sum += bytes_of(put);
    }
    put_part(out, grid, posts, &put);
    return sum + bytes_of(put);
}
#endif

static void put_column(uint8_t *restrict out, const uint8_t *restrict grid, unsigned posts, unsigned number) {
    memset(out, 0, 8);
    out[0] = 170;
    put16(out + 2, (uint16_t)number);
    put16(out + 4, (uint16_t)number);
    put32(out + 8 + 2 * (size_t)posts, byte_sum(out, 8) + put_words(out + 8, grid, posts));
}

dted_answer plain_write(uint32_t year, uint8_t *out, size_t room, const int64_t *items, const uint8_t *grid, size_t bytes) {
    struct facts f;
    unsigned item = bad_item(items);
    if (!is_year(year))
        return refuse(DTED_YEAR, year);
    if (item)
        return refuse(DTED_ITEM, item);
    lay(&f, (unsigned)items[DTED_LEVEL], (int)items[DTED_LATITUDE]);
    f.longitude = (int)items[DTED_LONGITUDE];
    f.voids = allows_voids(year, f.level, items[DTED_PARTIAL] != 0);
    size_t posts = (size_t)f.columns * f.posts, due = DTED_HEADER_BYTES + f.columns * f.column_bytes;
    if (bytes != 2 * posts)
        return refuse(DTED_GRID_LENGTH, posts);
    size_t bad = first_bad_height(grid, &f);
    if (bad < posts)
        return refuse(DTED_HEIGHT, bad);
    if (room < due)
        return refuse(DTED_ROOM, due);
    put_headers(out, items, &f);
    for (unsigned k = 0; k < f.columns; k++)
        put_column(out + DTED_HEADER_BYTES + k * f.column_bytes, grid + 2 * (size_t)k * f.posts, f.posts, k);
    return done();
}
