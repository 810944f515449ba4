/* numbers.c - numbers from a seed, and numbers that are apt to break a call. */
#include "numbers.h"

/* The splitmix64 generator. */
uint64_t random_next(struct random *random) {
    uint64_t mixed = random->state += UINT64_C(0x9E3779B97F4A7C15);
    mixed = (mixed ^ mixed >> 30) * UINT64_C(0xBF58476D1CE4E5B9);
    mixed = (mixed ^ mixed >> 27) * UINT64_C(0x94D049BB133111EB);
    return mixed ^ mixed >> 31;
}

uint64_t random_below(struct random *random, uint64_t count) {
    return random_next(random) % count; /* a slight lean to small numbers does no harm here */
}

bool random_one_in(struct random *random, uint64_t count) {
    return random_below(random, count) == 0;
}

int64_t random_between(struct random *random, int64_t least, int64_t most) {
    return least + (int64_t)random_below(random, (uint64_t)(most - least) + 1);
}

struct random random_of_case(uint64_t seed, uint64_t number) {
    struct random random = {seed};
    random.state = random_next(&random) ^ number;
    random.state = random_next(&random);
    return random;
}

#define WRAPS(bytes) UINT64_MAX / (bytes), UINT64_MAX / (bytes) + 1, UINT64_MAX / (bytes)-13

const uint64_t odd_indices[] = {
    0, 1, 2, 3, 4, 19, 20, 21, 22, 30, 31, 40, 41, 60, 61, 119, 120, 121, 122, 200, 201, 254, 255, 256, 257, 300, 301, 400, 401,
    600, 601, 900, 901, 1200, 1201, 1202, 1800, 1801, 3427, 3428, 3600, 3601, 3602, 0x7FFF, 0x8000, 0xFFFF, 0x10000, 0x10001,
    0xFFFFFF, 0x1000000, 0x7FFFFFFF, 0x80000000, 0xFFFFFFFF, 0x100000000, 0x100000001, UINT64_C(1) << 48, UINT64_C(1) << 56,
    UINT64_C(1) << 62, (UINT64_C(1) << 63) - 1, UINT64_C(1) << 63, (UINT64_C(1) << 63) + 1, UINT64_MAX - 3601, UINT64_MAX - 1,
    UINT64_MAX, WRAPS(2), WRAPS(254), WRAPS(2414), WRAPS(7214),
};
const size_t odd_index_count = COUNT(odd_indices);

const int64_t odd_numbers[] = {
    INT64_MIN, INT64_MIN + 1, INT64_MIN / 2, -INT64_C(0x100000001), -INT64_C(0x100000000), -INT64_C(0x80000001),
    -INT64_C(0x80000000), -6480001, -6480000, -6479999, -3240001, -3240000, -65537, -65536, -65535, -32769, -32768,
    -32767, -32766, -12001, -12000, -11999, -257, -256, -255, -181, -180, -179, -129, -128, -91, -90, -89, -52, -51,
    -50, -3, -2, -1, 0, 1, 2, 3, 49, 50, 64, 65, 66, 67, 82, 83, 84, 85, 86, 88, 89, 90, 91, 97, 98, 99, 100, 117, 122,
    123, 127, 128, 178, 179, 180, 181, 255, 256, 257, 8999, 9000, 9001, 9998, 9999, 10000, 12000, 32766, 32767, 32768,
    32769, 33536, 53536, 65535, 65536, 65537, 3239999, 3240000, 3240001, 6479999, 6480000, 6480001,
    INT64_C(0x7FFFFFFF), INT64_C(0x80000000), INT64_C(0xFFFFFFFF), INT64_C(0x100000000), INT64_C(0x100000001),
    INT64_MAX / 2, INT64_MAX - 1, INT64_MAX,
};
const size_t odd_number_count = COUNT(odd_numbers);

static uint64_t high_bit(struct random *random) {
    static const unsigned shifts[] = {8, 16, 24, 31, 32, 48, 62, 63};
    return UINT64_C(1) << shifts[random_below(random, COUNT(shifts))];
}

uint64_t random_odd_index(struct random *random, uint64_t right) {
    if (random_one_in(random, 3))
        return right + high_bit(random);
    return odd_indices[random_below(random, odd_index_count)];
}

/* The signed number of the same 64 bits. */
static int64_t signed_of(uint64_t bits) {
    return bits <= INT64_MAX ? (int64_t)bits : -1 - (int64_t)(UINT64_MAX - bits);
}

int64_t random_odd_number(struct random *random, int64_t right) {
    if (random_one_in(random, 3))
        return signed_of(random_one_in(random, 2) ? (uint64_t)right + high_bit(random) : (uint64_t)right - high_bit(random));
    return odd_numbers[random_below(random, odd_number_count)];
}
