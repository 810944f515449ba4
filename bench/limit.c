/* limit.c - see limit.h. Two rows of words side by side, so that no addition waits for the one before, and nothing is put back into
 * memory: of the forms tried the fastest. */
#include "limit.h"

#include <string.h>

static inline uint64_t word_at(const uint8_t *p) {
    uint64_t word;
    memcpy(&word, p, sizeof word);
    return word;
}

uint64_t read_pass(const uint8_t *bytes, size_t length) {
    size_t words = length / 16;
    const uint8_t *half = bytes + 8 * words;
    uint64_t first = 0, second = 0, rest = 0;
    for (size_t i = 0; i < words; i++) {
        first += word_at(bytes + 8 * i);
        second += word_at(half + 8 * i);
    }
    for (size_t i = 16 * words; i < length; i++)
        rest += bytes[i];
    return first + second + rest;
}
