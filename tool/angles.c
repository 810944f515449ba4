/* angles.c - angles of the command line, in whole numbers alone: exact to the last digit that was given. */
#include "numbers.h"
#include "say.h"

#include <ctype.h>
#include <dted.h>
#include <string.h>

/* No angle has so many degrees, and no sum of them overflows. */
enum { TOO_MANY = 1000000 };

/* The digits at `*at`, which moves past them, as a number; one from TOO_MANY on as TOO_MANY. */
static bool whole(const char **at, int64_t *value) {
    const char *first = *at;
    *value = 0;
    for (; isdigit((unsigned char)**at); (*at)++) {
        *value = 10 * *value + (**at - '0');
        if (*value > TOO_MANY)
            *value = TOO_MANY;
    }
    return *at > first;
}

/* A point and digits at `*at`, where there is a point, as that part of a unit: the nearest whole number, of two the higher. It goes
 * from the last digit to the first, so that no number grows; to cut at each step is to cut once at the end. */
static bool fraction(const char **at, int64_t unit, int64_t *value) {
    int64_t halves = 0;
    *value = 0;
    if (**at != '.')
        return true;
    const char *first = ++*at;
    *at += strspn(first, "0123456789");
    for (const char *digit = *at; digit-- > first;)
        halves = (halves + 2 * unit * (*digit - '0')) / 10;
    *value = (halves + 1) / 2;
    return *at > first;
}

/* One of the sixty parts after a colon. */
static bool sixtieth(const char **at, int64_t *value) {
    return *(*at)++ == ':' && whole(at, value) && *value < 60;
}

/* An angle without its sign or letter: degrees in decimal, or degrees, minutes and seconds. */
static bool magnitude(const char **at, int64_t *tenths) {
    int64_t degrees, minutes = 0, seconds = 0, part;
    if (!whole(at, &degrees))
        return false;
    bool parted = **at == ':';
    if (parted && !(sixtieth(at, &minutes) && sixtieth(at, &seconds)))
        return false;
    if (!fraction(at, parted ? 10 : DTED_DEGREE, &part))
        return false;
    *tenths = degrees * DTED_DEGREE + minutes * 600 + seconds * 10 + part;
    return true;
}

/* An angle with a sign or one of two letters, of which the second means below 0. */
static bool is_angle(const char *word, const char *letters, int64_t *tenths) {
    bool below = word[0] == '-', has_sign = below || word[0] == '+';
    const char *at = word + has_sign;
    if (!magnitude(&at, tenths))
        return false;
    int letter = has_sign ? '\0' : toupper((unsigned char)*at);
    if (letter != '\0' && strchr(letters, letter)) {
        below = letter == letters[1];
        at++;
    }
    if (below)
        *tenths = -*tenths;
    return *at == '\0';
}

bool take_latitude(const char *word, int64_t *tenths) {
    return is_angle(word, "NS", tenths) || wrong_word(word, "not a latitude");
}

bool take_longitude(const char *word, int64_t *tenths) {
    return is_angle(word, "EW", tenths) || wrong_word(word, "not a longitude");
}
