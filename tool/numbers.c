/* numbers.c - numbers of the command line. */
#include "numbers.h"
#include "say.h"

#include <ctype.h>
#include <dted.h>
#include <errno.h>
#include <math.h>
#include <stdlib.h>
#include <string.h>

bool take_count(const char *word, uint64_t *value) {
    char *end = NULL;
    errno = 0;
    if (isdigit((unsigned char)word[0])) /* strtoull would take a sign, and blanks */
        *value = strtoull(word, &end, 10);
    return (end && *end == '\0' && errno == 0) || wrong_word(word, "not a whole number of up to 64 bits");
}

bool take_height(const char *word, int64_t *height) {
    char *end = NULL;
    *height = DTED_VOID;
    if (strcmp(word, "void") == 0)
        return true;
    errno = 0;
    if (isdigit((unsigned char)word[word[0] == '-' || word[0] == '+']))
        *height = strtoll(word, &end, 10);
    return (end && *end == '\0' && errno == 0) || wrong_word(word, "neither whole metres nor void");
}

bool take_year(const char *word, uint32_t *year) {
    *year = strcmp(word, "1") == 0 ? DTED_YEAR_1 : DTED_YEAR_2;
    return *year == DTED_YEAR_1 || strcmp(word, "2") == 0 || wrong_word(word, "neither rule year 1 nor 2");
}

bool take_factor(const char *word, double *value) {
    char *end;
    *value = strtod(word, &end);
    return (end != word && *end == '\0' && isfinite(*value) && *value > 0) || wrong_word(word, "not a number above 0");
}
