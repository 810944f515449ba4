/* say_words.c - all that dted_words.h says, a line each with tabs between, for check_words to hold against the scope paper:
 * field OFFSET TEXT, reason NUMBER TEXT, item NUMBER TEXT, refusal NUMBER PLACE TEXT. TEXT is empty where there is none. */
#include "dted_words.h"

#include <limits.h>

#define COUNT(array) (sizeof(array) / sizeof((array)[0]))

static const char *or_empty(const char *text) {
    return text == NULL ? "" : text;
}

static void say_field(uint64_t offset) {
    printf("field\t%" PRIu64 "\t%s\n", offset, or_empty(dted_field(offset)));
}

static void say_reason(unsigned number) {
    printf("reason\t%u\t%s\n", number, or_empty(dted_reason(number)));
}

static void say_item(uint64_t number) {
    printf("item\t%" PRIu64 "\t%s\n", number, or_empty(dted_item_name(number)));
}

static void say_refusal(uint64_t number, uint64_t place) {
    char text[DTED_WORDS_ROOM];
    dted_answer answer = {number << 56 | place};
    printf("refusal\t%" PRIu64 "\t%" PRIu64 "\t%s\n", number, place, dted_refusal(text, sizeof text, answer));
}

/* A number that is cut to fewer bits would be taken for a small one. */
static void say_far(void) {
    static const uint64_t far[] = {UINT64_C(1) << 32, (UINT64_C(1) << 32) + 24, UINT64_C(1) << 63, UINT64_MAX};
    for (size_t i = 0; i < COUNT(far); i++)
        say_field(far[i]);
    say_reason(256 + 5);
    say_reason(65536 + 5);
    say_reason(UINT_MAX);
    say_item(256 + 5);
    say_item(65536 + 5);
    say_item((UINT64_C(1) << 32) + 5);
}

int main(void) {
    static const uint64_t places[] = {0, 1, 3, 13, 14, 24, 328, 3678, 25981042, UINT32_MAX, UINT64_C(0xFFFFFFFFFFFFFF)};
    for (uint64_t offset = 0; offset < 3500; offset++)
        say_field(offset);
    for (unsigned number = 0; number < 256; number++)
        say_reason(number);
    for (unsigned number = 0; number < 256; number++)
        say_item(number);
    say_far();
    for (size_t i = 0; i < COUNT(places); i++)
        for (uint64_t number = 0; number < 26; number++)
            say_refusal(number < 25 ? number : 255, places[i]);
    return 0;
}
