/* dted_words.h - the answers of dted.h in words, for logs and for people. The words may change from version to version: a program goes
 * by the numbers. It needs nothing of the archive. For C99 and C++11. Names that end in _ are this header's own.
 */
#ifndef DTED_WORDS_H
#define DTED_WORDS_H

#include "dted.h"

#include <inttypes.h>
#include <stdio.h>
#include <string.h>

/* Room that is always enough for dted_refusal. */
#define DTED_WORDS_ROOM 160

/* What a refusal says, and what its place counts; null where the place says nothing. */
typedef struct {
    size_t number; /* as wide as a pointer: no compiler has a gap to warn of */
    const char *reason, *place;
} dted_refusal_words_;

/* One row to a number; the last one is for every number without a row. */
static const dted_refusal_words_ dted_refusals_[] = {
    {DTED_OK, "accepted", NULL},
    {DTED_SHORT, "fewer bytes than the headers have", "length"},
    {DTED_CUT, "a column is not there whole", "offset"},
    {DTED_PREAMBLE, "a preamble field is wrong", "offset"},
    {DTED_CHECKSUM, "a checksum differs", "offset"},
    {DTED_WORD, "a post word is not allowed", "offset"},
    {DTED_SURPLUS, "bytes stand after the last column", "length due"},
    {DTED_OFF_GRID, "no such column, post or position", NULL},
    {DTED_ITEM, "an item is out of its range", "item"},
    {DTED_GRID_LENGTH, "the grid's length differs", "posts due"},
    {DTED_HEIGHT, "a height or void is not allowed", "index"},
    {DTED_ROOM, "the output is too short", "length due"},
    {DTED_YEAR, "the rule year is neither 1 nor 2", "year"},
    {DTED_FIELD_IMPOSSIBLE, "a header field has bytes that are never accepted there", "offset"},
    {DTED_FIELD_CONTRADICTS, "a header field contradicts another field", "offset"},
    {DTED_FIELD_OFF_TABLE, "an interval or a count is not that of level and zone", "offset"},
    {0, "an unknown number", "place"},
};

/* A header field: the bytes of the file from `first` to before `end`. */
typedef struct {
    unsigned first, end;
    const char *name;
} dted_field_words_;

/* In the order of their offsets; positions count from 1 inside the record. */
static const dted_field_words_ dted_fields_[] = {
    {0, 4, "UHL 1-4, record name"},
    {4, 12, "UHL 5-12, origin longitude"},
    {12, 20, "UHL 13-20, origin latitude"},
    {20, 24, "UHL 21-24, longitude interval"},
    {24, 28, "UHL 25-28, latitude interval"},
    {28, 32, "UHL 29-32, accuracy"},
    {32, 35, "UHL 33-35, security"},
    {47, 51, "UHL 48-51, columns"},
    {51, 55, "UHL 52-55, posts to a column"},
    {55, 56, "UHL 56, multiple accuracy flag"},
    {80, 83, "DSI 1-3, record name"},
    {83, 84, "DSI 4, security"},
    {139, 144, "DSI 60-64, series and level"},
    {167, 169, "DSI 88-89, edition"},
    {169, 170, "DSI 90, match version"},
    {206, 215, "DSI 127-135, product specification"},
    {221, 224, "DSI 142-144, vertical datum"},
    {224, 229, "DSI 145-149, horizontal datum"},
    {265, 274, "DSI 186-194, origin latitude"},
    {274, 284, "DSI 195-204, origin longitude"},
    {284, 291, "DSI 205-211, south-west corner latitude"},
    {291, 299, "DSI 212-219, south-west corner longitude"},
    {299, 306, "DSI 220-226, north-west corner latitude"},
    {306, 314, "DSI 227-234, north-west corner longitude"},
    {314, 321, "DSI 235-241, north-east corner latitude"},
    {321, 329, "DSI 242-249, north-east corner longitude"},
    {329, 336, "DSI 250-256, south-east corner latitude"},
    {336, 344, "DSI 257-264, south-east corner longitude"},
    {344, 353, "DSI 265-273, orientation"},
    {353, 357, "DSI 274-277, latitude interval"},
    {357, 361, "DSI 278-281, longitude interval"},
    {361, 365, "DSI 282-285, posts to a column"},
    {365, 369, "DSI 286-289, columns"},
    {369, 371, "DSI 290-291, partial indicator"},
    {728, 731, "ACC 1-3, record name"},
    {731, 735, "ACC 4-7, absolute horizontal accuracy"},
    {735, 739, "ACC 8-11, absolute vertical accuracy"},
    {739, 743, "ACC 12-15, relative horizontal accuracy"},
    {743, 747, "ACC 16-19, relative vertical accuracy"},
    {783, 785, "ACC 56-57, accuracy sub-regions"},
};

/* The words of a refusal's number. */
static inline const dted_refusal_words_ *dted_words_of_(unsigned number) {
    const dted_refusal_words_ *words = dted_refusals_, *unknown = words + sizeof dted_refusals_ / sizeof *dted_refusals_ - 1;
    while (words != unknown && words->number != number)
        words++;
    return words;
}

/* What a number of dted.h says, in a few words; "accepted" for DTED_OK. */
static inline const char *dted_reason(unsigned number) { return dted_words_of_(number)->reason; }

/* The header field that has the byte at this offset in the file, by its position and name; null where none has it. */
static inline const char *dted_field(uint64_t offset) {
    for (size_t i = 0; i < sizeof dted_fields_ / sizeof *dted_fields_; i++)
        if (offset >= dted_fields_[i].first && offset < dted_fields_[i].end)
            return dted_fields_[i].name;
    return NULL;
}

/* The name of an item of a description by its number, from 1 as the place of DTED_ITEM has it; null where there is none. */
static inline const char *dted_item_name(uint64_t number) {
    static const char *const names[DTED_ITEMS] = {
        "level", "latitude", "longitude", "security", "edition", "match version", "vertical datum", "accuracy",
        "absolute horizontal accuracy", "absolute vertical accuracy", "relative horizontal accuracy", "relative vertical accuracy",
        "partial indicator",
    };
    return number >= 1 && number <= DTED_ITEMS ? names[number - 1] : NULL;
}

/* What stands at a refusal's place, where it has a name. */
static inline const char *dted_place_name_(unsigned number, uint64_t place) {
    if (number >= DTED_FIELD_IMPOSSIBLE && number <= DTED_FIELD_OFF_TABLE)
        return dted_field(place);
    return number == DTED_ITEM ? dted_item_name(place) : NULL;
}

/* The whole phrase of dted_refusal, whose room is enough. */
static inline void dted_phrase_(char whole[DTED_WORDS_ROOM], dted_answer answer) {
    unsigned number = dted_number(answer);
    const dted_refusal_words_ *words = dted_words_of_(number);
    uint64_t place = number == DTED_OK ? 0 : dted_place(answer);
    const char *name = dted_place_name_(number, place);
    if (number == DTED_OK)
        snprintf(whole, DTED_WORDS_ROOM, "%s", words->reason);
    else if (!words->place)
        snprintf(whole, DTED_WORDS_ROOM, "refused %u: %s", number, words->reason);
    else
        snprintf(whole, DTED_WORDS_ROOM, "refused %u: %s (%s %" PRIu64 "%s%s)", number, words->reason, words->place, place,
                 name ? ": " : "", name ? name : "");
}

/* A refused answer as one phrase, with its number, reason and place; "accepted" for one that is not refused. It is put into
 * `text`, which has `room` bytes, cut where it does not fit, and `text` is returned. */
static inline const char *dted_refusal(char *text, size_t room, dted_answer answer) {
    char whole[DTED_WORDS_ROOM];
    dted_phrase_(whole, answer);
    size_t length = strlen(whole);
    if (room == 0)
        return text;
    if (length >= room)
        length = room - 1;
    memcpy(text, whole, length);
    text[length] = '\0';
    return text;
}

#endif
