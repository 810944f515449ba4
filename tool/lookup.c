/* lookup.c - dted post and dted at: the height of one post. The whole cell is judged first, so that nobody is handed a height of a
 * cell that dted check refuses. */
#include "commands.h"
#include "numbers.h"
#include "say.h"

#include <unistd.h>

int post(struct cell *cell, char **words) {
    uint64_t column, number;
    char text[HEIGHT_ROOM];
    if (!take_count(words[1], &column) || !take_count(words[2], &number))
        return TROUBLE;
    int status = take_cell(cell, words[0]);
    if (status != DONE)
        return status;
    dted_answer answer = dted_post(cell->year, cell->bytes, cell->length, column, number);
    if (dted_number(answer) != DTED_OK)
        return refused(cell, words[0], answer);
    return say(STDOUT_FILENO, "%s\n", height_words(text, dted_height(answer)));
}

int at(struct cell *cell, char **words) {
    int64_t latitude, longitude;
    char text[HEIGHT_ROOM];
    if (!take_latitude(words[1], &latitude) || !take_longitude(words[2], &longitude))
        return TROUBLE;
    int status = take_cell(cell, words[0]);
    if (status != DONE)
        return status;
    dted_answer answer = dted_position(cell->year, cell->bytes, cell->length, latitude, longitude);
    if (dted_number(answer) != DTED_OK)
        return refused(cell, words[0], answer);
    return say(STDOUT_FILENO, "%s column %u post %u\n", height_words(text, dted_height(answer)), dted_position_column(answer),
               dted_position_post(answer));
}
