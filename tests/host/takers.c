/* takers.c - the header's functions that take an answer apart. checked_takers.c and quiet_takers.c build this file once more. */
#include "takers.h"

static uint64_t number(dted_answer answer) { return dted_number(answer); }
static uint64_t level(dted_answer answer) { return dted_level(answer); }
static uint64_t columns(dted_answer answer) { return dted_columns(answer); }
static uint64_t posts(dted_answer answer) { return dted_posts(answer); }
static uint64_t column_length(dted_answer answer) { return dted_column_length(answer); }
static uint64_t cell_length(dted_answer answer) { return dted_cell_length(answer); }
static uint64_t height(dted_answer answer) { return (uint64_t)dted_height(answer); }
static uint64_t position_column(dted_answer answer) { return dted_position_column(answer); }
static uint64_t position_post(dted_answer answer) { return dted_position_post(answer); }

taker *const takers[TAKERS] = {
    [TAKE_NUMBER] = number,
    [TAKE_PLACE] = dted_place,
    [TAKE_LEVEL] = level,
    [TAKE_COLUMNS] = columns,
    [TAKE_POSTS] = posts,
    [TAKE_COLUMN_LENGTH] = column_length,
    [TAKE_CELL_LENGTH] = cell_length,
    [TAKE_HEIGHT] = height,
    [TAKE_POSITION_COLUMN] = position_column,
    [TAKE_POSITION_POST] = position_post,
};
