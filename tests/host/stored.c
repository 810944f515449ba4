/* stored.c - every stored cell judged in both rule years: NAME.line has the answer of year 2, NAME.year1 that of year 1 where it is
 * another. */
#define _POSIX_C_SOURCE 200809L /* opendir */
#include "stored.h"

#include "both.h"
#include "compare.h"
#include "dted.h"

#include <dirent.h>
#include <inttypes.h>
#include <stdbool.h>
#include <stdio.h>
#include <string.h>

enum { LEAST_CELLS = 27, LINE = 64 };

size_t stored_read(const char *name, void *to, size_t room) {
    char path[4096];
    snprintf(path, sizeof path, "%s/%s", CELLS, name);
    FILE *file = fopen(path, "rb");
    if (file == NULL)
        return SIZE_MAX;
    size_t length = fread(to, 1, room, file);
    fclose(file);
    return length;
}

/* A line beside the cell, without its end; false where there is none. */
static bool read_line(const char *cell, const char *ending, char line[LINE]) {
    char name[4096];
    snprintf(name, sizeof name, "%.*s%s", (int)strcspn(cell, "."), cell, ending);
    size_t length = stored_read(name, line, LINE - 1);
    if (length == SIZE_MAX)
        return false;
    line[length] = '\0';
    line[strcspn(line, "\n")] = '\0';
    return true;
}

/* The line that the intake program has for an answer. */
static void line_of(dted_answer answer, char line[LINE]) {
    if (dted_number(answer) == DTED_OK)
        snprintf(line, LINE, "accepted %u %u %u", dted_level(answer), dted_columns(answer), dted_posts(answer));
    else
        snprintf(line, LINE, "refused %u %" PRIu64, dted_number(answer), dted_place(answer));
}

static void stored_case(const void *context) {
    static uint8_t bytes[40000];
    const char *name = context;
    char due[3][LINE] = {"", "", "no line"}, line[LINE];
    name_case("%s in both years", name);
    size_t length = stored_read(name, bytes, sizeof bytes);
    expect("it is read whole", length < sizeof bytes, 1);
    expect("its line is there", read_line(name, ".line", due[2]), 1);
    if (read_line(name, ".year1", due[1]))
        expect("another line in year 1", strcmp(due[1], due[2]) != 0, 1);
    else
        memcpy(due[1], due[2], LINE);
    for (uint32_t year = 1; year <= 2; year++) {
        both_year(year);
        both_lend(bytes, length);
        line_of(both_intake(), line);
        expect(year == 1 ? "the line of year 1" : "the line of year 2", strcmp(line, due[year]) == 0, 1);
    }
}

static void found_case(const void *context) {
    name_case("the stored cells");
    expect("so many are found", *(const size_t *)context >= LEAST_CELLS, 1);
}

void run_stored_cases(void) {
    DIR *folder = opendir(CELLS);
    size_t found = 0;
    for (struct dirent *file; folder != NULL && (file = readdir(folder)) != NULL;)
        if (strstr(file->d_name, ".dt") != NULL) {
            run_case(stored_case, file->d_name);
            found++;
        }
    if (folder != NULL)
        closedir(folder);
    run_case(found_case, &found);
}
