/* lines.c - what the intake program must print, by the second reader; and files to try both on.
 *
 * lines FILE                    prints `accepted LEVEL COLUMNS POSTS` or `refused NO PLACE` of the file, in rule year 2 as the program.
 * lines --year1 FILE            the same in year 1.
 * lines --drip FILE             writes the file to standard output, a byte at a time.
 * lines --make DIR SEED N       writes N cells, whole and damaged, as DIR/0000.cell and so on.
 * lines --inputs DIR SEED N     writes N first inputs for the fuzzer, as DIR/0000.
 */
#define _POSIX_C_SOURCE 200809L
#include "cells.h"
#include "second.h"

#include <inttypes.h>
#include <stdio.h>
#include <stdlib.h>
#include <string.h>
#include <unistd.h>

static void give_up(const char *what) {
    perror(what);
    exit(2);
}

/* ---- lines FILE ---- */

static uint8_t *read_file(const char *name, size_t *length) {
    FILE *file = fopen(name, "rb");
    size_t room = 1 << 20, more;
    uint8_t *bytes = malloc(room);
    if (file == NULL || bytes == NULL)
        give_up(name);
    *length = 0;
    while ((more = fread(bytes + *length, 1, room - *length, file)) > 0) {
        *length += more;
        if (*length == room && (bytes = realloc(bytes, room *= 2)) == NULL)
            give_up(name);
    }
    if (ferror(file))
        give_up(name);
    fclose(file);
    return bytes;
}

static void print_line(uint32_t year, const char *name) {
    size_t length;
    uint8_t *bytes = read_file(name, &length);
    uint64_t answer = second_intake(year, bytes, length);
    unsigned number = (unsigned)(answer >> 56);
    if (number == 0)
        printf("accepted %u %u %u\n", (unsigned)(answer >> 32 & 0xFFFF), (unsigned)(answer >> 16 & 0xFFFF), (unsigned)(answer & 0xFFFF));
    else
        printf("refused %u %" PRIu64 "\n", number, answer & UINT64_C(0xFFFFFFFFFFFFFF));
    free(bytes);
}

/* ---- files ---- */

static void write_file(const char *folder, uint64_t number, const char *ending, const uint8_t *bytes, size_t length) {
    char name[4096];
    int count = snprintf(name, sizeof name, "%s/%04" PRIu64 "%s", folder, number, ending);
    FILE *file = count > 0 && (size_t)count < sizeof name ? fopen(name, "wb") : NULL;
    if (file == NULL || fwrite(bytes, 1, length, file) != length || fclose(file) != 0)
        give_up(folder);
}

/* Most are of level 0; one in 50 a whole cell of level 1, one in 100 of level 2, and one in 8 the front part of either. */
static void make_files(const char *folder, uint64_t seed, uint64_t files) {
    struct cell cell = {0};
    for (uint64_t number = 0; number < files; number++) {
        struct random random = random_of_case(seed, number);
        int64_t items[CELL_ITEMS], level = number % 50 == 25 ? 1 : number % 100 == 60 ? 2 : 0;
        size_t columns = SIZE_MAX;
        if (number % 8 == 7) {
            level = 1 + (int64_t)random_below(&random, 2);
            columns = random_below(&random, 8);
        }
        cell_items(&random, level, items);
        cell_make(&random, items, columns, &cell);
        if (number % 5 != 0)
            cell_damage(&random, &cell);
        write_file(folder, number, ".cell", cell.bytes, cell.length);
    }
    cell_free(&cell);
}

/* The layout is fuzz.c's: a byte that chooses, one for the year, three numbers of 8 bytes, then bytes. Every choice comes up in turn. */
#define FRONT 26

static void make_inputs(const char *folder, uint64_t seed, uint64_t files) {
    struct cell cell = {0};
    static uint8_t input[FRONT + 40000];
    for (uint64_t number = 0; number < files; number++) {
        struct random random = random_of_case(seed, number);
        int64_t items[CELL_ITEMS];
        cell_items(&random, 0, items);
        items[1] = 80 + (int64_t)random_below(&random, 10); /* zone V: the shortest cells */
        cell_make(&random, items, SIZE_MAX, &cell);
        for (size_t i = 1; i < FRONT; i++)
            input[i] = (uint8_t)random_next(&random);
        input[0] = (uint8_t)number;
        size_t length = (number & 8) == 0 ? cell.length : 40;
        memcpy(input + FRONT, (number & 8) == 0 ? cell.bytes : cell.grid, length);
        write_file(folder, number, "", input, FRONT + length);
    }
    cell_free(&cell);
}

/* A file on standard output, a byte at a time. */
static void drip(const char *name) {
    size_t length;
    uint8_t *bytes = read_file(name, &length);
    for (size_t i = 0; i < length; i++)
        if (write(STDOUT_FILENO, bytes + i, 1) != 1)
            break; /* who reads has seen enough */
    free(bytes);
}

static uint64_t number_of(const char *text) {
    char *end;
    uint64_t number = strtoull(text, &end, 0);
    if (*text == '\0' || *end != '\0') {
        fprintf(stderr, "lines: '%s' is no number\n", text);
        exit(2);
    }
    return number;
}

int main(int count, char **texts) {
    if (count == 2 && texts[1][0] != '-')
        print_line(2, texts[1]);
    else if (count == 3 && strcmp(texts[1], "--year1") == 0)
        print_line(1, texts[2]);
    else if (count == 5 && strcmp(texts[1], "--make") == 0)
        make_files(texts[2], number_of(texts[3]), number_of(texts[4]));
    else if (count == 5 && strcmp(texts[1], "--inputs") == 0)
        make_inputs(texts[2], number_of(texts[3]), number_of(texts[4]));
    else if (count == 3 && strcmp(texts[1], "--drip") == 0)
        drip(texts[2]);
    else {
        fputs("lines [--year1 | --drip] FILE, lines --make DIR SEED N, or lines --inputs DIR SEED N\n", stderr);
        return 2;
    }
    return 0;
}
