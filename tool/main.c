/* main.c - dted: judges, shows, corrects and draws DTED cells. man 1 dted says what each command does. */
#define _POSIX_C_SOURCE 200809L
#include "commands.h"
#include "files.h"
#include "numbers.h"
#include "say.h"

#include <errno.h>
#include <limits.h>
#include <stdlib.h>
#include <unistd.h>

/* A command, its words as the usage shows them behind the rule year, how many they are at least and at most, and how many of them name
 * files. */
struct command {
    const char *name, *words;
    int least, most, files;
    int (*run)(struct cell *cell, char **words);
};

static const struct command commands[] = {
    {"check", "FILE..", 1, INT_MAX, INT_MAX, check},
    {"info", "FILE", 1, 1, 1, info},
    {"post", "FILE COLUMN POST", 3, 3, 1, post},
    {"at", "FILE LATITUDE LONGITUDE", 3, 3, 1, at},
    {"set", "FILE COLUMN POST HEIGHT", 4, 4, 1, set},
    {"relief", "FILE OUT.pgm [TIMES]", 2, 3, 2, relief},
};

enum { COMMANDS = sizeof commands / sizeof *commands };

/* How one command is called. */
static int usage_of(const struct command *command, int descriptor) {
    return say(descriptor, "usage: dted %s [--year 1|2] %s\n", command->name, command->words);
}

/* How every command is called. */
static int usage(int descriptor) {
    int status = say(descriptor, "usage: dted [COMMAND] -h | --help\n       dted --version\n");
    for (int i = 0; status == DONE && i < COMMANDS; i++)
        status = say(descriptor, "       dted %s [--year 1|2] %s\n", commands[i].name, commands[i].words);
    return status;
}

static const struct command *find(const char *name) {
    for (int i = 0; i < COMMANDS; i++)
        if (strcmp(name, commands[i].name) == 0)
            return &commands[i];
    return NULL;
}

static bool is_help(const char *word) {
    return strcmp(word, "-h") == 0 || strcmp(word, "--help") == 0;
}

/* No exit status: the command is to be run. */
enum { GOES_ON = -1 };

/* The option at the first word: the rule year, which is the word behind it, or how the command is called. */
static int take_option(const struct command *command, char **words, uint32_t *year) {
    if (is_help(words[0]))
        return usage_of(command, STDOUT_FILENO);
    if (strcmp(words[0], "--year") != 0)
        return complain(TROUBLE, words[0], "no such option");
    if (!words[1])
        return complain(TROUBLE, words[0], "no rule year behind it");
    return take_year(words[1], year) ? GOES_ON : TROUBLE;
}

/* Removes so many words from the first of them on; null still ends the others. */
static void remove_words(int *count, char **words, int first, int number) {
    *count -= number;
    memmove(words + first, words + first + number, (size_t)(*count - first + 1) * sizeof *words);
}

/* Takes out the options and the `--` that ends them. Where a file is due before it, a word with a dash is an option, and `-` alone a
 * file. */
static int take_options(const struct command *command, int *count, char **words, uint32_t *year) {
    int i = 0;
    while (i < *count && i < command->files && strcmp(words[i], "--") != 0) {
        if (words[i][0] != '-' || words[i][1] == '\0') {
            i++;
            continue;
        }
        int status = take_option(command, words + i, year);
        if (status != GOES_ON)
            return status;
        remove_words(count, words, i, 2);
    }
    if (i < *count && strcmp(words[i], "--") == 0)
        remove_words(count, words, i, 1);
    return GOES_ON;
}

/* Runs a command on its words, with room for a cell; pages of it that no file fills are never touched. */
static int run(const struct command *command, int count, char **words) {
    struct cell cell = {.year = DTED_YEAR_2};
    int status = take_options(command, &count, words, &cell.year);
    if (status != GOES_ON)
        return status;
    if (count < command->least || count > command->most) {
        usage_of(command, STDERR_FILENO);
        return TROUBLE;
    }
    cell.bytes = malloc(CELL_ROOM);
    if (!cell.bytes)
        return complain(TROUBLE, command->name, strerror(errno));
    status = command->run(&cell, words);
    free(cell.bytes);
    return status;
}

int main(int count, char **words) {
    if (!take_closed())
        return TROUBLE;
    if (count < 2) {
        usage(STDERR_FILENO);
        return TROUBLE;
    }
    if (count == 2 && is_help(words[1]))
        return usage(STDOUT_FILENO);
    if (count == 2 && strcmp(words[1], "--version") == 0)
        return say(STDOUT_FILENO, "dted %s\n", DTED_VERSION);
    const struct command *command = find(words[1]);
    return command ? run(command, count - 2, words + 2) : complain(TROUBLE, words[1], "no such command");
}
