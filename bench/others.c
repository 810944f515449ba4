/* others.c - see others.h. */
#define _POSIX_C_SOURCE 200809L
#include "others.h"

#include <stdio.h>
#include <time.h>
#include <unistd.h>

static double own_time(void) {
    struct timespec t;
    clock_gettime(CLOCK_PROCESS_CPUTIME_ID, &t);
    return (double)t.tv_sec + (double)t.tv_nsec * 1e-9;
}

struct use machine_use(void) {
    double part[8] = {0};
    FILE *file = fopen("/proc/stat", "r");
    struct use use = {0, 0, own_time()};
    if (!file)
        return use;
    if (fscanf(file, "cpu %lf %lf %lf %lf %lf %lf %lf %lf", &part[0], &part[1], &part[2], &part[3], &part[4], &part[5], &part[6],
               &part[7]) == 8)
        for (int i = 0; i < 8; i++) {
            use.all += part[i] / (double)sysconf(_SC_CLK_TCK);
            use.busy += i == 3 || i == 4 ? 0 : part[i] / (double)sysconf(_SC_CLK_TCK); /* the fourth and fifth are idle */
        }
    fclose(file);
    return use;
}

void print_others(struct use before, struct use after) {
    double all = after.all - before.all, others = after.busy - before.busy - (after.own - before.own);
    if (all > 0)
        printf("\nothers meanwhile: %.0f%% of the machine's processor time\n", others > 0 ? 100 * others / all : 0);
}
