/* threads.c - cells a second that one thread and that all cores judge: each thread has its own copy of the cell of level 2. */
#define _POSIX_C_SOURCE 200809L
#include "laps.h"

#include <pthread.h>
#include <stdio.h>
#include <stdlib.h>
#include <string.h>
#include <time.h>
#include <unistd.h>

enum { TURNS = 9, CELLS_EACH = 12 };

/* One thread's work, between two times of the clock on the wall. */
struct worker {
    pthread_t thread;
    const struct calls *with;
    uint8_t *copy;
    pthread_barrier_t *start;
    bool good;
};

static double now(void) {
    struct timespec t;
    clock_gettime(CLOCK_MONOTONIC, &t);
    return (double)t.tv_sec + (double)t.tv_nsec * 1e-9;
}

static bool judge(const struct worker *worker) {
    return dted_number(worker->with->intake(DTED_YEAR_2, worker->copy, cells[2].length)) == DTED_OK;
}

static void *work(void *given) {
    struct worker *worker = given;
    worker->good = judge(worker);
    pthread_barrier_wait(worker->start);
    for (int i = 0; i < CELLS_EACH; i++)
        worker->good &= judge(worker);
    return NULL;
}

/* Cells a second of so many threads. */
static double rate(struct worker *workers, unsigned threads, const struct calls *with) {
    pthread_barrier_t start;
    bool good = true;
    pthread_barrier_init(&start, NULL, threads + 1);
    for (unsigned i = 0; i < threads; i++) {
        workers[i].with = with;
        workers[i].start = &start;
        if (pthread_create(&workers[i].thread, NULL, work, &workers[i]) != 0)
            stop("no thread");
    }
    pthread_barrier_wait(&start);
    double began = now();
    for (unsigned i = 0; i < threads; i++) {
        pthread_join(workers[i].thread, NULL);
        good &= workers[i].good;
    }
    double took = now() - began;
    pthread_barrier_destroy(&start);
    if (!good)
        stop("a thread's cell is refused");
    return CELLS_EACH * threads / took;
}

static int by_size(const void *a, const void *b) {
    double x = *(const double *)a, y = *(const double *)b;
    return (x > y) - (x < y);
}

static double median(double value[TURNS]) {
    qsort(value, TURNS, sizeof *value, by_size);
    return value[TURNS / 2];
}

static void print_rate(struct worker *workers, unsigned threads, const struct calls *with) {
    double one[TURNS], all[TURNS], ratio[TURNS];
    for (int i = 0; i < TURNS; i++) {
        one[i] = rate(workers, 1, with);
        all[i] = rate(workers, threads, with);
        ratio[i] = all[i] / one[i];
    }
    printf("%-14s  %-9s  %10.0f  %9.0f  %5.2f\n", with->who, cpu_name(with->cpu), median(one), median(all), median(ratio));
}

void print_throughput(void) {
    long cores = sysconf(_SC_NPROCESSORS_ONLN);
    unsigned threads = cores < 1 ? 1 : (unsigned)cores;
    struct worker *workers = (struct worker *)(void *)room_for(threads * sizeof *workers);
    for (unsigned i = 0; i < threads; i++)
        workers[i].copy = memcpy(room_for(cells[2].length), cells[2].bytes, cells[2].length);
    printf("\n%-14s  %-9s  %10s  %2u threads  %5s\n", "cells a second", "for", "one thread", threads, "ratio");
    for (size_t i = 0; i < set_count; i++)
        print_rate(workers, threads, &sets[i]);
}
