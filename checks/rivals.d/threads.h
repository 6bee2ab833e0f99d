/* Ranks as threads of their own, for by_hand.c and library.c. */
#ifndef THREADS_H
#define THREADS_H

#include "work.h"
#include <pthread.h>
#include <sched.h>
#include <stdbool.h>

static uint32_t ranks, items_each, capacity; /* capacity is how many items travel together */
static uint64_t *counts;                     /* of all ranks, CELLS each */
static uint64_t sums[MOST_RANKS][16];        /* each rank's sum, on cache lines of its own */

/* Takes ranks, items and capacity from the command line, and makes the table. */
static inline void read_words(int argc, char **argv) {
    ranks = number(argc, argv, 1, MOST_RANKS);
    items_each = number(argc, argv, 2, UINT32_MAX);
    capacity = number(argc, argv, 3, 1024);
    counts = new_counts(ranks);
}

/* Calls work with each rank's number, on a thread for each, and reports the time until all end. */
static inline void run_and_report(void *(*work)(void *)) {
    pthread_t threads[MOST_RANKS];
    double start = seconds_now();
    for (size_t rank = 0; rank < ranks; rank++)
        if (pthread_create(&threads[rank], NULL, work, (void *)rank) != 0)
            exit(1);
    for (uint32_t rank = 0; rank < ranks; rank++)
        pthread_join(threads[rank], NULL);
    double took = seconds_now() - start;
    uint64_t sum = 0;
    for (uint32_t rank = 0; rank < ranks; rank++)
        sum += sums[rank][0] + table_sum(counts + rank * CELLS, rank);
    report(ranks, items_each, took, sum);
}

#endif
